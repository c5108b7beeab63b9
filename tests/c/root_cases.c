/* Both roots as decide shows them, held to their definitions: the largest r with r² <= n, and the smallest u with u² >= n. So they are
** checked without any root being worked out here. Document 02, CR 3, left them as they were. */
#include <string.h>

#include "lent.h"

enum { RESTRAINT = GORSEPETAL_DECISION_AT_RESTRAINT_A, DIFFERENTIAL = GORSEPETAL_DECISION_AT_DIFFERENTIAL_A };
enum { ENDS = 6, LARGEST = 4095 }; /* 8 times it is still a sample, so that one sample makes it exactly */

static uint64_t word(int at) {
  const uint8_t *bytes = out.all + GUARD + at;
  return (uint64_t)bytes[0] << 24 | (uint64_t)bytes[1] << 16 | (uint64_t)bytes[2] << 8 | bytes[3];
}

/* Decides on a window of six ends in which phase a of every end has this phasor, and all else is zero. */
static void decide_on(int re, int im) {
  uint8_t record[RECORD], window[LONGEST] = {0};
  memcpy(record, good, RECORD);
  put(record, GORSEPETAL_AT_ENDS, ENDS);
  for (int end = 1; end <= ENDS; end++) {
    put(window, 2 * 3 * end, 8 * re);
    put(window, 2 * (4 * GORSEPETAL_CHANNELS(ENDS) + 3 * end), -8 * im);
  }
  lend_state(record, zeros);
  check("decide", decide(window, LONGEST, DECISION), GORSEPETAL_DONE);
}

/* The restraint is so many ends times u, and the differential so many times the phasor. */
static void roots_of(int re, int im) {
  decide_on(re, im);
  uint64_t n = 4096 * (uint64_t)(re * re + im * im), all = ENDS * ENDS * n;
  uint64_t u = word(RESTRAINT) / ENDS, r = word(DIFFERENTIAL);
  check("six ends have six times the restraint of one", word(RESTRAINT) % ENDS, 0);
  check("u is enough", u * u >= n, 1);
  check("u is the smallest", n == 0 ? u == 0 : (u - 1) * (u - 1) < n, 1);
  check("r is not too large", r * r <= all, 1);
  check("r is the largest", all < (r + 1) * (r + 1), 1);
}

static void root_of_zero(void) {
  roots_of(0, 0);
  check("restraint", word(RESTRAINT), 0);
  check("differential", word(DIFFERENTIAL), 0);
}

/* 90² = 8100 < 8192 <= 91² = 8281, so an end has 91. */
static void root_of_8192(void) {
  roots_of(1, 1);
  check("restraint", word(RESTRAINT), 91 * ENDS);
}

static void roots_of_squares(void) {
  for (int k = 1; k <= LARGEST; k++) {
    roots_of(k, 0);
    check("restraint", word(RESTRAINT), (uint64_t)(64 * k * ENDS));
    check("differential", word(DIFFERENTIAL), (uint64_t)(64 * k * ENDS));
  }
}

static void roots_next_to_squares(void) {
  for (int k = 1; k <= LARGEST; k++) roots_of(k, 1);
}

static void roots_far_from_squares(void) {
  for (int k = 1; k <= LARGEST; k++) roots_of(k, k);
}

const struct test_case root_cases[] = {
    {"root of zero", root_of_zero},
    {"root of 8192", root_of_8192},
    {"roots of squares", roots_of_squares},
    {"roots next to squares", roots_next_to_squares},
    {"roots far from squares", roots_far_from_squares},
    {0, 0},
};
