/* Lines by their currents alone, and what the rules of the differential make of them, worked out in whole numbers. */
#include <string.h>

#include "lines.h"

const uint8_t *window_of(const line *l) {
  static uint8_t window[LONGEST];
  memset(window, 0, sizeof window);
  for (int end = 0; end < l->ends; end++)
    for (int phase = 0; phase < PHASES; phase++) {
      int channel = 3 + 3 * end + phase;
      put(window, 2 * channel, 8 * l->of[end][phase].re);
      put(window, 2 * (4 * GORSEPETAL_CHANNELS(l->ends) + channel), -8 * l->of[end][phase].im);
    }
  return window;
}

const uint8_t *record_of(int ends, int slope, int pickup) {
  static uint8_t record[RECORD];
  with_ends(record, ends);
  put(record, GORSEPETAL_AT_SLOPE, slope);
  put(record, GORSEPETAL_AT_PICKUP, pickup);
  return record;
}

void outfeed(line *l, int phase, int in, int out) {
  l->of[0][phase] = (current){in, 0};
  l->of[1][phase] = (current){-out, 0};
}

/* The rules */

static uint64_t squared(int re, int im) { return (uint64_t)((int64_t)re * re + (int64_t)im * im); }

/* The smallest whole number whose square is at least n. */
static uint64_t root_up(uint64_t n) {
  uint64_t u = 0;
  for (uint64_t bit = 1 << 24; bit > 0; bit /= 2)
    if ((u + bit - 1) * (u + bit - 1) < n) u += bit;
  return u;
}

static int operates(uint64_t slope, uint64_t pickup, uint64_t s, uint64_t u) {
  return s >= pickup * pickup && 40960000 * s > slope * u * slope * u;
}

static void put_word(uint8_t *bytes, uint64_t number) {
  put(bytes, 0, (int)(number >> 16));
  put(bytes, 2, (int)(number & 65535));
}

void work_out(const line *l, int slope, int pickup, uint8_t wanted[DECISION]) {
  memset(wanted, 0, DECISION);
  for (int phase = 0; phase < PHASES; phase++) {
    int re = 0, im = 0;
    uint64_t u = 0;
    for (int end = 0; end < l->ends; end++) {
      current i = l->of[end][phase];
      re += i.re;
      im += i.im;
      u += root_up(4096 * squared(i.re, i.im));
    }
    uint64_t s = squared(re, im);
    for (int k = 1; k <= LARGEST_SLOPE; k++)
      if (operates((uint64_t)k, (uint64_t)pickup, s, u)) wanted[CHANGE + phase] = (uint8_t)k;
    if (operates((uint64_t)slope, (uint64_t)pickup, s, u)) wanted[GORSEPETAL_DECISION_AT_PHASES] |= (uint8_t)(1 << phase);
    put_word(wanted + GORSEPETAL_DECISION_AT_RESTRAINT_A + 4 * phase, u);
    put_word(wanted + GORSEPETAL_DECISION_AT_DIFFERENTIAL_A + 4 * phase, root_up(4096 * s + 1) - 1);
  }
  wanted[GORSEPETAL_DECISION_AT_TRIP] = wanted[GORSEPETAL_DECISION_AT_PHASES] != 0;
}

/* What decide and feed say */

void by_the_rules(const char *what, const line *l, const uint8_t *window, int slope, int pickup) {
  uint8_t wanted[DECISION];
  work_out(l, slope, pickup, wanted);
  for (int way = 0; way < WAYS; way++) {
    ways[way].decided(record_of(l->ends, slope, pickup), window);
    out_is(what, wanted);
  }
}

void changes_at(const char *what, const line *l, const uint8_t *window, int pickup, int a, int b, int c) {
  const int by_hand[PHASES] = {a, b, c}, slopes[] = {15, a, a + 1, b, b + 1, c, c + 1, 1, 50, LARGEST_SLOPE};
  for (size_t k = 0; k < sizeof slopes / sizeof *slopes; k++) {
    if (slopes[k] == 0) continue; /* no record has it */
    by_the_rules(what, l, window, slopes[k], pickup);
    for (int phase = 0; phase < PHASES; phase++) {
      check(what, out.all[GUARD + CHANGE + phase], (uint64_t)by_hand[phase]);
      check("operates", out.all[GUARD + GORSEPETAL_DECISION_AT_PHASES] >> phase & 1, slopes[k] <= by_hand[phase]);
    }
  }
}

void changes(const char *what, const line *l, int pickup, int a, int b, int c) {
  changes_at(what, l, window_of(l), pickup, a, b, c);
}
