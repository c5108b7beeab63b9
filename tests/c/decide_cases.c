/* Decide in named cases. */
#include <string.h>

#include "lent.h"

/* The example of document 01: 288 zero bytes, by the record above. */
static void quiet_window(void) {
  lend_state(good, zeros);
  check("decide", decide(zeros, WINDOW, DECISION), GORSEPETAL_DONE);
  out_is("decision", zeros);
}

static void decide_by_the_record_in_force(void) {
  lend_state(zeros, good);
  check("only pending", decide(zeros, WINDOW, DECISION), GORSEPETAL_NO_SETTINGS);
  out_untouched();
  check("confirm", confirm(good, RECORD), GORSEPETAL_DONE);
  check("in force", decide(zeros, WINDOW, DECISION), GORSEPETAL_DONE);
  lend_state(bad, good);
  check("in force, but out of range", decide(zeros, WINDOW, DECISION), GORSEPETAL_NO_SETTINGS);
  out_untouched();
}

/* A window with a missing sample: everything that can be wrong is, and then one thing less at a time. */
static void refusals_of_decide_in_order(void) {
  uint8_t window[WINDOW] = {0};
  window[2 * 34] = 0x80; /* Ib of end 2 in frame 3 */
  lend_state(zeros, good);
  check("no settings, another length, no room", decide(window, WINDOW - 2, DECISION - 1), GORSEPETAL_NO_SETTINGS);
  out_untouched();
  lend_state(good, zeros);
  check("another length, no room", decide(window, WINDOW - 2, DECISION - 1), GORSEPETAL_OTHER_WINDOW_LENGTH);
  out_untouched();
  check("no room", decide(window, WINDOW, DECISION - 1), GORSEPETAL_NO_ROOM);
  out_untouched();
  check("a sample missing", decide(window, WINDOW, DECISION), refused(GORSEPETAL_MISSING_SAMPLE, 34));
  out_untouched();
  window[2 * 34] = 0;
  check("nothing wrong", decide(window, WINDOW, DECISION), GORSEPETAL_DONE);
}

static void window_of_another_length(void) {
  uint8_t window[ROOM] = {0};
  lend_state(good, zeros);
  for (size_t length = 0; length <= ROOM; length++) {
    int right = length == WINDOW;
    check("decide", decide(window, length, DECISION), right ? GORSEPETAL_DONE : GORSEPETAL_OTHER_WINDOW_LENGTH);
    if (!right) out_untouched();
  }
}

static void window_of_each_number_of_ends(void) {
  for (uint8_t ends = 2; ends <= 6; ends++)
    for (uint8_t others = 2; others <= 6; others++) {
      uint8_t record[RECORD];
      memcpy(record, good, RECORD);
      record[1] = ends;
      lend_state(record, zeros);
      check("decide", decide(zeros, (size_t)GORSEPETAL_WINDOW_BYTES(others), DECISION),
            ends == others ? GORSEPETAL_DONE : GORSEPETAL_OTHER_WINDOW_LENGTH);
    }
}

static void missing_sample_at_each_place(void) {
  lend_state(good, zeros);
  for (int place = 0; place < WINDOW / 2; place++) {
    uint8_t window[WINDOW] = {0};
    window[2 * place] = 0x80;
    window[WINDOW - 2] = 0x80; /* the last is missing too: the first is named */
    check("decide", decide(window, WINDOW, DECISION), refused(GORSEPETAL_MISSING_SAMPLE, (uint64_t)place));
    out_untouched();
  }
}

static void room_to_decide(void) {
  lend_state(good, other);
  for (size_t room = 0; room < DECISION; room++) {
    check("too little room", decide(zeros, WINDOW, room), GORSEPETAL_NO_ROOM);
    out_untouched();
  }
  for (size_t room = DECISION; room <= ROOM; room++) {
    check("room", decide(zeros, WINDOW, room), GORSEPETAL_DONE);
    out_is("decision", zeros);
  }
}

/* 100 counts into the line at end 1, 40 out of it at end 2, on each phase in turn: U is 64 * 100 + 64 * 40 = 8960, s is
** 60 * 60 = 3600, the root of 4096 * 3600 is 64 * 60 = 3840. 15 * 8960 is below 100 * 3840, and 50 * 8960 is not. The phase changes
** at 42, whatever the slope is: 42 * 8960 = 376320 is below 384000, and 43 * 8960 = 385280 is not. */
static void paper_mill(void) {
  for (int slope = 15; slope <= 50; slope += 35)
    for (int phase = 0; phase < 3; phase++) {
      uint8_t record[RECORD], window[WINDOW] = {0}, wanted[DECISION] = {0};
      memcpy(record, good, RECORD);
      record[3] = (uint8_t)slope;
      record[5] = 60; /* pickup */
      phasor(window, 3 + phase, 100, 0);
      phasor(window, 6 + phase, -40, 0);
      wanted[0] = slope == 15;
      wanted[1] = slope == 15 ? (uint8_t)(1 << phase) : 0;
      wanted[5 + phase] = 42;
      put(wanted, 8 + 4 * phase + 2, 8960);
      put(wanted, 20 + 4 * phase + 2, 3840);
      lend_state(record, zeros);
      check(slope == 15 ? "slope 15" : "slope 50", decide(window, WINDOW, DECISION), GORSEPETAL_DONE);
      out_is("decision", wanted);
    }
}

/* The fault that docs/HAND-CHECKS.md works out: forward, and loop AG asserts from a reach of 600. The current of end 1 leaves at
** end 2, so that no phase operates: U is 2 * 64 * 1000 = 128000, 1F400 in hexadecimal. */
static void fault_in_front(void) {
  static const int reaches[] = {850, 600, 599};
  uint8_t window[WINDOW] = {0};
  phasor(window, 0, 1000, 0);
  phasor(window, 1, -1000, -1732);
  phasor(window, 2, -1000, 1732);
  phasor(window, 3, 0, -1000);
  phasor(window, 6, 0, 1000);
  for (size_t k = 0; k < sizeof reaches / sizeof *reaches; k++) {
    uint8_t record[RECORD], wanted[DECISION] = {0, 0, 0, 1, 0, 0, 0, 0, 0, 0x01, 0xF4, 0x00};
    memcpy(record, good, RECORD);
    put(record, 10, reaches[k]);
    wanted[0] = wanted[2] = reaches[k] >= 600;
    lend_state(record, zeros);
    check("decide", decide(window, WINDOW, DECISION), GORSEPETAL_DONE);
    out_is("decision", wanted);
  }
}

/* Each part of a decision by the header's names: the six loops and both directions, and the three phases. */
static void names_of_a_decision(void) {
  static const int loops[2][3] = {{GORSEPETAL_LOOP_BC, GORSEPETAL_LOOP_CA, GORSEPETAL_LOOP_AB},
                                  {GORSEPETAL_LOOP_AG, GORSEPETAL_LOOP_BG, GORSEPETAL_LOOP_CG}};
  static const int operating[] = {GORSEPETAL_PHASE_A, GORSEPETAL_PHASE_B, GORSEPETAL_PHASE_C};
  static const int change[] = {GORSEPETAL_DECISION_AT_CHANGE_A, GORSEPETAL_DECISION_AT_CHANGE_B, GORSEPETAL_DECISION_AT_CHANGE_C};
  static const int restraint[] = {GORSEPETAL_DECISION_AT_RESTRAINT_A, GORSEPETAL_DECISION_AT_RESTRAINT_B,
                                  GORSEPETAL_DECISION_AT_RESTRAINT_C};
  static const int differential[] = {GORSEPETAL_DECISION_AT_DIFFERENTIAL_A, GORSEPETAL_DECISION_AT_DIFFERENTIAL_B,
                                     GORSEPETAL_DECISION_AT_DIFFERENTIAL_C};
  uint8_t window[WINDOW];
  const uint8_t *decided = out.all + GUARD;
  lend_state(good, zeros);
  for (int x = 0; x < 3; x++) {
    for (int to_ground = 0; to_ground < 2; to_ground++)
      for (int ahead = 0; ahead < 2; ahead++) {
        fault_on(window, x, to_ground, ahead ? 1 : -1);
        check("decide", decide(window, WINDOW, DECISION), GORSEPETAL_DONE);
        check("direction", decided[GORSEPETAL_DECISION_AT_DIRECTION], ahead ? GORSEPETAL_DIRECTION_FORWARD : GORSEPETAL_DIRECTION_REVERSE);
        check("loop", (decided[GORSEPETAL_DECISION_AT_LOOPS] & loops[to_ground][x]) != 0, (uint64_t)ahead);
        check("trip", decided[GORSEPETAL_DECISION_AT_TRIP], (uint64_t)ahead);
        check("phases", decided[GORSEPETAL_DECISION_AT_PHASES] & GORSEPETAL_PHASES, 0);
      }
    memset(window, 0, WINDOW);
    phasor(window, 3 + x, 1000, 0); /* at end 1 alone: 64000 sixty-fourths in U and in the differential, which operates up to slope 99 */
    check("decide", decide(window, WINDOW, DECISION), GORSEPETAL_DONE);
    check("phase", decided[GORSEPETAL_DECISION_AT_PHASES] & GORSEPETAL_PHASES, (uint64_t)operating[x]);
    check("slope of change", decided[change[x]], 99);
    check("restraint", 256u * decided[restraint[x] + 2] + decided[restraint[x] + 3], 64000);
    check("differential", 256u * decided[differential[x] + 2] + decided[differential[x] + 3], 64000);
    check("direction", decided[GORSEPETAL_DECISION_AT_DIRECTION], GORSEPETAL_DIRECTION_NONE);
  }
  put(window, 0, GORSEPETAL_MISSING);
  check("missing", decide(window, WINDOW, DECISION), refused(GORSEPETAL_MISSING_SAMPLE, 0));
  put(window, 0, -GORSEPETAL_LARGEST_SAMPLE);
  check("clipped", decide(window, WINDOW, DECISION), GORSEPETAL_DONE);
  check_bytes("record in force", state.all + GUARD + GORSEPETAL_STATE_AT_IN_FORCE, good, RECORD);
  check_bytes("pending record", state.all + GUARD + GORSEPETAL_STATE_AT_PENDING, zeros, RECORD);
}

const struct test_case decide_cases[] = {
    {"quiet window", quiet_window},
    {"decide by the record in force", decide_by_the_record_in_force},
    {"refusals of decide in order", refusals_of_decide_in_order},
    {"window of another length", window_of_another_length},
    {"window of each number of ends", window_of_each_number_of_ends},
    {"missing sample at each place", missing_sample_at_each_place},
    {"room to decide", room_to_decide},
    {"paper mill", paper_mill},
    {"fault in front", fault_in_front},
    {"names of a decision", names_of_a_decision},
    {0, 0},
};
