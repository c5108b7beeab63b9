/* Document 02, CR 6, in named cases: c, the slope at which a phase changes, in byte 5 for phase a, 6 for b and 7 for c. With all else equal
** the phase operates exactly for the slopes 1 to c. */
#include <string.h>

#include "lines.h"
#include "reading.h"

/* The paper mill's fault on phase a, P10 on b, and a current of 61 counts at end 1 alone on c. With a pickup of 60 c is 42, 49 and 99. */
static const line three_at_once = {2, {{{100, 0}, {90, 0}, {61, 0}}, {{-40, 0}, {-30, 0}, {0, 0}}}};

/* ---- The slope ---- */

/* 100 in and 40 out: U is 64 * 140 = 8960, s is 60 * 60, and 6400 * 60 = 384000. 42 * 8960 = 376320 is below it, 43 * 8960 = 385280 not. */
static void paper_mill_changes_at_42(void) {
  static const struct {
    int slope, phases;
  } set[] = {{15, GORSEPETAL_PHASE_A}, {42, GORSEPETAL_PHASE_A}, {43, 0}, {50, 0}, {1, GORSEPETAL_PHASE_A}, {100, 0}};
  line l = {.ends = 2};
  outfeed(&l, 0, 100, 40);
  for (size_t k = 0; k < sizeof set / sizeof *set; k++)
    for (int way = 0; way < WAYS; way++) {
      const uint8_t wanted[] = {set[k].phases != 0, (uint8_t)set[k].phases, 0, 0, 0, 42, 0, 0};
      check_bytes("bytes 0 to 7", ways[way].decided(record_of(2, set[k].slope, 60), window_of(&l)), wanted, sizeof wanted);
    }
  changes("100 in, 40 out", &l, 60, 42, 0, 0);
}

/* Document 01's P10. U is 64 * 120 = 7680, and 50 * 7680 is 6400 * 60 exactly: that does not operate. */
static void equality_does_not_operate(void) {
  line l = {.ends = 2};
  outfeed(&l, 0, 90, 30);
  changes("90 in, 30 out", &l, 60, 49, 0, 0);
  check("slope 49", ways[BY_DECIDE].decided(record_of(2, 49, 60), window_of(&l))[GORSEPETAL_DECISION_AT_PHASES], GORSEPETAL_PHASE_A);
  check("slope 50", ways[BY_DECIDE].decided(record_of(2, 50, 60), window_of(&l))[GORSEPETAL_DECISION_AT_PHASES], 0);
}

/* Document 01's P11: each end has 91 in U and (1, 1) in the sum, so s is 8. (99 * 182)² = 324648324 is below 40960000 * 8 = 327680000, and
** (100 * 182)² = 331240000 is not. 8 is at least 2², and one short of 3². */
static void small_currents(void) {
  const line l = {2, {{{1, 1}}, {{1, 1}}}};
  changes("pickup 1", &l, 1, 99, 0, 0);
  changes("pickup 2", &l, 2, 99, 0, 0);
  changes("pickup 3", &l, 3, 0, 0, 0);
}

/* The ends round up. (1, 0) and (-4, -4) have s = 25, which is 75.1 percent of what flows. But U is 64 + 363 = 427 for 426.04: 75 * 427 is
** 32025, above 6400 * 5 = 32000, and 74 * 427 is 31598. */
static void restraint_is_rounded_up(void) {
  const line l = {2, {{{1, 0}}, {{-4, -4}}}};
  changes("75.1 percent", &l, 1, 74, 0, 0);
}

/* The differential is not rounded. (3, 0) and (0, 1) have s = 10 and U = 192 + 64 = 256. (79 * 256)² = 409010176 is below 409600000. By the
** root of 4096 s as byte 20 on has it, 202, it would not be: 79 * 256 = 20224 is above 100 * 202. */
static void differential_is_not_rounded(void) {
  const line l = {2, {{{3, 0}}, {{0, 1}}}};
  changes("pickup 3", &l, 3, 79, 0, 0);
  changes("pickup 4", &l, 4, 0, 0, 0);
}

/* What flows in flows out, but a little. 20 of 2000 are 1 percent exactly, and 21 of 2001 a little more; 1 of 1999 is far below. */
static void below_slope_1(void) {
  line l = {.ends = 2};
  outfeed(&l, 0, 1010, 990);
  outfeed(&l, 1, 1011, 990);
  outfeed(&l, 2, 1000, 999);
  changes("pickup 1", &l, 1, 0, 1, 0);
  changes("pickup 20", &l, 20, 0, 1, 0);
  changes("pickup 21", &l, 21, 0, 1, 0);
  changes("pickup 22", &l, 22, 0, 0, 0);
}

/* Of 2000 counts in U: half a percent above c in phase a, c + 1 percent exactly in b, and a tenth of a percent above c in c. */
static void every_c(void) {
  for (int c = 0; c < LARGEST_SLOPE; c++) {
    line l = {.ends = 2};
    outfeed(&l, 0, 1005 + 10 * c, 995 - 10 * c);
    outfeed(&l, 1, 1010 + 10 * c, 990 - 10 * c);
    outfeed(&l, 2, 1001 + 10 * c, 999 - 10 * c);
    changes("all three phases", &l, 1, c, c, c);
  }
}

/* Each slope by two entries in turn; then the window by decide, and frame by frame. */
static void every_slope_on(const line *l, int pickup, int a, int b, int c) {
  const uint8_t *window = window_of(l);
  const int by_hand[PHASES] = {a, b, c};
  lend(&state, zeros, STATE);
  for (int slope = 1; slope <= LARGEST_SLOPE; slope++) {
    uint8_t wanted[DECISION];
    const uint8_t *record = record_of(2, slope, pickup);
    work_out(l, 1, pickup, wanted);
    wanted[GORSEPETAL_DECISION_AT_PHASES] = 0;
    for (int phase = 0; phase < PHASES; phase++) {
      wanted[CHANGE + phase] = (uint8_t)by_hand[phase];
      wanted[GORSEPETAL_DECISION_AT_PHASES] |= (uint8_t)((slope <= by_hand[phase]) << phase);
    }
    wanted[GORSEPETAL_DECISION_AT_TRIP] = wanted[GORSEPETAL_DECISION_AT_PHASES] != 0;
    check("propose", propose(record, RECORD), GORSEPETAL_DONE);
    check("confirm", confirm(record, RECORD), GORSEPETAL_DONE);
    check("decide", decide(window, WINDOW, DECISION), GORSEPETAL_DONE);
    out_is("decision", wanted);
    for (int n = 0; n < 15; n++) check("feed", feed(window + FRAME * n, FRAME, DECISION), GORSEPETAL_TOO_FEW_FRAMES);
    check("feed", feed(window + FRAME * 15, FRAME, DECISION), GORSEPETAL_DONE);
    out_is("decision by feed", wanted);
  }
}

static void every_slope(void) {
  line l = {.ends = 2};
  every_slope_on(&l, 1, 0, 0, 0);
  every_slope_on(&three_at_once, 60, 42, 49, 99);
  outfeed(&l, 0, 1010, 990); /* 0 by the slope */
  outfeed(&l, 1, 19, 0);     /* 0 by the pickup */
  outfeed(&l, 2, 1011, 990);
  every_slope_on(&l, 20, 0, 0, 1);
}

/* ---- The pickup ---- */

/* 51² is 2601, and (50, 10) has 2600, one short of it. */
static void pickup_at_its_edge(void) {
  const line l = {2, {{{51, 0}, {50, 10}, {51, 1}}}};
  changes("50", &l, 50, 99, 99, 99);
  changes("51", &l, 51, 99, 0, 99);
  changes("52", &l, 52, 0, 0, 0);
  changes("the largest", &l, LARGEST_PICKUP, 0, 0, 0);
}

/* By every pickup up to one above the differential. Of 32 bytes it moves byte 5, and bytes 0 and 1. */
static void every_pickup(void) {
  line l = {.ends = 2};
  outfeed(&l, 0, 100, 40);
  for (int pickup = 1; pickup <= 60; pickup++) changes("reached", &l, pickup, 42, 0, 0);
  changes("not reached", &l, 61, 0, 0, 0);
}

/* ---- Phases and ends ---- */

static void each_phase_in_its_byte(void) {
  check("byte 5", GORSEPETAL_DECISION_AT_CHANGE_A, 5);
  check("byte 6", GORSEPETAL_DECISION_AT_CHANGE_B, 6);
  check("byte 7", GORSEPETAL_DECISION_AT_CHANGE_C, 7);
  for (int set = 0; set < 8; set++) {
    line l = {.ends = 2};
    for (int phase = 0; phase < PHASES; phase++)
      if (set >> phase & 1) outfeed(&l, phase, 100, 40);
    changes("the mill's fault on some phases", &l, 60, set & 1 ? 42 : 0, set & 2 ? 42 : 0, set & 4 ? 42 : 0);
  }
}

static void three_different(void) {
  static const int by_hand[PHASES] = {42, 49, 99};
  for (int turn = 0; turn < PHASES; turn++) {
    line l = {.ends = 2};
    for (int end = 0; end < 2; end++)
      for (int phase = 0; phase < PHASES; phase++) l.of[end][phase] = three_at_once.of[end][(phase + turn) % PHASES];
    changes("by turns", &l, 60, by_hand[turn], by_hand[(1 + turn) % PHASES], by_hand[(2 + turn) % PHASES]);
  }
}

/* Phase a: 100 in at every end but one, where 40 flow out. Phase b: 100 in at one end, 10 out at each other. Phase c: 50 in at each. The
** end that differs is each in turn. */
static void two_to_six_ends(void) {
  static const int by_hand[][2] = {{42, 81}, {66, 66}, {76, 53}, {81, 42}, {85, 33}}; /* 60/140 and 90/110; 160/240 and 80/120; .. */
  for (int ends = FEWEST_ENDS; ends <= MOST_ENDS; ends++)
    for (int other_end = 0; other_end < ends; other_end++) {
      line l = {.ends = ends};
      for (int end = 0; end < ends; end++) {
        l.of[end][0].re = end == other_end ? -40 : 100;
        l.of[end][1].im = end == other_end ? 100 : -10;
        l.of[end][2].re = 50;
      }
      changes("by turns", &l, 50, by_hand[ends - 2][0], by_hand[ends - 2][1], 99);
    }
}

/* A square wave of full scale has the largest component there is: 164736 * 32767 is 41182.7 times 131072, which rounds to 41183. */
static void square_wave(uint8_t *window, int ends, int channel, int sign) {
  for (int n = 0; n < GORSEPETAL_FRAMES; n++)
    put(window, 2 * (GORSEPETAL_CHANNELS(ends) * n + channel), (n <= 4 || n >= 12 ? sign : -sign) * GORSEPETAL_LARGEST_SAMPLE);
}

/* It is at every end, and some are turned: of N ends with k turned, N - 2k of N flow into the fault. 2 of 4 turned leave nothing. */
static void largest_currents(void) {
  static const struct {
    int ends, turned, c;
  } lines[] = {{2, 0, 99}, {2, 1, 0},  {3, 0, 99}, {3, 1, 33}, {4, 1, 49}, {4, 2, 0},
               {5, 1, 59}, {5, 2, 19}, {6, 0, 99}, {6, 1, 66}, {6, 2, 33}, {6, 3, 0}};
  for (size_t k = 0; k < sizeof lines / sizeof *lines; k++) {
    line l = {.ends = lines[k].ends};
    uint8_t window[LONGEST] = {0};
    for (int end = 0; end < l.ends; end++)
      for (int phase = 0; phase < PHASES; phase++) {
        int sign = end < lines[k].turned ? -1 : 1;
        l.of[end][phase].re = 41183 * sign;
        square_wave(window, l.ends, 3 + 3 * end + phase, sign);
      }
    int c = lines[k].c, left = lines[k].ends - 2 * lines[k].turned;
    changes_at("pickup 1", &l, window, 1, c, c, c);
    changes_at("pickup 41183", &l, window, 41183, c, c, c);
    if (left == 1) c = 0; /* 41183 is below 42000, and 2 * 41183 is not */
    changes_at("the largest pickup", &l, window, LARGEST_PICKUP, c, c, c);
  }
}

/* Currents of no meaning, up to 2000 counts, and pickups up to 3000. */
static void drawn_currents(void) {
  int seen[LARGEST_SLOPE] = {0}, different = 0;
  uint32_t seed = 6;
  for (int n = 0; n < 300; n++) {
    line l = {.ends = FEWEST_ENDS + n % 5};
    for (int k = 0; k < 2 * PHASES * l.ends; k++) {
      current *i = &l.of[k / 2 / PHASES][k / 2 % PHASES];
      seed = 1664525 * seed + 1013904223;
      *(k % 2 ? &i->im : &i->re) = (int)((seed >> 8) % 4001) - 2000;
    }
    by_the_rules("drawn", &l, window_of(&l), 1 + n % LARGEST_SLOPE, n % 3 == 0 ? 1 + 10 * n : 1);
    for (int phase = 0; phase < PHASES; phase++) seen[out.all[GUARD + CHANGE + phase]]++;
  }
  for (int c = 0; c < LARGEST_SLOPE; c++) different += seen[c] > 0;
  check("most c are seen", different > 80, 1);
}

/* ---- Beside all else ---- */

/* The fault of docs/HAND-CHECKS.md, of which 400 counts of 1000 flow out at end 2: c is 42 beside what the loops and the direction say. At
** slope 50 distance alone trips. U is 64 * 1400 = 89600, 15E00 in hexadecimal, and the root of 4096 s is 38400, 9600. */
static void beside_distance(void) {
  uint8_t window[WINDOW];
  fault_on(window, 0, 1, 1);
  phasor(window, 6, 0, 400);
  for (int slope = 15; slope <= 50; slope += 35)
    for (int first = 599; first <= 600; first++)
      for (int way = 0; way < WAYS; way++) {
        uint8_t *record = with_reaches(first, 600), operating = slope == 15, loop = first == 600;
        const uint8_t wanted[DECISION] = {operating || loop, operating, loop, GORSEPETAL_DIRECTION_FORWARD, GORSEPETAL_LOOP_AG, 42, 0, 0, 0,
                                          0x01, 0x5E, 0x00, [22] = 0x96};
        put(record, GORSEPETAL_AT_SLOPE, slope);
        ways[way].decided(record, window);
        out_is(ways[way].name, wanted);
      }
}

/* The decision is 32 bytes of any room, and no byte of a room that is too small. A refusal leaves bytes 5 to 7 as they were. */
static void room_for_the_changes(void) {
  uint8_t wanted[DECISION], window[WINDOW];
  work_out(&three_at_once, 15, 60, wanted);
  memcpy(window, window_of(&three_at_once), WINDOW);
  lend_state(record_of(2, 15, 60), zeros);
  for (size_t room = 0; room <= ROOM; room++) {
    check("decide", decide(window, WINDOW, room), room < DECISION ? GORSEPETAL_NO_ROOM : GORSEPETAL_DONE);
    if (room < DECISION)
      out_untouched();
    else
      out_is("decision", wanted);
  }
  put(window, WINDOW - 2, GORSEPETAL_MISSING);
  check("the last sample missing", decide(window, WINDOW, DECISION), refused(GORSEPETAL_MISSING_SAMPLE, WINDOW / 2 - 1));
  out_untouched();
}

/* From two entries on, record by record of an event file. */
static void changes_in_an_event_file(void) {
  uint8_t wanted[DECISION];
  const uint8_t *window = window_of(&three_at_once);
  work_out(&three_at_once, 15, 60, wanted);
  lend_relay(record_of(2, 15, 60), 0, zeros);
  lend_reader(2, 0, 0);
  for (uint32_t n = 0; n < 15; n++) reads("read", n + 1, window + FRAME * n, GORSEPETAL_TOO_FEW_FRAMES);
  reads("read", 16, window + FRAME * 15, GORSEPETAL_DONE);
  out_is("decision", wanted);
  check("c of phase a", out.all[GUARD + CHANGE], 42);
}

/* A state of version 4, window and all: the same 738 bytes. It reads back, and it decides and feeds with c where there were zeros. */
static void state_of_version_4(void) {
  uint8_t wanted[DECISION];
  work_out(&three_at_once, 15, 60, wanted);
  stored_state_serves(record_of(2, 15, 60), window_of(&three_at_once), wanted);
  check("length", state.length, 738);
}

const struct test_case change_cases[] = {
    {"paper mill changes at 42", paper_mill_changes_at_42},
    {"equality does not operate", equality_does_not_operate},
    {"small currents", small_currents},
    {"restraint is rounded up", restraint_is_rounded_up},
    {"differential is not rounded", differential_is_not_rounded},
    {"below slope 1", below_slope_1},
    {"every c", every_c},
    {"every slope", every_slope},
    {"differential pickup at its edge", pickup_at_its_edge},
    {"every differential pickup", every_pickup},
    {"each phase in its byte", each_phase_in_its_byte},
    {"three different", three_different},
    {"changes on two to six ends", two_to_six_ends},
    {"largest currents", largest_currents},
    {"drawn currents", drawn_currents},
    {"beside distance", beside_distance},
    {"room for the changes", room_for_the_changes},
    {"changes in an event file", changes_in_an_event_file},
    {"state of version 4", state_of_version_4},
    {0, 0},
};
