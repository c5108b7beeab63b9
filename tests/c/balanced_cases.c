/* Document 02, CR 4, in named cases: where 3I2 is below its pickup and AB, BC and CA all assert in the first zone, that trips too. */
#include <string.h>

#include "lent.h"

enum { NONE = GORSEPETAL_DIRECTION_NONE, FORWARD = GORSEPETAL_DIRECTION_FORWARD, REVERSE = GORSEPETAL_DIRECTION_REVERSE };
enum { PHASE_LOOPS = GORSEPETAL_LOOP_AB + GORSEPETAL_LOOP_BC + GORSEPETAL_LOOP_CA, ALL_LOOPS = 63 };
enum { OFF = 0, MOST = 2000, LARGEST_PICKUP = 42000 };

/* ---- Windows, records and decisions ---- */

typedef enum { HALFWAY, ALL_BUT_AB, ALL_BUT_BC, ALL_BUT_CA, NO_GROUND_LOOP, BEHIND, NO_VOLTAGE, ONE_COUNT, LOAD, HEAVY_LOAD } fault;

/* Of each phase the voltage and the current of end 1, which leaves at end 2, so that no phase operates. 3I2 is zero in all of them. */
static const int of_fault[][3][4] = {
    [HALFWAY] = {{500, 0, 0, -1000}, {-250, -433, -866, 500}, {-250, 433, 866, 500}},
    [ALL_BUT_AB] = {{818, 183, 0, -1000}, {-568, -617, -866, 500}, {-150, 260, 866, 500}},
    [ALL_BUT_BC] = {{300, 0, 0, -1000}, {-250, -800, -866, 500}, {-250, 800, 866, 500}},
    [ALL_BUT_CA] = {{818, -183, 0, -1000}, {-150, -260, -866, 500}, {-568, 617, 866, 500}},
    [NO_GROUND_LOOP] = {{-1200, 0, 0, -640}, {-1950, -433, -866, 860}, {-1950, 433, 866, 860}},
    [BEHIND] = {{500, 0, 0, 1000}, {-250, -433, 866, -500}, {-250, 433, -866, -500}},
    [NO_VOLTAGE] = {{0, 0, 0, -1000}, {0, 0, -866, 500}, {0, 0, 866, 500}},
    [ONE_COUNT] = {{1, 0, 0, -1000}, {0, -1, -866, 500}, {-1, 1, 866, 500}},
    [LOAD] = {{500, 0, 1000, 0}, {-250, -433, -500, -866}, {-250, 433, -500, 866}},
    [HEAVY_LOAD] = {{500, 0, 800, -600}, {-250, -433, -920, -393}, {-250, 433, 119, 993}},
};

/* Each of these stays until the next call. */
static uint8_t *window_of(fault which) {
  static uint8_t window[WINDOW];
  memset(window, 0, WINDOW);
  for (int phase = 0; phase < 3; phase++) {
    const int *of = of_fault[which][phase];
    phasor(window, phase, of[0], of[1]);
    through(window, phase, of[2], of[3]);
  }
  return window;
}

/* Halfway, with so much current beside in one phase. */
static uint8_t *halfway_and(int phase, int re, int im) {
  uint8_t *window = window_of(HALFWAY);
  through(window, phase, of_fault[HALFWAY][phase][2] + re, of_fault[HALFWAY][phase][3] + im);
  return window;
}

/* Halfway with another Va, and with a 3I2 of (0, -i2). 3V2 is what Va has above 500. */
static uint8_t *unbalanced(int va, int i2) {
  uint8_t *window = halfway_and(0, 0, -i2);
  phasor(window, 0, va, 0);
  return window;
}

/* The good record with another pickup of 3I2. */
static uint8_t *with_pickup(int pickup) {
  uint8_t *record = with_reaches(850, OFF);
  put(record, GORSEPETAL_AT_NEGATIVE_SEQUENCE_PICKUP, pickup);
  return record;
}

/* The first bytes of a decision. */
typedef struct {
  int trip, phases, loops, direction, second_zone;
} decision;

/* Decides on a window, by decide and by feed. */
static void decides(const char *what, const uint8_t *record, const uint8_t *window, decision d) {
  const uint8_t wanted[] = {(uint8_t)d.trip, (uint8_t)d.phases, (uint8_t)d.loops, (uint8_t)d.direction, (uint8_t)d.second_zone};
  for (int way = 0; way < WAYS; way++) check_bytes(what, ways[way].decided(record, window), wanted, sizeof wanted);
}

/* Distance trips, with these loops and no direction; or it does not. */
static void trips(const char *what, const uint8_t *record, const uint8_t *window, int loops) {
  decides(what, record, window, (decision){.trip = 1, .loops = loops});
}
static void does_not_trip(const char *what, const uint8_t *record, const uint8_t *window, int loops) {
  decides(what, record, window, (decision){.loops = loops});
}

/* Where 3I2 reaches its pickup: all loops assert, and forward trips. */
static void goes_by_direction(const uint8_t *record, const uint8_t *window, int direction) {
  decides("3I2 at its pickup", record, window, (decision){.trip = direction == FORWARD, .loops = ALL_LOOPS, .direction = direction});
}

/* ---- The loops ---- */

/* All 32 bytes. AB, BC and CA have the same n, 1299000, and the same m, 2598000000: they assert from 500 on. U of phase a is 2 * 64000. In
** b and c the root of 4096 * 999956 lies between 63998 and 63999, so U is 2 * 63999. */
static const uint8_t halfway_decided[DECISION] = {
    1, 0, ALL_LOOPS, NONE, 0, 0, 0, 0, 0, 0x01, 0xF4, 0x00, 0, 0x01, 0xF3, 0xFE, 0, 0x01, 0xF3, 0xFE,
};

static void balanced_fault(void) {
  static const int reaches[] = {1, 499, 500, 501, 850, MOST};
  for (int way = 0; way < WAYS; way++)
    for (size_t k = 0; k < sizeof reaches / sizeof *reaches; k++) {
      uint8_t wanted[DECISION];
      memcpy(wanted, halfway_decided, DECISION);
      if (reaches[k] < 500) wanted[0] = wanted[2] = 0;
      ways[way].decided(with_reaches(reaches[k], OFF), window_of(HALFWAY));
      out_is(ways[way].name, wanted);
    }
}

/* The last of the three asserts from 924 on, and only then is there a trip. All other loops do from 819 on. */
static void each_phase_loop_is_asked_for(void) {
  for (int k = 0; k < 3; k++) {
    int others = ALL_LOOPS - (GORSEPETAL_LOOP_AB << k);
    does_not_trip("850", with_reaches(850, OFF), window_of(ALL_BUT_AB + k), others);
    does_not_trip("923", with_reaches(923, OFF), window_of(ALL_BUT_AB + k), others);
    trips("924", with_reaches(924, OFF), window_of(ALL_BUT_AB + k), ALL_LOOPS);
    does_not_trip("the largest pickup", with_pickup(LARGEST_PICKUP), window_of(ALL_BUT_AB + k), others);
  }
}

/* A zero sequence in the voltages and the currents hides the fault from the ground loops. */
static void no_ground_loop_is_asked_for(void) {
  does_not_trip("499", with_reaches(499, OFF), window_of(NO_GROUND_LOOP), 0);
  trips("500", with_reaches(500, OFF), window_of(NO_GROUND_LOOP), PHASE_LOOPS);
  trips("850", with_reaches(850, OFF), window_of(NO_GROUND_LOOP), PHASE_LOOPS);
}

static void second_zone_has_no_part(void) {
  static const int without_trip[][3] = {{1, MOST, ALL_LOOPS}, {499, 499, 0}, {499, 500, ALL_LOOPS}}; /* the last one: in the second zone */
  static const int with_trip[][3] = {{500, OFF, 0}, {500, 500, ALL_LOOPS}, {500, MOST, ALL_LOOPS}};
  for (int k = 0; k < 3; k++) {
    decides("beyond the first reach", with_reaches(without_trip[k][0], without_trip[k][1]), window_of(HALFWAY),
            (decision){.second_zone = without_trip[k][2]});
    decides("within it", with_reaches(with_trip[k][0], with_trip[k][1]), window_of(HALFWAY),
            (decision){.trip = 1, .loops = ALL_LOOPS, .second_zone = with_trip[k][2]});
    decides("one of the three beyond it", with_reaches(850, MOST), window_of(ALL_BUT_AB + k),
            (decision){.loops = ALL_LOOPS - (GORSEPETAL_LOOP_AB << k), .second_zone = ALL_LOOPS});
  }
}

/* Every m is negative: no loop in either zone, at any reach. */
static void balanced_fault_behind(void) {
  static const int reaches[] = {1, 499, 500, 850, MOST};
  for (size_t k = 0; k < sizeof reaches / sizeof *reaches; k++)
    does_not_trip("behind", with_reaches(reaches[k], MOST), window_of(BEHIND), 0);
}

/* With no voltage no loop asserts. But no least voltage is asked for: under load one count of noise is enough. */
static void voltage_lost(void) {
  does_not_trip("nothing left", with_reaches(MOST, MOST), window_of(NO_VOLTAGE), 0);
  trips("one count left", good, window_of(ONE_COUNT), ALL_LOOPS);
}

/* The loops take a load for a fault with resistance. In phase with its voltage it lies outside every circle. At half a count of voltage for
** a count of current, and 37 degrees behind, it seems to lie at 500 / 0.6 = 833 thousandths. */
static void load_like_a_fault(void) {
  does_not_trip("in phase", with_reaches(MOST, OFF), window_of(LOAD), 0);
  does_not_trip("outside the circle", with_reaches(830, OFF), window_of(HEAVY_LOAD), 0);
  trips("inside the circle", with_reaches(836, OFF), window_of(HEAVY_LOAD), ALL_LOOPS);
}

/* ---- 3I2 and the direction ---- */

/* A current beside in one phase, and the smallest pickup that its 3I2 does not reach. Its magnitude counts, of parts that are rounded: in
** phase b a current of (0, -50) makes a 3I2 of (-43, 25), and 49² <= 2474 < 50². T is 0, so there is no direction either way. */
static void pickup_at_its_edge(void) {
  static const struct {
    int phase, re, im, below;
  } currents[] = {
      {0, 0, 0, 1},     {0, 0, -1, 2},    {0, 1, 1, 2},     {0, 0, -49, 50},  {0, 0, -50, 51},  {0, 0, -51, 52},  {0, 0, 50, 51},
      {0, 50, 0, 51},   {0, -50, 0, 51},  {0, 30, -40, 51}, {0, -30, 40, 51}, {0, 40, 30, 51},  {0, 14, -48, 51}, {0, 35, -35, 50},
      {0, 35, -36, 51}, {0, 36, -36, 51}, {1, 43, 25, 51},  {1, 0, -50, 50},  {2, -43, 25, 51}, {2, 0, -50, 50},  {0, 0, -300, 301},
      {0, 0, -1000, 1001},
  };
  for (size_t k = 0; k < sizeof currents / sizeof *currents; k++) {
    const uint8_t *window = halfway_and(currents[k].phase, currents[k].re, currents[k].im);
    int below = currents[k].below;
    if (below > 1) does_not_trip("reached", with_pickup(below - 1), window, ALL_LOOPS);
    trips("not reached", with_pickup(below), window, ALL_LOOPS);
    trips("far from reached", with_pickup(LARGEST_PICKUP), window, ALL_LOOPS);
  }
}

/* By every pickup that a record can have, with a 3I2 of exactly 50. Of 32 bytes it moves the first alone. */
static void every_pickup(void) {
  const uint8_t *window = unbalanced(500, 50);
  uint8_t wanted[DECISION];
  memcpy(wanted, ways[BY_DECIDE].decided(with_pickup(1), window), DECISION);
  for (int pickup = 1; pickup <= LARGEST_PICKUP; pickup++) {
    wanted[GORSEPETAL_DECISION_AT_TRIP] = pickup > 50;
    ways[BY_DECIDE].decided(with_pickup(pickup), window);
    out_is("decision", wanted);
  }
}

/* T is 50000 times what Va has above 500, and the limits lie at 750000 on both sides. Below the pickup T has no part. */
static void limits_of_the_direction(void) {
  static const int sides[][2] = {{480, FORWARD}, {484, FORWARD}, {485, NONE},    {499, NONE},   {500, NONE},
                                 {501, NONE},    {515, NONE},    {516, REVERSE}, {520, REVERSE}};
  for (size_t k = 0; k < sizeof sides / sizeof *sides; k++) {
    int va = sides[k][0];
    goes_by_direction(good, unbalanced(va, 50), sides[k][1]);
    trips("below, by the current", good, unbalanced(va, 49), ALL_LOOPS);
    trips("below, by the record", with_pickup(51), unbalanced(va, 50), ALL_LOOPS);
  }
}

/* By limits that call everything forward, and everything reverse. */
static void limits_that_are_never_between(void) {
  static const int limits[][3] = {{19999, 20000, FORWARD}, {-20000, -19999, REVERSE}};
  for (size_t k = 0; k < sizeof limits / sizeof *limits; k++) {
    uint8_t record[RECORD];
    memcpy(record, good, RECORD);
    put(record, GORSEPETAL_AT_FORWARD_LIMIT, limits[k][0]);
    put(record, GORSEPETAL_AT_REVERSE_LIMIT, limits[k][1]);
    goes_by_direction(record, unbalanced(500, 50), limits[k][2]);
    trips("below", record, unbalanced(500, 49), ALL_LOOPS);
  }
}

/* Where the pickup is reached the direction may be another, and so the trip. All other bytes stay; and where it is none by both pickups,
** byte 0 alone moves. T is 49000 times what Va has above 500, and the limits lie at 720300 on both sides. */
static void pickup_moves_no_other_byte(void) {
  for (int way = 0; way < WAYS; way++)
    for (int va = 480; va <= 520; va++) {
      const uint8_t *window = unbalanced(va, 49);
      uint8_t wanted[DECISION];
      memcpy(wanted, ways[way].decided(with_pickup(50), window), DECISION);
      check("trip, not reached", wanted[GORSEPETAL_DECISION_AT_TRIP], 1);
      wanted[GORSEPETAL_DECISION_AT_TRIP] = va <= 485;
      wanted[GORSEPETAL_DECISION_AT_DIRECTION] = va <= 485 ? FORWARD : va >= 515 ? REVERSE : NONE;
      ways[way].decided(with_pickup(49), window);
      out_is("reached", wanted);
    }
}

/* Faults of one phase to ground, and of two phases: by a pickup that they do not reach, their own loop asserts and does not trip. */
static void other_faults_below_the_pickup(void) {
  uint8_t window[WINDOW];
  for (int x = 0; x < 3; x++)
    for (int to_ground = 0; to_ground < 2; to_ground++) {
      int loop = to_ground ? GORSEPETAL_LOOP_AG << x : GORSEPETAL_LOOP_AB << (x + 1) % 3;
      fault_on(window, x, to_ground, 1);
      decides("reached", good, window, (decision){.trip = 1, .loops = loop, .direction = FORWARD});
      does_not_trip("not reached", with_pickup(LARGEST_PICKUP), window, loop);
      fault_on(window, x, to_ground, -1);
      does_not_trip("not reached, behind", with_pickup(LARGEST_PICKUP), window, 0);
    }
}

/* ---- Beside all else ---- */

/* Of what flows in at end 1 some phases let nothing out again, and operate. Byte 0 is 1 as ever, with the rule and without it. */
static void beside_a_phase_that_operates(void) {
  static const int operating[] = {GORSEPETAL_PHASE_A, GORSEPETAL_PHASE_B, GORSEPETAL_PHASE_C, 7};
  for (size_t k = 0; k < sizeof operating / sizeof *operating; k++) {
    uint8_t *window = unbalanced(500, 49);
    for (int phase = 0; phase < 3; phase++)
      if (operating[k] >> phase & 1) phasor(window, 6 + phase, 0, 0);
    decides("by the rule too", good, window, (decision){.trip = 1, .phases = operating[k], .loops = ALL_LOOPS});
    decides("3I2 at its pickup", with_pickup(49), window, (decision){.trip = 1, .phases = operating[k], .loops = ALL_LOOPS});
    decides("no loop", with_reaches(1, OFF), window, (decision){.trip = 1, .phases = operating[k]});
  }
}

/* A window of two ends as one of more. In phase a so many counts flow in at end 2 and out at the last end: negative sequence, but not
** end 1's. It stays until the next call. */
static const uint8_t *with_further_ends(const uint8_t *two_ends, int ends, int counts) {
  static uint8_t window[LONGEST];
  int length = GORSEPETAL_FRAME_BYTES(ends);
  memset(window, 0, sizeof window);
  for (int frame = 0; frame < GORSEPETAL_FRAMES; frame++) memcpy(window + length * frame, two_ends + FRAME * frame, FRAME);
  put(window, 2 * 6, 8 * counts); /* the real part of end 2's Ia, which was 0 */
  put(window, 2 * 3 * ends, -8 * counts);
  return window;
}

static void two_to_six_ends(void) {
  for (int ends = 2; ends <= 6; ends++) {
    uint8_t record[RECORD];
    memcpy(record, good, RECORD);
    put(record, GORSEPETAL_AT_ENDS, ends);
    for (int way = 0; way < WAYS; way++) {
      ways[way].decided(record, with_further_ends(window_of(HALFWAY), ends, 0));
      out_is("all 32 bytes", halfway_decided);
    }
    trips("3I2 one below its pickup", record, with_further_ends(unbalanced(500, 49), ends, 0), ALL_LOOPS);
    does_not_trip("3I2 at its pickup", record, with_further_ends(unbalanced(500, 50), ends, 0), ALL_LOOPS);
    if (ends > 2) trips("negative sequence at far ends", record, with_further_ends(unbalanced(500, 49), ends, 3000), ALL_LOOPS);
  }
}

/* From two entries on, frame after frame: the wave comes over and over, and trips from the sixteenth frame on. */
static void balanced_fault_fed(void) {
  const uint8_t *window = window_of(HALFWAY), *decided = out.all + GUARD;
  static const uint8_t wanted[] = {1, 0, ALL_LOOPS, NONE};
  lend(&state, zeros, STATE);
  check("propose", propose(good, RECORD), GORSEPETAL_DONE);
  check("confirm", confirm(good, RECORD), GORSEPETAL_DONE);
  for (int n = 0; n < 15; n++) check("feed", feed(window + FRAME * n, FRAME, DECISION), GORSEPETAL_TOO_FEW_FRAMES);
  for (int n = 15; n < 48; n++) {
    check("feed", feed(window + FRAME * (n % 16), FRAME, DECISION), GORSEPETAL_DONE);
    check_bytes("the wave", decided, wanted, sizeof wanted);
  }
  for (int n = 0; n < 16; n++) check("feed", feed(zeros, FRAME, DECISION), GORSEPETAL_DONE);
  out_is("the wave gone", zeros);
}

/* No decision, and nothing written. */
static void balanced_fault_refused(void) {
  uint8_t *window = window_of(HALFWAY);
  lend_state(good, zeros);
  check("no room", decide(window, WINDOW, DECISION - 1), GORSEPETAL_NO_ROOM);
  out_untouched();
  put(window, WINDOW - 2, GORSEPETAL_MISSING);
  check("the last sample missing", decide(window, WINDOW, DECISION), refused(GORSEPETAL_MISSING_SAMPLE, WINDOW / 2 - 1));
  out_untouched();
}

/* A state of version 3, window and all: the same 738 bytes. It reads back, and it decides and feeds by the new rule, where byte 0 was 0. */
static void state_of_version_3(void) {
  const uint8_t *window = window_of(HALFWAY), *record = with_reaches(850, 1200);
  uint8_t wanted[DECISION];
  memcpy(wanted, halfway_decided, DECISION);
  wanted[GORSEPETAL_DECISION_AT_SECOND_ZONE] = ALL_LOOPS;
  stored_state_serves(record, window, wanted);
  check("length", state.length, 738);
}

const struct test_case balanced_cases[] = {
    {"balanced fault", balanced_fault},
    {"each phase loop is asked for", each_phase_loop_is_asked_for},
    {"no ground loop is asked for", no_ground_loop_is_asked_for},
    {"second zone has no part", second_zone_has_no_part},
    {"balanced fault behind", balanced_fault_behind},
    {"voltage lost", voltage_lost},
    {"load like a fault", load_like_a_fault},
    {"pickup at its edge", pickup_at_its_edge},
    {"every pickup", every_pickup},
    {"limits of the direction", limits_of_the_direction},
    {"limits that are never between", limits_that_are_never_between},
    {"pickup moves no other byte", pickup_moves_no_other_byte},
    {"other faults below the pickup", other_faults_below_the_pickup},
    {"beside a phase that operates", beside_a_phase_that_operates},
    {"two to six ends", two_to_six_ends},
    {"balanced fault fed", balanced_fault_fed},
    {"balanced fault refused", balanced_fault_refused},
    {"state of version 3", state_of_version_3},
    {0, 0},
};
