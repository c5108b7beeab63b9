/* What the compared calls showed of the second zone, of balanced faults, of the slopes at which the phases change, of the quadrilaterals
** and of event files, counted. */
#include <stdio.h>
#include <stdlib.h>
#include <string.h>

#include "event_calls.h"
#include "seen.h"

enum { PHASES = 3, SLOPES = 100, LOOPS = 6, PHASE_LOOPS = GORSEPETAL_LOOP_AB + GORSEPETAL_LOOP_BC + GORSEPETAL_LOOP_CA };

/* Of the second zone, then of balanced faults, then of the slopes at which the phases change, then of the quadrilaterals, then of event
** files. */
enum {
  ALONE, /* one for each loop, from AG on */
  OFF_BESIDE_FIRST = ALONE + LOOPS,
  AT_FIRST_REACH,
  AT_LARGEST_REACH,
  AS_FIRST_ZONE,
  MORE_THAN_FIRST_ZONE,
  FORWARD_NO_TRIP,
  IN_REVERSE,
  IN_NO_DIRECTION,
  BELOW_FIRST_REACH,
  ABOVE_LARGEST_REACH,
  LOWER_BYTE_ALONE,
  DIFFERS_IN_UPPER_BYTE,
  DIFFERS_IN_LOWER_BYTE,
  OF_BALANCED_FAULTS,
  BY_PHASE_LOOPS = OF_BALANCED_FAULTS,
  BY_PHASE_LOOPS_ALONE,
  BY_NOISE,
  BESIDE_A_PHASE,
  BELOW_PICKUP,
  AT_PICKUP,
  BETWEEN_LIMITS,
  FORWARD_TRIP,
  REVERSE_NO_TRIP,
  WITHOUT, /* one for each phase loop, from AB on */
  SECOND_ZONE_ALONE = WITHOUT + 3,
  NO_LOOP_BEHIND,
  OF_CHANGES,
  OPERATING = OF_CHANGES, /* one for each phase, from a on */
  AT_C = OPERATING + PHASES,
  ABOVE_C,
  DIFFERENT_C,
  THREE_DIFFERENT,
  LARGEST_C,
  LARGEST_C_AT_100,
  SMALLEST_C,
  NO_C_BY_SLOPE,
  NO_C_BY_PICKUP,
  C_AT_THE_PICKUP,
  OF_QUADRILATERALS,
  QUADRILATERAL = OF_QUADRILATERALS, /* one for each, from A on */
  DIFFERENT_SETS = QUADRILATERAL + PHASES,
  BY_QUADRILATERALS_ALONE,
  BESIDE_PHASE_AND_LOOP,
  AT_SMALLEST_R,
  AT_LARGEST_R,
  INSIDE_AT_R_0,
  UNDER_THE_TOP,
  ON_THE_TOP,
  ON_SIDES,                    /* one for each side */
  BEYOND_SIDES = ON_SIDES + 2, /* the same */
  WITH_Q_0 = BEYOND_SIDES + 2,
  WITH_Q_ABOVE_0,
  ON_THE_TOP_TURNED_ROUND,
  WITH_NO_RESIDUAL,
  WITH_NO_POLARISING,
  INSIDE_AND_REVERSE,
  INSIDE_BETWEEN_LIMITS,
  INSIDE_BELOW_PICKUP,
  ABOVE_LARGEST_R,
  ABOVE_BY_LOWER_BYTE,
  SPARE_BYTES,                 /* one for each */
  R_DIFFERS = SPARE_BYTES + 2, /* one for each byte of R */
  OF_EVENT_FILES = R_DIFFERS + 2,
  OPENED = OF_EVENT_FILES,
  OPEN_REFUSED,
  READER_OF_OTHER_LENGTH,
  NEVER_OPENED,
  COUNT_WANTED,
  NOTHING_WANTED,
  TAKEN,
  DECIDED,
  BYTES_LEFT,
  WITH_STATUS,
  READ_NO_SETTINGS,
  READ_OTHER_ENDS,
  READ_NO_ROOM,
  READ_TOO_FEW,
  READ_MISSING,
  WRONG_NUMBER,
  WRONG_FIRST_NUMBER,
  LAST_NUMBER_READ,
  NO_NUMBER_LEFT,
  READ_AFTER_END,
  ENDED_AFTER_WRONG_NUMBER,
  ENDED_BETWEEN,
  ENDED_INSIDE,
  ENDED_BEFORE_NUMBER,
  WRITTEN,
  LAST_NUMBER_WRITTEN,
  WRITE_OTHER_ENDS,
  WRITE_OTHER_LENGTH,
  WRITE_NO_ROOM,
  NUMBER_PAST_LAST,
  KINDS
};
static const char *const kinds[KINDS] = {
    [ALONE] = "AG in the second zone and not in the first",
    [ALONE + 1] = "BG in the second zone and not in the first",
    [ALONE + 2] = "CG in the second zone and not in the first",
    [ALONE + 3] = "AB in the second zone and not in the first",
    [ALONE + 4] = "BC in the second zone and not in the first",
    [ALONE + 5] = "CA in the second zone and not in the first",
    [OFF_BESIDE_FIRST] = "off, and a loop in the first zone",
    [AT_FIRST_REACH] = "on at the first reach, and a loop in it",
    [AT_LARGEST_REACH] = "on at 2000, and a loop in it",
    [AS_FIRST_ZONE] = "on above the first reach, the same loops in both",
    [MORE_THAN_FIRST_ZONE] = "loops in both zones, and more in the second",
    [FORWARD_NO_TRIP] = "forward, loops in the second alone, no trip",
    [IN_REVERSE] = "reverse, and a loop in the second zone",
    [IN_NO_DIRECTION] = "no direction, and a loop in the second zone",
    [BELOW_FIRST_REACH] = "refused 6 at 26, below the first reach",
    [ABOVE_LARGEST_REACH] = "refused 6 at 26, above 2000",
    [LOWER_BYTE_ALONE] = "refused 6 at 26, where byte 26 is zero",
    [DIFFERS_IN_UPPER_BYTE] = "refused 8 at 26",
    [DIFFERS_IN_LOWER_BYTE] = "refused 8 at 27",
    [BY_PHASE_LOOPS] = "trip with no phase operating and no direction",
    [BY_PHASE_LOOPS_ALONE] = "the same, and no ground loop asserts",
    [BY_NOISE] = "trip on one count of voltage, 3I2 of 0",
    [BESIDE_A_PHASE] = "no direction, AB, BC and CA, and a phase operates",
    [BELOW_PICKUP] = "3I2 of 50 and a pickup of 51, trip",
    [AT_PICKUP] = "3I2 of 50 and a pickup of 50, no trip",
    [BETWEEN_LIMITS] = "AB, BC and CA, T between the limits, no trip",
    [FORWARD_TRIP] = "AB, BC and CA, forward, trip",
    [REVERSE_NO_TRIP] = "AB, BC and CA, reverse, no trip",
    [WITHOUT] = "3I2 of 0, BC and CA but not AB, no trip",
    [WITHOUT + 1] = "3I2 of 0, CA and AB but not BC, no trip",
    [WITHOUT + 2] = "3I2 of 0, AB and BC but not CA, no trip",
    [SECOND_ZONE_ALONE] = "3I2 of 0, all in the second zone alone, no trip",
    [NO_LOOP_BEHIND] = "3I2 of 0, behind the relay, no loop at 2000",
    [OPERATING] = "phase a operates",
    [OPERATING + 1] = "phase b operates",
    [OPERATING + 2] = "phase c operates",
    [AT_C] = "c is the slope, and the phase operates",
    [ABOVE_C] = "c is one below the slope, and it does not",
    [DIFFERENT_C] = "different c, of 100",
    [THREE_DIFFERENT] = "three different c at once, and none is 0",
    [LARGEST_C] = "c of 99",
    [LARGEST_C_AT_100] = "the same, at slope 100",
    [SMALLEST_C] = "c of 1",
    [NO_C_BY_SLOPE] = "c of 0, and the pickup is reached",
    [NO_C_BY_PICKUP] = "c of 0 below the pickup, with some differential",
    [C_AT_THE_PICKUP] = "a differential at its pickup, and c above 0",
    [QUADRILATERAL] = "quadrilateral A operates",
    [QUADRILATERAL + 1] = "quadrilateral B operates",
    [QUADRILATERAL + 2] = "quadrilateral C operates",
    [DIFFERENT_SETS] = "different sets of them, of 8, at an R above 0",
    [BY_QUADRILATERALS_ALONE] = "trip with no phase operating and no loop",
    [BESIDE_PHASE_AND_LOOP] = "a quadrilateral beside a phase and a loop",
    [AT_SMALLEST_R] = "one operates at an R of 1",
    [AT_LARGEST_R] = "one operates at an R of 1000",
    [INSIDE_AT_R_0] = "R of 0 and n of 0: none",
    [UNDER_THE_TOP] = "one count below the top: it operates",
    [ON_THE_TOP] = "on the top: it does not",
    [ON_SIDES] = "on one side: it operates",
    [ON_SIDES + 1] = "on the other: it operates",
    [BEYOND_SIDES] = "one count beyond one side: it does not",
    [BEYOND_SIDES + 1] = "one count beyond the other: it does not",
    [WITH_Q_0] = "n and q of 0: it does not",
    [WITH_Q_ABOVE_0] = "q above 0, beyond the top: it operates",
    [ON_THE_TOP_TURNED_ROUND] = "q above 0, on the top: it does not",
    [WITH_NO_RESIDUAL] = "Ir of 0: none",
    [WITH_NO_POLARISING] = "3V1 of 0: it operates, and no loop asserts",
    [INSIDE_AND_REVERSE] = "inside, and reverse: none",
    [INSIDE_BETWEEN_LIMITS] = "inside, T between the limits: none",
    [INSIDE_BELOW_PICKUP] = "inside, 3I2 below its pickup: none",
    [ABOVE_LARGEST_R] = "refused 6 at 28",
    [ABOVE_BY_LOWER_BYTE] = "the same, for an R of 1001",
    [SPARE_BYTES] = "refused 6 at 30",
    [SPARE_BYTES + 1] = "refused 6 at 31",
    [R_DIFFERS] = "refused 8 at 28",
    [R_DIFFERS + 1] = "refused 8 at 29",
    [OPENED] = "a file opened",
    [OPEN_REFUSED] = "open refused 13",
    [READER_OF_OTHER_LENGTH] = "a reader of another length",
    [NEVER_OPENED] = "read refused 13",
    [COUNT_WANTED] = "a count wanted",
    [NOTHING_WANTED] = "nothing wanted",
    [TAKEN] = "a piece taken that finishes no record",
    [DECIDED] = "a whole record, decided",
    [BYTES_LEFT] = "the same, and bytes are left for the next one",
    [WITH_STATUS] = "the same, with status channels",
    [READ_NO_SETTINGS] = "a whole record refused 1",
    [READ_OTHER_ENDS] = "a whole record refused 9",
    [READ_NO_ROOM] = "a whole record refused 3",
    [READ_TOO_FEW] = "a whole record refused 10",
    [READ_MISSING] = "a whole record refused 4",
    [WRONG_NUMBER] = "read refused 12",
    [WRONG_FIRST_NUMBER] = "read refused 12 at 0",
    [LAST_NUMBER_READ] = "the record with number 4294967295, decided",
    [NO_NUMBER_LEFT] = "read refused 12 at 4294967295",
    [READ_AFTER_END] = "read refused 11, after the file's end",
    [ENDED_AFTER_WRONG_NUMBER] = "end refused 12",
    [ENDED_BETWEEN] = "a file that ends between records",
    [ENDED_INSIDE] = "a file that ends inside a record, 11",
    [ENDED_BEFORE_NUMBER] = "the same, after one to three bytes of it",
    [WRITTEN] = "a record written",
    [LAST_NUMBER_WRITTEN] = "the record with number 4294967295 written",
    [WRITE_OTHER_ENDS] = "write refused 13",
    [WRITE_OTHER_LENGTH] = "write refused 9",
    [WRITE_NO_ROOM] = "write refused 3",
    [NUMBER_PAST_LAST] = "write refused 12",
};
static long seen[KINDS];

static int field(const uint8_t *record, int at) { return record[at] << 8 | record[at + 1]; }

static void see_second_zone(const uint8_t *record, const uint8_t *decision) {
  int reach = field(record, GORSEPETAL_AT_REACH), second_reach = field(record, GORSEPETAL_AT_SECOND_REACH);
  int first = decision[GORSEPETAL_DECISION_AT_LOOPS], second = decision[GORSEPETAL_DECISION_AT_SECOND_ZONE];
  int way = decision[GORSEPETAL_DECISION_AT_DIRECTION], trip = decision[GORSEPETAL_DECISION_AT_TRIP];
  for (int loop = 0; loop < LOOPS; loop++) seen[ALONE + loop] += (second & ~first) >> loop & 1;
  seen[OFF_BESIDE_FIRST] += second_reach == 0 && first != 0;
  seen[AT_FIRST_REACH] += second_reach == reach && second != 0;
  seen[AT_LARGEST_REACH] += second_reach == LARGEST_REACH && second != 0;
  seen[AS_FIRST_ZONE] += second_reach > reach && second != 0 && second == first;
  seen[MORE_THAN_FIRST_ZONE] += first != 0 && (second & ~first) != 0;
  seen[FORWARD_NO_TRIP] += way == GORSEPETAL_DIRECTION_FORWARD && first == 0 && second != 0 && trip == 0;
  seen[IN_REVERSE] += way == GORSEPETAL_DIRECTION_REVERSE && second != 0;
  seen[IN_NO_DIRECTION] += way == GORSEPETAL_DIRECTION_NONE && second != 0;
}

/* What the decision's bytes alone tell. All three phase loops without a direction trip, unless 3I2 reaches its pickup. */
static void see_phase_loops(const uint8_t *decision) {
  int phases = decision[GORSEPETAL_DECISION_AT_PHASES] & GORSEPETAL_PHASES, loops = decision[GORSEPETAL_DECISION_AT_LOOPS];
  int way = decision[GORSEPETAL_DECISION_AT_DIRECTION], trip = decision[GORSEPETAL_DECISION_AT_TRIP];
  if ((loops & PHASE_LOOPS) != PHASE_LOOPS) return;
  int none = way == GORSEPETAL_DIRECTION_NONE;
  seen[BY_PHASE_LOOPS] += none && phases == 0 && trip == 1;
  seen[BY_PHASE_LOOPS_ALONE] += none && phases == 0 && trip == 1 && loops == PHASE_LOOPS;
  seen[BESIDE_A_PHASE] += none && phases != 0;
  seen[BETWEEN_LIMITS] += none && trip == 0;
  seen[FORWARD_TRIP] += way == GORSEPETAL_DIRECTION_FORWARD && phases == 0 && trip == 1;
  seen[REVERSE_NO_TRIP] += way == GORSEPETAL_DIRECTION_REVERSE && trip == 0;
}

/* The differential is the root of 4096 s, so s is at least the square of the pickup exactly if it is at least 64 times the pickup. */
static void see_change(const uint8_t *record, const uint8_t *decision, int phase) {
  static long times[SLOPES];
  int slope = field(record, GORSEPETAL_AT_SLOPE), c = decision[GORSEPETAL_DECISION_AT_CHANGE_A + phase];
  int operates = decision[GORSEPETAL_DECISION_AT_PHASES] >> phase & 1, word = GORSEPETAL_DECISION_AT_DIFFERENTIAL_A + 4 * phase;
  long differential = 65536L * field(decision, word) + field(decision, word + 2), pickup = 64L * field(record, GORSEPETAL_AT_PICKUP);
  seen[OPERATING + phase] += operates;
  seen[AT_C] += slope == c && operates;
  seen[ABOVE_C] += slope == c + 1 && c > 0 && !operates;
  seen[DIFFERENT_C] += c < SLOPES && times[c]++ == 0;
  seen[LARGEST_C] += c == SLOPES - 1;
  seen[LARGEST_C_AT_100] += c == SLOPES - 1 && slope == SLOPES && !operates;
  seen[SMALLEST_C] += c == 1;
  seen[NO_C_BY_SLOPE] += c == 0 && differential >= pickup;
  seen[NO_C_BY_PICKUP] += c == 0 && 0 < differential && differential < pickup;
  seen[C_AT_THE_PICKUP] += c > 0 && differential == pickup;
}

static void see_changes(const uint8_t *record, const uint8_t *decision) {
  const uint8_t *c = decision + GORSEPETAL_DECISION_AT_CHANGE_A;
  for (int phase = 0; phase < PHASES; phase++) see_change(record, decision, phase);
  seen[THREE_DIFFERENT] += c[0] != c[1] && c[1] != c[2] && c[2] != c[0] && c[0] != 0 && c[1] != 0 && c[2] != 0;
}

/* What the decision's bytes and R alone tell. */
static void see_quadrilaterals(const uint8_t *record, const uint8_t *decision) {
  static long times[GORSEPETAL_QUADRILATERALS + 1];
  int phases = decision[GORSEPETAL_DECISION_AT_PHASES] & GORSEPETAL_PHASES, loops = decision[GORSEPETAL_DECISION_AT_LOOPS];
  int operating = decision[GORSEPETAL_DECISION_AT_PHASES] & GORSEPETAL_QUADRILATERALS, r = field(record, GORSEPETAL_AT_RESISTIVE_REACH);
  for (int phase = 0; phase < PHASES; phase++) seen[QUADRILATERAL + phase] += (operating & GORSEPETAL_QUADRILATERAL_A << phase) != 0;
  seen[DIFFERENT_SETS] += r != 0 && times[operating]++ == 0;
  seen[BY_QUADRILATERALS_ALONE] += operating != 0 && phases == 0 && loops == 0 && decision[GORSEPETAL_DECISION_AT_TRIP] == 1;
  seen[BESIDE_PHASE_AND_LOOP] += operating != 0 && phases != 0 && loops != 0;
  seen[AT_SMALLEST_R] += operating != 0 && r == 1;
  seen[AT_LARGEST_R] += operating != 0 && r == LARGEST_RESISTIVE_REACH;
}

/* The fault that decide was lent, if it is one of a phase to ground with exact edges; its phase goes to *of. Else RESISTIVE_FAULTS. */
static resistive_fault resistive_lent(const lent *left, int *of) {
  lent made;
  for (resistive_fault fault = BELOW_TOP; fault < RESISTIVE_FAULTS; fault++)
    for (*of = 0; *of < PHASES; ++*of) {
      lend_resistive(&made, ends_of(left), fault, *of);
      if (memcmp(left->in, made.in, sizeof made.in) == 0) return fault;
    }
  return RESISTIVE_FAULTS;
}

/* What only the fault itself tells: on which side of an edge it lies. R is 10, and the direction forward, if nothing else is said. */
static void see_resistive(const lent *left) {
  const uint8_t *record = left->state, *decision = left->out;
  if (field(record, GORSEPETAL_AT_REACH) != 800 || field(record, GORSEPETAL_AT_K_REAL) != 500) return; /* none of them: no need to look */
  int phase, way = decision[GORSEPETAL_DECISION_AT_DIRECTION], r = field(record, GORSEPETAL_AT_RESISTIVE_REACH);
  resistive_fault fault = resistive_lent(left, &phase);
  int operating = decision[GORSEPETAL_DECISION_AT_PHASES], none = operating == 0, it = operating == GORSEPETAL_QUADRILATERAL_A << phase;
  int below_pickup = field(record, GORSEPETAL_AT_NEGATIVE_SEQUENCE_PICKUP) == 42000, forward = way == GORSEPETAL_DIRECTION_FORWARD;
  seen[INSIDE_AT_R_0] += fault == BELOW_TOP && forward && r == 0 && none;
  seen[WITH_NO_RESIDUAL] += fault == NO_RESIDUAL && forward && r != 0 && none;
  seen[WITH_Q_0] += fault == NO_LOOP_CURRENT && forward && r != 0 && none;
  seen[INSIDE_AND_REVERSE] += fault == BELOW_TOP && way == GORSEPETAL_DIRECTION_REVERSE && r != 0 && none;
  seen[INSIDE_BETWEEN_LIMITS] += fault == BELOW_TOP && way == GORSEPETAL_DIRECTION_NONE && !below_pickup && r != 0 && none;
  seen[INSIDE_BELOW_PICKUP] += fault == BELOW_TOP && way == GORSEPETAL_DIRECTION_NONE && below_pickup && r != 0 && none;
  if (!forward || r != 10) return;
  seen[UNDER_THE_TOP] += fault == BELOW_TOP && it;
  seen[ON_THE_TOP] += fault == ON_TOP && none;
  seen[ON_SIDES] += fault == ON_SIDE && it;
  seen[ON_SIDES + 1] += fault == ON_OTHER_SIDE && it;
  seen[BEYOND_SIDES] += fault == BEYOND_SIDE && none;
  seen[BEYOND_SIDES + 1] += fault == BEYOND_OTHER_SIDE && none;
  seen[WITH_Q_ABOVE_0] += fault == TURNED_ROUND && it;
  seen[ON_THE_TOP_TURNED_ROUND] += fault == TURNED_ROUND_TOP && none;
  seen[WITH_NO_POLARISING] += fault == NO_POLARISING && it && decision[GORSEPETAL_DECISION_AT_LOOPS] == 0;
}

/* Whether decide was lent this fault. */
static int was_lent(const lent *left, balanced_fault fault, int i2) {
  lent made;
  lend_balanced(&made, ends_of(left), fault, i2);
  return memcmp(left->in, made.in, sizeof made.in) == 0;
}

/* What only the fault itself tells: how large 3I2 is, and on which side of the relay the fault lies. */
static void see_balanced(const lent *left) {
  const uint8_t *record = left->state, *decision = left->out;
  int reach = field(record, GORSEPETAL_AT_REACH), pickup = field(record, GORSEPETAL_AT_NEGATIVE_SEQUENCE_PICKUP);
  int loops = decision[GORSEPETAL_DECISION_AT_LOOPS], second = decision[GORSEPETAL_DECISION_AT_SECOND_ZONE];
  int trip = decision[GORSEPETAL_DECISION_AT_TRIP], all = (loops & PHASE_LOOPS) == PHASE_LOOPS;
  seen[BY_NOISE] += all && trip == 1 && was_lent(left, ONE_COUNT_LEFT, 0);
  seen[BELOW_PICKUP] += pickup == 51 && all && trip == 1 && was_lent(left, HALFWAY, 50);
  seen[AT_PICKUP] += pickup == 50 && all && trip == 0 && was_lent(left, HALFWAY, 50);
  for (int k = 0; k < 3; k++)
    seen[WITHOUT + k] += (loops & PHASE_LOOPS) == PHASE_LOOPS - (GORSEPETAL_LOOP_AB << k) && trip == 0 && was_lent(left, ALL_BUT_AB + k, 0);
  seen[SECOND_ZONE_ALONE] += loops == 0 && (second & PHASE_LOOPS) == PHASE_LOOPS && trip == 0 && was_lent(left, HALFWAY, 0);
  seen[NO_LOOP_BEHIND] += reach == LARGEST_REACH && loops == 0 && trip == 0 && was_lent(left, BEHIND, 0);
}

static void see_decision(which_call call, const lent *left) {
  see_second_zone(left->state, left->out);
  see_phase_loops(left->out);
  see_changes(left->state, left->out);
  see_quadrilaterals(left->state, left->out);
  if (call != DECIDE) return;
  see_balanced(left);
  see_resistive(left);
}

static void see_second_reach_refused(const uint8_t *entry) {
  int reach = field(entry, GORSEPETAL_AT_REACH), second_reach = field(entry, GORSEPETAL_AT_SECOND_REACH);
  seen[BELOW_FIRST_REACH] += second_reach < reach;
  seen[ABOVE_LARGEST_REACH] += second_reach > LARGEST_REACH;
  seen[LOWER_BYTE_ALONE] += entry[GORSEPETAL_AT_SECOND_REACH] == 0;
}

static const uint64_t LAST_NUMBER = 4294967295;

/* A whole record leaves nothing in hand; a piece that finishes none leaves some bytes. */
static void see_read(uint64_t answer, const lent *left) {
  const uint8_t *reader = left->reader;
  uint64_t number = GORSEPETAL_NUMBER(answer), place = GORSEPETAL_PLACE(answer);
  int decided = number == GORSEPETAL_DONE && reader[AT_HELD] == 0 && left->in_len > 0;
  seen[TAKEN] += number == GORSEPETAL_DONE && reader[AT_HELD] > 0;
  seen[DECIDED] += decided;
  seen[BYTES_LEFT] += decided && left->in_len > record_length(left);
  seen[WITH_STATUS] += decided && reader[AT_STATUS] > 0;
  seen[LAST_NUMBER_READ] += decided && low_word(reader + AT_INDEX) == LAST_NUMBER;
  seen[READ_NO_SETTINGS] += number == GORSEPETAL_NO_SETTINGS;
  seen[READ_OTHER_ENDS] += number == GORSEPETAL_OTHER_FRAME_LENGTH;
  seen[READ_NO_ROOM] += number == GORSEPETAL_NO_ROOM;
  seen[READ_TOO_FEW] += number == GORSEPETAL_TOO_FEW_FRAMES;
  seen[READ_MISSING] += number == GORSEPETAL_MISSING_SAMPLE;
  seen[NEVER_OPENED] += number == GORSEPETAL_BAD_FILE;
  seen[READ_AFTER_END] += number == GORSEPETAL_INSIDE_RECORD;
  seen[WRONG_NUMBER] += number == GORSEPETAL_OTHER_NUMBER;
  seen[WRONG_FIRST_NUMBER] += number == GORSEPETAL_OTHER_NUMBER && place == 0;
  seen[NO_NUMBER_LEFT] += number == GORSEPETAL_OTHER_NUMBER && place == LAST_NUMBER;
}

static void see_end(uint64_t answer, const lent *left) {
  uint64_t number = GORSEPETAL_NUMBER(answer);
  int held = left->reader[AT_HELD];
  seen[ENDED_BETWEEN] += number == GORSEPETAL_DONE;
  seen[ENDED_INSIDE] += number == GORSEPETAL_INSIDE_RECORD;
  seen[ENDED_BEFORE_NUMBER] += number == GORSEPETAL_INSIDE_RECORD && 1 <= held && held <= 3;
  seen[ENDED_AFTER_WRONG_NUMBER] += number == GORSEPETAL_OTHER_NUMBER;
}

static void see_written(uint64_t answer, const lent *left) {
  seen[WRITTEN] += answer == GORSEPETAL_DONE;
  seen[LAST_NUMBER_WRITTEN] += answer == GORSEPETAL_DONE && left->written + 1 == LAST_NUMBER;
  seen[WRITE_OTHER_ENDS] += answer == GORSEPETAL_BAD_FILE;
  seen[WRITE_OTHER_LENGTH] += answer == GORSEPETAL_OTHER_FRAME_LENGTH;
  seen[WRITE_NO_ROOM] += answer == GORSEPETAL_NO_ROOM;
  seen[NUMBER_PAST_LAST] += answer == GORSEPETAL_OTHER_NUMBER;
}

static void see_event(which_call call, uint64_t answer, const lent *left) {
  if (call == READ) see_read(answer, left);
  if (call == END) see_end(answer, left);
  if (call == WRITE) see_written(answer, left);
  seen[OPENED] += call == OPEN && answer == GORSEPETAL_DONE;
  seen[OPEN_REFUSED] += call == OPEN && answer == GORSEPETAL_BAD_FILE;
  seen[COUNT_WANTED] += call == WANTED && answer > 0;
  seen[NOTHING_WANTED] += call == WANTED && answer == 0;
  seen[READER_OF_OTHER_LENGTH] += call != WRITE && left->reader_len != READER;
}

void see(which_call call, uint64_t answer, const lent *left) {
  if (call >= OPEN) {
    see_event(call, answer, left);
    return;
  }
  int number = (int)GORSEPETAL_NUMBER(answer), place = (int)GORSEPETAL_PLACE(answer);
  if ((call == DECIDE || call == FEED) && number == GORSEPETAL_DONE) see_decision(call, left);
  if (number == GORSEPETAL_OUT_OF_RANGE && place == GORSEPETAL_AT_SECOND_REACH) see_second_reach_refused(left->in);
  seen[DIFFERS_IN_UPPER_BYTE] += number == GORSEPETAL_DIFFERS && place == GORSEPETAL_AT_SECOND_REACH;
  seen[DIFFERS_IN_LOWER_BYTE] += number == GORSEPETAL_DIFFERS && place == GORSEPETAL_AT_SECOND_REACH + 1;
  int above = number == GORSEPETAL_OUT_OF_RANGE && place == GORSEPETAL_AT_RESISTIVE_REACH;
  seen[ABOVE_LARGEST_R] += above;
  seen[ABOVE_BY_LOWER_BYTE] += above && field(left->in, GORSEPETAL_AT_RESISTIVE_REACH) == LARGEST_RESISTIVE_REACH + 1;
  for (int byte = 0; byte < 2; byte++) {
    seen[SPARE_BYTES + byte] += number == GORSEPETAL_OUT_OF_RANGE && place == GORSEPETAL_AT_RESISTIVE_REACH + 2 + byte;
    seen[R_DIFFERS + byte] += number == GORSEPETAL_DIFFERS && place == GORSEPETAL_AT_RESISTIVE_REACH + byte;
  }
}

/* The kinds from one to before another; gives back how many were never seen. */
static int print_kinds(const char *of, int from, int to) {
  int never = 0;
  printf("\n%s\n", of);
  for (int kind = from; kind < to; kind++) {
    printf("%-50s%9ld\n", kinds[kind], seen[kind]);
    if (seen[kind] == 0) never++;
  }
  return never;
}

void print_seen(void) {
  printf("\nSeen in these calls\n");
  int never = print_kinds("The second zone:", 0, OF_BALANCED_FAULTS);
  never += print_kinds("Balanced faults:", OF_BALANCED_FAULTS, OF_CHANGES);
  never += print_kinds("The slopes at which the phases change:", OF_CHANGES, OF_QUADRILATERALS);
  never += SLOPES - (int)seen[DIFFERENT_C];
  never += print_kinds("The quadrilaterals:", OF_QUADRILATERALS, OF_EVENT_FILES);
  never += SETS - (int)seen[DIFFERENT_SETS];
  never += print_kinds("Event files:", OF_EVENT_FILES, KINDS);
  if (never == 0) return;
  printf("%d of them never: the comparison says nothing of that\n", never);
  exit(1);
}
