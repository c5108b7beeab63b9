/* Document 02, CR 7, in named cases: R, the resistive reach of the quadrilaterals, as a field of the record. It is off or from 1 to 1000
** tenths. */
#include <string.h>

#include "lent.h"

enum { AT = GORSEPETAL_AT_RESISTIVE_REACH, OFF = 0, MOST = 1000 };

/* The good record with this R, which stays until the next call. */
static uint8_t *with_r(int r) {
  static uint8_t record[RECORD];
  memcpy(record, good, RECORD);
  put(record, AT, r);
  return record;
}

static void limits_of_the_resistive_reach(void) {
  static const int edges[][2] = {{OFF, -1}, {1, -1}, {999, -1}, {MOST, -1}, {1001, AT}, {65535, AT}};
  for (size_t k = 0; k < sizeof edges / sizeof *edges; k++) proposed("propose", with_r(edges[k][0]), edges[k][1]);
}

/* Every number that 16 bits can hold. 6 names the field at 28, also where the fault is in byte 29: 1000 is 03E8 and 1001 is 03E9. Before,
** each of the two was a spare byte; now byte 29 alone is good whatever it is, and byte 28 alone up to 3. */
static void every_resistive_reach(void) {
  for (int r = 0; r <= 65535; r++) proposed("propose", with_r(r), r <= MOST ? -1 : AT);
}

static void bytes_that_stay_spare(void) {
  static const int reaches[] = {OFF, 1, MOST};
  for (size_t k = 0; k < sizeof reaches / sizeof *reaches; k++)
    for (int at = 30; at < RECORD; at++)
      for (int bit = 0; bit < 8; bit++) {
        uint8_t *record = with_r(reaches[k]);
        record[at] = (uint8_t)(1 << bit);
        proposed("a spare byte", record, at);
      }
}

/* By offset: the second reach, by its range and beside the first reach, then R, then each spare byte. Of two that are wrong the earlier is
** named. The good record's first reach is 850. */
static void resistive_reach_in_order(void) {
  static const int seconds[] = {849, 2001, 65535}, reaches[] = {OFF, 1, MOST, 1001, 65535};
  uint8_t record[RECORD];
  for (size_t s = 0; s < sizeof seconds / sizeof *seconds; s++)
    for (size_t k = 0; k < sizeof reaches / sizeof *reaches; k++) {
      memcpy(record, with_r(reaches[k]), RECORD);
      put(record, GORSEPETAL_AT_SECOND_REACH, seconds[s]);
      proposed("26 before 28", record, GORSEPETAL_AT_SECOND_REACH);
    }
  for (int at = 30; at < RECORD; at++) {
    memcpy(record, with_r(1001), RECORD);
    record[at] = 1;
    proposed("28 before a spare byte", record, AT);
  }
  memcpy(record, with_r(MOST), RECORD);
  record[30] = record[31] = 1;
  proposed("30 before 31", record, 30);
}

/* No other field limits R: at the edges of the reach and of the replica it is taken as ever. */
static void beside_no_other_field(void) {
  static const int fields[][2] = {{GORSEPETAL_AT_REACH, 1},
                                  {GORSEPETAL_AT_REACH, 2000},
                                  {GORSEPETAL_AT_REPLICA_REAL, 0},
                                  {GORSEPETAL_AT_REPLICA_REAL, 20000},
                                  {GORSEPETAL_AT_REPLICA_IMAGINARY, 1},
                                  {GORSEPETAL_AT_REPLICA_IMAGINARY, 20000},
                                  {GORSEPETAL_AT_SECOND_REACH, 850},
                                  {GORSEPETAL_AT_SECOND_REACH, 2000}};
  for (size_t k = 0; k < sizeof fields / sizeof *fields; k++)
    for (int r = MOST; r <= MOST + 1; r++) {
      uint8_t *record = with_r(r);
      put(record, fields[k][0], fields[k][1]);
      proposed("propose", record, r == MOST ? -1 : AT);
    }
}

/* 8 counts single bytes. The confirmation is compared before it is judged, so one that propose would refuse is answered 8 too. */
static void confirmation_of_the_resistive_reach(void) {
  static const int entries[][3] = {{20, 21, 29},   {20, OFF, 29},   {20, 276, 28},    {20, 65535, 28}, {OFF, 1, 29},
                                   {OFF, 256, 28}, {OFF, 1001, 28}, {MOST, 1001, 29}, {MOST, 999, 29}, {300, 44, 28}};
  for (size_t k = 0; k < sizeof entries / sizeof *entries; k++) { /* pending, entered, and where they differ first */
    uint8_t pending[RECORD];
    memcpy(pending, with_r(entries[k][0]), RECORD);
    confirmed_otherwise(pending, with_r(entries[k][1]), entries[k][2]);
  }
}

static void resistive_reach_in_force(void) {
  static const int reaches[] = {1, 20, 256, MOST};
  for (size_t k = 0; k < sizeof reaches / sizeof *reaches; k++) {
    const uint8_t *record = with_r(reaches[k]);
    comes_into_force(record);
    check("R, in bytes 28 and 29", 256u * out.all[GUARD + 28] + out.all[GUARD + 29], (uint64_t)reaches[k]);
  }
}

/* A refused proposal leaves the record in force, R and all. */
static void refusal_leaves_the_resistive_reach(void) {
  uint8_t in_force[RECORD];
  memcpy(in_force, with_r(20), RECORD);
  lend_state(in_force, zeros);
  check("propose", propose(with_r(1001), RECORD), refused(GORSEPETAL_OUT_OF_RANGE, AT));
  state_is(in_force, zeros, some_window);
  check("read back", read_back(RECORD), GORSEPETAL_DONE);
  out_is("record", in_force);
}

/* A quiet window by each R that a stored record can have. Up to 1000 the record is good, where version 5 counted it as absent unless R was
** 0; above it still counts as absent. */
static void stored_resistive_reach(void) {
  for (int r = 1; r <= MOST; r++) stored_state_serves(with_r(r), zeros, zeros);
  static const int above[] = {1001, 1024, 32768, 65535};
  for (size_t k = 0; k < sizeof above / sizeof *above; k++) counts_as_absent(with_r(above[k]));
}

const struct test_case resistive_reach_cases[] = {
    {"limits of the resistive reach", limits_of_the_resistive_reach},
    {"every resistive reach", every_resistive_reach},
    {"bytes that stay spare", bytes_that_stay_spare},
    {"resistive reach in order", resistive_reach_in_order},
    {"beside no other field", beside_no_other_field},
    {"confirmation of the resistive reach", confirmation_of_the_resistive_reach},
    {"resistive reach in force", resistive_reach_in_force},
    {"refusal leaves the resistive reach", refusal_leaves_the_resistive_reach},
    {"stored resistive reach", stored_resistive_reach},
    {0, 0},
};
