/* Document 02, CR 2, in named cases: the second reach as a field of the record, and the second zone in what decide and feed say. */
#include <string.h>

#include "lent.h"

enum { OFF = 0, MOST = 2000, SECOND_ZONE = GORSEPETAL_DECISION_AT_SECOND_ZONE, ALL_LOOPS = 63 };

/* ---- The field ---- */

static void limits_of_the_second_reach(void) {
  static const struct {
    int first, second, fault;
  } edges[] = {
      {850, 0, -1},     {850, 1, 26},      {850, 849, 26},     {850, 850, -1},     {850, 851, -1},     {850, 1999, -1},  {850, 2000, -1},
      {850, 2001, 26},  {850, 32768, 26},  {850, 65535, 26},   {1, 0, -1},         {1, 1, -1},         {1, 2, -1},       {1, 2000, -1},
      {1, 2001, 26},    {2, 1, 26},        {2, 2, -1},         {1999, 1998, 26},   {1999, 1999, -1},   {1999, 2000, -1}, {2000, 0, -1},
      {2000, 1999, 26}, {2000, 2000, -1},  {2000, 2001, 26},
  };
  for (size_t k = 0; k < sizeof edges / sizeof *edges; k++)
    proposed("propose", with_reaches(edges[k].first, edges[k].second), edges[k].fault);
}

/* 6 names the field, also where its upper byte is zero; before, that was a spare byte's fault, at 27. */
static void lower_byte_alone(void) {
  for (int byte = 1; byte <= 255; byte++) {
    proposed("below the reach", with_reaches(850, byte), 26);
    proposed("not below the reach", with_reaches(1, byte), -1);
  }
}

static void upper_byte_alone(void) {
  for (int byte = 1; byte <= 255; byte++) proposed("propose", with_reaches(850, 256 * byte), 4 <= byte && byte <= 7 ? -1 : 26);
}

/* By offset: the reach, the pickup of 3I2, the second reach, what comes behind it. Of two that are wrong the earlier is named. */
static void second_reach_in_order(void) {
  proposed("10 before 26: both above 2000", with_reaches(2001, 2001), 10);
  proposed("10 before 26: 0 and below it", with_reaches(0, 2001), 10);
  proposed("10 alone, the second off", with_reaches(2001, OFF), 10);
  uint8_t record[RECORD];
  memcpy(record, with_reaches(850, 1), RECORD);
  put(record, GORSEPETAL_AT_NEGATIVE_SEQUENCE_PICKUP, 0);
  proposed("24 before 26", record, 24);
  static const int seconds[] = {OFF, 1200, 849};
  for (size_t k = 0; k < sizeof seconds / sizeof *seconds; k++)
    for (int at = 28; at < RECORD; at++) {
      memcpy(record, with_reaches(850, seconds[k]), RECORD);
      record[at] = 255;
      proposed("a byte behind it", record, seconds[k] == 849 ? 26 : at == 29 ? -1 : at); /* 29 alone is a good R */
    }
}

/* 8 counts single bytes. The confirmation is compared before it is judged, so one that propose would refuse is answered 8 too. */
static void confirmation_of_the_second_reach(void) {
  static const struct {
    int pending, entered, at;
  } entries[] = {
      {1200, 1201, 27}, {1200, 1024, 27}, {1200, 1456, 26}, {1200, OFF, 26}, {1200, 176, 26}, {1200, 65535, 26},
      {OFF, 1, 27},     {OFF, 255, 27},   {OFF, 256, 26},   {OFF, 1200, 26}, {850, 851, 27},
  };
  for (size_t k = 0; k < sizeof entries / sizeof *entries; k++) {
    uint8_t pending[RECORD];
    memcpy(pending, with_reaches(850, entries[k].pending), RECORD);
    confirmed_otherwise(pending, with_reaches(850, entries[k].entered), entries[k].at);
  }
}

static void second_reach_in_force(void) {
  const uint8_t *record = with_reaches(850, 1200);
  comes_into_force(record);
  check("second reach, in bytes 26 and 27", 256u * out.all[GUARD + 26] + out.all[GUARD + 27], 1200);
}

static void stored_second_reach_out_of_range(void) {
  static const int seconds[] = {1, 849, 2001, 65535};
  for (size_t k = 0; k < sizeof seconds / sizeof *seconds; k++) counts_as_absent(with_reaches(850, seconds[k]));
}

/* ---- The zone ---- */

enum { FAULTS = 12, BALANCED = FAULTS, BY_CHANCE, WINDOWS = BY_CHANCE + 40 };

/* A window by its number: the faults of fault_on; one of all three phases, which has no direction, and which the loops see at 1000
** thousandths of the replica; then numbers of no meaning. */
static const uint8_t *nth_window(int n) {
  static const int balanced[3][4] = {{1000, 0, 0, -1000}, {-500, -866, -866, 500}, {-500, 866, 866, 500}};
  static uint8_t window[WINDOW];
  if (n < FAULTS) fault_on(window, n / 4, n / 2 % 2, n % 2 ? -1 : 1);
  if (n == BALANCED) {
    memset(window, 0, WINDOW);
    for (int x = 0; x < 3; x++) {
      phasor(window, x, balanced[x][0], balanced[x][1]);
      through(window, x, balanced[x][2], balanced[x][3]);
    }
  }
  if (n >= BY_CHANCE) {
    uint32_t seed = (uint32_t)n;
    for (int k = 0; k < WINDOW / 2; k++) {
      seed = 1664525 * seed + 1013904223;
      put(window, 2 * k, (int)(seed >> 16) % 20001 - 10000);
    }
  }
  return window;
}

/* The decision on a window by these two reaches, in one of the ways. */
static const uint8_t *decided(int way, const uint8_t *window, int first, int second) {
  return ways[way].decided(with_reaches(first, second), window);
}

static const int reaches[] = {1, 499, 500, 501, 599, 600, 601, 850, 999, 1001, 1200, 1999, 2000};
enum { REACHES = sizeof reaches / sizeof *reaches };

static void second_zone_off(void) {
  for (int way = 0; way < WAYS; way++)
    for (int n = 0; n < WINDOWS; n++)
      for (int k = 0; k < REACHES; k++) check(ways[way].name, decided(way, nth_window(n), reaches[k], OFF)[SECOND_ZONE], 0);
}

/* The fault that docs/HAND-CHECKS.md works out: forward, and loop AG asserts from a reach of 600. */
static void second_zone_at_its_edge(void) {
  static const struct {
    int first, second, loops, zone;
  } edges[] = {
      {1, 599, 0, 0},   {1, 600, 0, 1},   {1, 601, 0, 1},     {1, MOST, 0, 1},   {599, 599, 0, 0},   {599, 600, 0, 1},
      {599, OFF, 0, 0}, {600, 600, 1, 1}, {600, MOST, 1, 1},  {600, OFF, 1, 0},  {MOST, MOST, 1, 1}, {850, 1200, 1, 1},
  };
  uint8_t window[WINDOW];
  fault_on(window, 0, 1, 1);
  for (int way = 0; way < WAYS; way++)
    for (size_t k = 0; k < sizeof edges / sizeof *edges; k++) {
      uint8_t wanted[DECISION] = {0, 0, 0, 1, 0, 0, 0, 0, 0, 0x01, 0xF4, 0x00};
      wanted[0] = wanted[2] = (uint8_t)edges[k].loops; /* the second zone has no part in the trip */
      wanted[4] = (uint8_t)edges[k].zone;
      decided(way, window, edges[k].first, edges[k].second);
      out_is(ways[way].name, wanted);
    }
}

/* The same fault farther away, which docs/HAND-CHECKS.md works out too: AG asserts from 960, beyond the first reach. Forward, no trip. */
static void fault_beyond_the_first_zone(void) {
  static const int seconds[][2] = {{OFF, 0}, {850, 0}, {959, 0}, {960, 1}, {1200, 1}, {MOST, 1}};
  uint8_t window[WINDOW];
  fault_on(window, 0, 1, 1);
  phasor(window, 0, 1600, 0);
  for (int way = 0; way < WAYS; way++)
    for (size_t k = 0; k < sizeof seconds / sizeof *seconds; k++) {
      uint8_t wanted[DECISION] = {0, 0, 0, 1, (uint8_t)seconds[k][1], 0, 0, 0, 0, 0x01, 0xF4, 0x00};
      decided(way, window, 850, seconds[k][0]);
      out_is(ways[way].name, wanted);
    }
}

/* The faults ahead, each by the name of its loop: at a reach that sees none, the second zone does, and nothing trips. */
static void each_loop_in_the_second_zone(void) {
  static const int loops[2][3] = {{GORSEPETAL_LOOP_BC, GORSEPETAL_LOOP_CA, GORSEPETAL_LOOP_AB},
                                  {GORSEPETAL_LOOP_AG, GORSEPETAL_LOOP_BG, GORSEPETAL_LOOP_CG}};
  uint8_t window[WINDOW];
  for (int way = 0; way < WAYS; way++)
    for (int x = 0; x < 3; x++)
      for (int to_ground = 0; to_ground < 2; to_ground++) {
        fault_on(window, x, to_ground, 1);
        const uint8_t *found = decided(way, window, 1, 850);
        check("second zone", found[SECOND_ZONE], (uint64_t)loops[to_ground][x]);
        check("first zone", found[GORSEPETAL_DECISION_AT_LOOPS], 0);
        check("direction", found[GORSEPETAL_DECISION_AT_DIRECTION], GORSEPETAL_DIRECTION_FORWARD);
        check("trip", found[GORSEPETAL_DECISION_AT_TRIP], 0);
        fault_on(window, x, to_ground, -1);
        check("behind", decided(way, window, 1, 850)[SECOND_ZONE], 0);
      }
}

/* What the loops are at a reach does not depend on which of the two it is. All six are seen, and all six are not seen. */
static void same_rule_in_both_zones(void) {
  for (int way = 0; way < WAYS; way++) {
    int some = 0, all = ALL_LOOPS;
    for (int n = 0; n < WINDOWS; n++)
      for (int k = 0; k < REACHES; k++) {
        int bits = decided(way, nth_window(n), reaches[k], OFF)[GORSEPETAL_DECISION_AT_LOOPS];
        check("as the first reach is", decided(way, nth_window(n), 1, reaches[k])[SECOND_ZONE], (uint64_t)bits);
        check("both alike", decided(way, nth_window(n), reaches[k], reaches[k])[SECOND_ZONE], (uint64_t)bits);
        some |= bits;
        all &= bits;
      }
    check("loops that some window has", (uint64_t)some, ALL_LOOPS);
    check("loops that every window has", (uint64_t)all, 0);
  }
}

/* Two records that differ in the second reach alone: all bytes are the same, but byte 4. And that has what byte 2 has. */
static void other_bytes_stay(void) {
  static const int firsts[] = {1, 600, 850, MOST};
  for (int way = 0; way < WAYS; way++)
    for (int n = 0; n < WINDOWS; n++)
      for (size_t f = 0; f < sizeof firsts / sizeof *firsts; f++) {
        uint8_t off[DECISION];
        memcpy(off, decided(way, nth_window(n), firsts[f], OFF), DECISION);
        for (int k = 0; k < REACHES; k++) {
          if (reaches[k] < firsts[f]) continue;
          uint8_t wanted[DECISION];
          const uint8_t *on = decided(way, nth_window(n), firsts[f], reaches[k]);
          memcpy(wanted, off, DECISION);
          wanted[SECOND_ZONE] = on[SECOND_ZONE];
          out_is("all bytes but byte 4", wanted);
          check("has the first zone", on[SECOND_ZONE] & on[GORSEPETAL_DECISION_AT_LOOPS], on[GORSEPETAL_DECISION_AT_LOOPS]);
          check("no other bit", on[SECOND_ZONE] & ~ALL_LOOPS, 0);
        }
      }
}

/* The zone asserts at every direction: forward above, none here, and reverse by limits that call everything reverse. */
static void second_zone_by_no_direction(void) {
  const uint8_t *found = decided(BY_DECIDE, nth_window(BALANCED), 850, 1200);
  static const uint8_t lamp_alone[5] = {0, 0, 0, GORSEPETAL_DIRECTION_NONE, ALL_LOOPS};
  check_bytes("none", found, lamp_alone, sizeof lamp_alone);
  uint8_t window[WINDOW], record[RECORD];
  fault_on(window, 0, 1, 1);
  memcpy(record, with_reaches(599, 600), RECORD);
  put(record, GORSEPETAL_AT_FORWARD_LIMIT, -20000);
  put(record, GORSEPETAL_AT_REVERSE_LIMIT, -19999);
  lend_state(record, zeros);
  check("decide", decide(window, WINDOW, DECISION), GORSEPETAL_DONE);
  static const uint8_t behind[5] = {0, 0, 0, GORSEPETAL_DIRECTION_REVERSE, GORSEPETAL_LOOP_AG};
  check_bytes("reverse", out.all + GUARD, behind, sizeof behind);
}

/* A refusal leaves the room as it was, byte 4 too. */
static void refused_with_the_second_zone(void) {
  uint8_t window[WINDOW];
  fault_on(window, 0, 1, 1);
  put(window, 2 * 34, GORSEPETAL_MISSING);
  lend_state(with_reaches(599, 600), zeros);
  check("decide", decide(window, WINDOW, DECISION), refused(GORSEPETAL_MISSING_SAMPLE, 34));
  out_untouched();
  check("no room", decide(window, WINDOW, SECOND_ZONE + 1), GORSEPETAL_NO_ROOM);
  out_untouched();
}

/* A state of version 2, window and all: its records have zeros at 26 and 27. It reads back, decides and feeds as it did, with byte 4 zero,
** and its pending record can be confirmed. */
static void record_from_before(void) {
  uint8_t window[WINDOW], wanted[DECISION] = {1, 0, 1, 1, 0, 0, 0, 0, 0, 0x01, 0xF4, 0x00};
  fault_on(window, 0, 1, 1);
  stored_state_serves(good, window, wanted);
}

const struct test_case second_zone_cases[] = {
    {"limits of the second reach", limits_of_the_second_reach},
    {"lower byte alone", lower_byte_alone},
    {"upper byte alone", upper_byte_alone},
    {"second reach in order", second_reach_in_order},
    {"confirmation of the second reach", confirmation_of_the_second_reach},
    {"second reach in force", second_reach_in_force},
    {"stored second reach out of range", stored_second_reach_out_of_range},
    {"second zone off", second_zone_off},
    {"second zone at its edge", second_zone_at_its_edge},
    {"fault beyond the first zone", fault_beyond_the_first_zone},
    {"each loop in the second zone", each_loop_in_the_second_zone},
    {"same rule in both zones", same_rule_in_both_zones},
    {"other bytes stay", other_bytes_stay},
    {"second zone by no direction", second_zone_by_no_direction},
    {"refused with the second zone", refused_with_the_second_zone},
    {"record from before", record_from_before},
    {0, 0},
};
