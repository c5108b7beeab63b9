/* Whether the library and every version of plain C do the same: answers and bytes compared, call by call. */
#include <stdio.h>
#include <stdlib.h>
#include <string.h>

#include "same.h"
#include "seen.h"
#include "windows.h"

static long answered[GORSEPETAL_NO_RELAY + 1]; /* calls compared, by the number given back */
static long counts_given;                      /* those of wanted, which gives no number of the table */

/* The same bytes in every slice and beyond it. */
static int same_bytes(const lent *a, const lent *b) {
  return memcmp(a->state, b->state, sizeof a->state) == 0 && memcmp(a->in, b->in, sizeof a->in) == 0 &&
         memcmp(a->out, b->out, sizeof a->out) == 0 && memcmp(a->reader, b->reader, sizeof a->reader) == 0;
}

void same(which_call call, const lent *slices) {
  lent wanted = *slices;
  uint64_t answer = make(&versions[ARCHIVE], call, &wanted);
  for (int v = ARCHIVE + 1; v < VERSIONS; v++) {
    lent got = *slices;
    turn_window(&versions[v], &got);
    uint64_t other = make(&versions[v], call, &got);
    turn_window(&versions[v], &got);
    if (other == answer && same_bytes(&got, &wanted)) continue;
    printf("%s: the archive gives back %d at %llu, %s %d at %llu%s\n", call_names[call], (int)GORSEPETAL_NUMBER(answer),
           (unsigned long long)GORSEPETAL_PLACE(answer), versions[v].name, (int)GORSEPETAL_NUMBER(other),
           (unsigned long long)GORSEPETAL_PLACE(other), other == answer ? ", and other bytes" : "");
    exit(1);
  }
  if (call == WANTED)
    counts_given++;
  else
    answered[GORSEPETAL_NUMBER(answer)]++;
  see(call, answer, &wanted);
}

void same_decided(const lent *window) {
  lent feed = *window;
  feed_newest(&feed);
  same(DECIDE, window);
  same(FEED, &feed);
}

/* The call as it is, and with a state of other lengths. */
static void same_with_other_states(which_call call, lent *slices) {
  static const size_t lengths[] = {0, GORSEPETAL_STATE_AT_COUNT, STATE - 1, STATE + 1, STATE};
  for (size_t k = 0; k < sizeof lengths / sizeof *lengths; k++) {
    slices->state_len = lengths[k];
    same(call, slices);
  }
}

/* The same with entries of other lengths. */
static void same_with_other_entries(which_call call, lent *slices) {
  static const size_t lengths[] = {0, RECORD - 1, RECORD + 1, RECORD};
  for (size_t k = 0; k < sizeof lengths / sizeof *lengths; k++) {
    slices->in_len = lengths[k];
    same_with_other_states(call, slices);
  }
}

/* The same with other room. */
static void same_with_other_rooms(which_call call, lent *slices) {
  static const size_t lengths[] = {0, DECISION - 1, DECISION + 1, DECISION};
  for (size_t k = 0; k < sizeof lengths / sizeof *lengths; k++) {
    slices->out_len = lengths[k];
    same_with_other_states(call, slices);
  }
}

/* Every field at the edges of every range, and the spare bytes, beside a second reach that is off, that is on, and that is below the first,
** which is 850; and beside a resistive reach that is off, and that is out of range. */
static void propose_refusals(void) {
  static const int edges[] = {0,    1,    2,    6,    7,    44,    45,    100,   101,   256,   257,    300,    500,  501,  849,  850, 998,
                              999,  1000, 1001, 2000, 2001, 20000, 20001, 32767, 42000, 42001, -20001, -20000, -501, -500, -300, -1};
  static const int reaches[][2] = {{0, 0}, {1200, 0}, {849, 0}, {0, 1001}, {1200, 1001}, {849, 1001}};
  for (int at = 0; at < RECORD; at += 2)
    for (size_t k = 0; k < sizeof edges / sizeof *edges; k++)
      for (size_t pair = 0; pair < sizeof reaches / sizeof *reaches; pair++) {
        lent slices;
        lend_nth(&slices, PROPOSE, 0, OFF);
        good_record(slices.in, FEWEST_ENDS);
        put(slices.in, GORSEPETAL_AT_SECOND_REACH, reaches[pair][0]);
        put(slices.in, GORSEPETAL_AT_RESISTIVE_REACH, reaches[pair][1]);
        put(slices.in, at, edges[k]);
        good_record(slices.state, MOST_ENDS);
        good_record(slices.state + RECORD, MOST_ENDS);
        same_with_other_entries(PROPOSE, &slices);
      }
}

/* Another byte at each place, in the entry and in the pending record, and nothing pending. */
static void confirm_refusals(void) {
  for (int at = 0; at < RECORD; at++)
    for (int where = 0; where < 3; where++) {
      lent slices;
      lend_nth(&slices, CONFIRM, 0, OFF);
      if (where == 0) slices.in[at] ^= 0x80;
      if (where == 1) slices.state[RECORD + at] ^= 0x80;
      if (where == 2) memset(slices.state + RECORD, 0, RECORD);
      good_record(slices.state, MOST_ENDS);
      same_with_other_entries(CONFIRM, &slices);
    }
}

/* A good record in force, one with another byte at each place, and none. */
static void read_back_refusals(void) {
  lent slices;
  for (int at = 0; at < RECORD; at++) {
    lend_nth(&slices, READ_BACK, 0, OFF);
    same_with_other_rooms(READ_BACK, &slices);
    slices.state[at] ^= 0x80;
    same_with_other_rooms(READ_BACK, &slices);
  }
  lend_fresh(&slices);
  same_with_other_rooms(READ_BACK, &slices);
}

/* Windows of each length about the right one, with a sample missing and with none, by a good record and by none. */
static void decide_refusals(void) {
  for (int ends = FEWEST_ENDS; ends <= MOST_ENDS; ends++)
    for (int missing = 0; missing < 2; missing++)
      for (int length = -2; length <= 2; length++) {
        lent slices;
        lend_fault(&slices, ends);
        if (missing) miss(&slices, last_sample(&slices));
        slices.in_len += (size_t)length;
        same_with_other_rooms(DECIDE, &slices);
        memset(slices.state, 0, RECORD);
        same_with_other_rooms(DECIDE, &slices);
      }
}

/* Frames of each length about the right one, with so many frames before and a sample missing or none, by a good record and by none. */
static void feed_refusals(void) {
  static const int counts[] = {0, 14, 15, 16, 17, 255, 256, 32767, -1};
  for (int ends = FEWEST_ENDS; ends <= MOST_ENDS; ends++)
    for (size_t k = 0; k < sizeof counts / sizeof *counts; k++)
      for (int length = -2; length <= 2; length++) {
        lent slices;
        lend_fault(&slices, ends);
        if (k % 2 == 1) miss(&slices, last_sample(&slices));
        feed_newest(&slices);
        put(slices.state, GORSEPETAL_STATE_AT_COUNT, counts[k]);
        slices.in_len += (size_t)length;
        same_with_other_rooms(FEED, &slices);
        memset(slices.state, 0, RECORD);
        same_with_other_rooms(FEED, &slices);
      }
}

/* A sample missing at each place; the last one is missing too: the first is named. */
static void missing_samples(void) {
  for (int ends = FEWEST_ENDS; ends <= MOST_ENDS; ends++) {
    lent slices;
    lend_quiet(&slices, ends);
    for (int place = last_sample(&slices); place >= 0; place--) {
      lend_quiet(&slices, ends);
      miss(&slices, last_sample(&slices));
      miss(&slices, place);
      same_decided(&slices);
    }
  }
}

void same_refusals(void) {
  propose_refusals();
  confirm_refusals();
  read_back_refusals();
  decide_refusals();
  feed_refusals();
  missing_samples();
}

/* Proposes the record that decides in this window. */
static void same_proposed(const lent *window) {
  lent slices;
  lend_fresh(&slices);
  memcpy(slices.in, window->state, RECORD);
  slices.in_len = RECORD;
  same(PROPOSE, &slices);
}

/* Each pair of reaches about the edges of the loops, and about those of the ranges, by this record. */
static void same_reaches(lent *window) {
  static const int reaches[] = {0, 1, 249, 250, 251, 256, 499, 500, 501, 999, 1000, 1001, 1999, 2000, 2001, 32767, -1};
  enum { REACHES = sizeof reaches / sizeof *reaches };
  for (int pair = 0; pair < REACHES * REACHES; pair++) {
    put(window->state, GORSEPETAL_AT_REACH, reaches[pair / REACHES]);
    put(window->state, GORSEPETAL_AT_SECOND_REACH, reaches[pair % REACHES]);
    same_proposed(window);
    same_decided(window);
  }
}

void same_zones(void) {
  static const int limits[][2] = {{600, 700}, {-300, 300}, {-300, 700}}; /* forward, reverse, none */
  for (int phase = 0; phase < 3; phase++)
    for (size_t way = 0; way < sizeof limits / sizeof *limits; way++) {
      lent slices;
      lend_edge(&slices, FEWEST_ENDS, phase);
      put(slices.state, GORSEPETAL_AT_FORWARD_LIMIT, limits[way][0]);
      put(slices.state, GORSEPETAL_AT_REVERSE_LIMIT, limits[way][1]);
      same_reaches(&slices);
    }
}

/* With a pickup of 3I2 about 50 and at the edges of its range, and reaches about 500. */
static void same_pickups(lent *window) {
  static const int pickups[] = {1, 49, 50, 51, 52, 42000};
  static const int reaches[][2] = {{850, 0}, {499, 500}, {500, 500}, {1, LARGEST_REACH}, {LARGEST_REACH, LARGEST_REACH}};
  for (size_t pickup = 0; pickup < sizeof pickups / sizeof *pickups; pickup++)
    for (size_t pair = 0; pair < sizeof reaches / sizeof *reaches; pair++) {
      put(window->state, GORSEPETAL_AT_NEGATIVE_SEQUENCE_PICKUP, pickups[pickup]);
      put(window->state, GORSEPETAL_AT_REACH, reaches[pair][0]);
      put(window->state, GORSEPETAL_AT_SECOND_REACH, reaches[pair][1]);
      same_decided(window);
    }
}

void same_balanced(void) {
  static const int i2[] = {0, 49, 50, 51};
  for (int ends = FEWEST_ENDS; ends <= MOST_ENDS; ends++)
    for (balanced_fault fault = HALFWAY; fault < BALANCED_FAULTS; fault++)
      for (size_t k = 0; k < sizeof i2 / sizeof *i2; k++) {
        lent slices;
        lend_balanced(&slices, ends, fault, i2[k]);
        same_pickups(&slices);
      }
}

/* The two slopes about each c, and pickups about the differentials of the phases, which are 20 c + 10, 20 c + 20 and 20 c + 2 counts. */
void same_changes(void) {
  static const int beside[] = {1, 2, 3, 10, 11, 20, 21};
  for (int ends = FEWEST_ENDS; ends <= MOST_ENDS; ends++)
    for (int c = 0; c < 100; c++)
      for (int slope = c; slope <= c + 1; slope++)
        for (size_t k = 0; k < sizeof beside / sizeof *beside; k++) {
          lent slices;
          lend_change(&slices, ends, c);
          put(slices.state, GORSEPETAL_AT_SLOPE, slope); /* 0 is refused */
          put(slices.state, GORSEPETAL_AT_PICKUP, 20 * c + beside[k]);
          same_decided(&slices);
        }
}

/* Resistive reaches about 10, at which the faults have their edges, and about the edges of the range. */
static const int resistive_reaches[] = {0, 1, 9, 10, 11, 255, 256, 999, 1000, 1001, -1};
enum { RESISTIVE_REACHES = sizeof resistive_reaches / sizeof *resistive_reaches };

/* By this record, with each of them and beside a second reach or none. */
static void same_resistive_reaches(lent *window) {
  for (int k = 0; k < 2 * RESISTIVE_REACHES; k++) {
    put(window->state, GORSEPETAL_AT_RESISTIVE_REACH, resistive_reaches[k / 2]);
    put(window->state, GORSEPETAL_AT_SECOND_REACH, k % 2 ? LARGEST_REACH : 0);
    same_proposed(window);
    same_decided(window);
  }
}

/* With limits that make it forward, reverse and none, and with a pickup that 3I2 does not reach. */
static void same_directions(lent *window) {
  static const int ways[][3] = {{19999, 20000, 50}, {-20000, -19999, 50}, {-20000, 20000, 50}, {19999, 20000, 42000}};
  for (size_t way = 0; way < sizeof ways / sizeof *ways; way++) {
    put(window->state, GORSEPETAL_AT_FORWARD_LIMIT, ways[way][0]);
    put(window->state, GORSEPETAL_AT_REVERSE_LIMIT, ways[way][1]);
    put(window->state, GORSEPETAL_AT_NEGATIVE_SEQUENCE_PICKUP, ways[way][2]);
    same_resistive_reaches(window);
  }
}

void same_quadrilaterals(void) {
  lent slices;
  for (int ends = FEWEST_ENDS; ends <= MOST_ENDS; ends++) {
    for (resistive_fault fault = BELOW_TOP; fault < RESISTIVE_FAULTS; fault++)
      for (int phase = 0; phase < 3; phase++) {
        lend_resistive(&slices, ends, fault, phase);
        same_directions(&slices);
      }
    for (int set = 0; set < SETS; set++) {
      lend_quadrilaterals(&slices, ends, set);
      same_directions(&slices);
    }
    lend_full_scale(&slices, ends);
    same_directions(&slices);
  }
}

void print_compared(void) {
  long calls = counts_given;
  for (int number = 0; number <= GORSEPETAL_NO_RELAY; number++) calls += answered[number];
  printf("%ld calls made by the archive and by all six versions of plain C: the same answers, the same bytes written.\n", calls);
  printf("Done: %ld. Refused", answered[GORSEPETAL_DONE]);
  const char *before = ": ";
  for (int number = GORSEPETAL_DONE + 1; number <= GORSEPETAL_NO_RELAY; number++)
    if (answered[number] != 0) {
      printf("%s%ld with %d", before, answered[number], number);
      before = ", ";
    }
  printf(". Counts given by wanted: %ld.\n", counts_given);
  print_seen();
}
