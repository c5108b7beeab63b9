/* What the slopes at which the phases change cost: the instructions of one call where every phase reaches its pickup, so that three slopes
** are searched for, and of the same call where none does. */
#include <stdio.h>

#include "event_calls.h"
#include "measure.h"

/* Pickups in counts: one that no phase reaches here, that of document 01's record, and the smallest. */
enum { NOT_REACHED = 42000, USUAL = 100, SMALLEST = 1 };
enum { SLOPES = 100 };

/* What a version takes for the call that is lent, by this pickup. */
static steps counted_by(int pickup, int v, which_call which) {
  put(slices.state, GORSEPETAL_AT_PICKUP, pickup);
  return counted(v, which);
}

static void print_line(which_call which, int ends) {
  static const int shown[] = {ARCHIVE, PLAIN_O3};
  steps below[2], reached[2];
  printf("%4d", ends);
  for (int k = 0; k < 2; k++) {
    print_count(below[k] = counted_by(NOT_REACHED, shown[k], which));
    print_count(reached[k] = counted_by(USUAL, shown[k], which));
    printf("%12ld", reached[k].own - below[k].own);
  }
  print_ratio(below[0].own, below[1].own);
  print_ratio(reached[0].own, reached[1].own);
  print_ratio(all(reached[0]), all(reached[1]));
  printf("\n");
}

static void call_table(which_call which) {
  printf("\n%-10s%22s%40s\n", call_names[which], "archive", "plain -O3");
  printf("ends         below       reached  difference         below       reached  difference");
  printf("    below / O3  reached / O3      all / O3\n");
  for (int ends = FEWEST_ENDS; ends <= MOST_ENDS; ends++) {
    lend_three(&slices, ends);
    if (which != DECIDE) feed_newest(&slices);
    if (which == READ) read_fed(&slices, 0);
    print_line(which, ends);
  }
}

/* What a version takes more in decide where all three phases reach the pickup and change at c. The roots are the same with both pickups. */
static long searched(int v, int c) {
  lend_change(&slices, FEWEST_ENDS, c);
  long below = counted_by(NOT_REACHED, v, DECIDE).own;
  return counted_by(SMALLEST, v, DECIDE).own - below;
}

static void print_every_c(int v) {
  long more[SLOPES];
  int fewest = 0, most = 0;
  for (int c = 0; c < SLOPES; c++) {
    more[c] = searched(v, c);
    if (more[c] < more[fewest]) fewest = c;
    if (more[c] > more[most]) most = c;
  }
  printf("%-10s%8ld at c = %2d%8ld at c = %2d\n", versions[v].name, more[fewest], fewest, more[most], most);
}

void change_tables(void) {
  printf("\nThe slopes at which the phases change, instructions of one call in the same way. The line has a fault of all three phases,\n");
  printf("with 5000 counts into it from each end. below: by a record with a pickup of %d, which no phase reaches, so that each c\n",
         NOT_REACHED);
  printf("is 0. reached: by one with a pickup of %d, so that each c is searched for, and the slope in force is tested. The\n", USUAL);
  printf("differences are of what is inside.\n");
  call_table(DECIDE);
  call_table(FEED);
  call_table(READ);
  printf("\nThe difference in decide by c, from 0 to 99 and the same in all three phases, on a line with two ends:\n\n");
  printf("%28s%18s\n", "fewest", "most");
  print_every_c(ARCHIVE);
  print_every_c(PLAIN_O3);
}
