/* What the quadrilaterals cost: the instructions of one call with them off and with them on. On a fault ahead all three are worked out. */
#include <stdio.h>

#include "event_calls.h"
#include "measure.h"

/* The goal for the three, in each call, inside the archive. */
enum { MOST_ABOVE_OFF = 250 };

/* The largest difference so far. */
static long largest;

static void print_line(const char *name, int ends, which_call which) {
  static const int shown[] = {ARCHIVE, PLAIN_O3};
  lent off = slices, on = slices;
  steps without[2], with[2];
  put(off.state, GORSEPETAL_AT_RESISTIVE_REACH, 0);
  turn_on_quadrilaterals(&on);
  printf("%4d  %-6s", ends, name);
  for (int k = 0; k < 2; k++) {
    slices = off;
    print_count(without[k] = counted(shown[k], which));
    slices = on;
    print_count(with[k] = counted(shown[k], which));
    printf("%10ld", with[k].own - without[k].own);
  }
  print_ratio(without[0].own, without[1].own);
  print_ratio(with[0].own, with[1].own);
  print_ratio(all(with[0]), all(with[1]));
  printf("\n");
  if (with[0].own - without[0].own > largest) largest = with[0].own - without[0].own;
}

static which_call asked;

static void line_of_window(const char *name, int ends) {
  if (asked != DECIDE) feed_newest(&slices);
  if (asked == READ) read_fed(&slices, 0);
  print_line(name, ends, asked);
}

/* The windows of the tables above, a fault of all three phases to ground, with another current in each, and full scale. */
static void call_table(which_call which) {
  asked = which;
  printf("\n%-24s%14s%48s\n", call_names[which], "archive", "plain -O3");
  printf("ends  window           off            on  on - off           off            on  on - off");
  printf("      off / O3       on / O3      all / O3\n");
  for_each_window(line_of_window);
  for (int ends = FEWEST_ENDS; ends <= MOST_ENDS; ends++) {
    lend_quadrilaterals(&slices, ends, SETS - 1);
    line_of_window("all", ends);
    lend_full_scale(&slices, ends);
    line_of_window("full", ends);
  }
}

/* What a version takes more in decide where those of this set operate, and the others lie above the top. */
static long more_by_set(int v, int set) {
  lend_quadrilaterals(&slices, FEWEST_ENDS, set);
  put(slices.state, GORSEPETAL_AT_RESISTIVE_REACH, 0);
  long off = counted(v, DECIDE).own;
  turn_on_quadrilaterals(&slices);
  return counted(v, DECIDE).own - off;
}

void quadrilateral_tables(void) {
  static const int shown[] = {ARCHIVE, PLAIN_O2, PLAIN_O3};
  largest = 0;
  printf("\nThe quadrilaterals, instructions of one call in the same way: off, as in the tables above, and on, at a resistive reach of\n");
  printf("20. On fault, all and full the direction is forward, and all three are worked out and operate; all has a fault of all\n");
  printf("three phases to ground, and full has square waves of full scale on every channel, or nearly so. On quiet and dead there\n");
  printf("is no direction. The differences are of what is inside.\n");
  call_table(DECIDE);
  call_table(FEED);
  call_table(READ);
  printf("on - off in the archive: %ld at most, and the goal is %d.\n", largest, MOST_ABOVE_OFF);
  printf("\nThe difference in decide by which of them operate, on a line with two ends; the others lie above the top:\n\n");
  printf("%-10s       -       A       B     A B       C     A C     B C   A B C\n", "");
  for (size_t k = 0; k < sizeof shown / sizeof *shown; k++) {
    printf("%-10s", versions[shown[k]].name);
    for (int set = 0; set < SETS; set++) printf("%8ld", more_by_set(shown[k], set));
    printf("\n");
  }
}
