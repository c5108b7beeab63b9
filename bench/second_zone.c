/* What the second zone costs: the instructions of one call with the zone off and with it on. */
#include <stdio.h>

#include "measure.h"
#include "windows.h"

/* The goal, for decide and for feed inside the archive. */
enum { MOST_ABOVE_OFF = 120 };

/* The largest difference in a table, so far: the zone takes instructions, never gives any back. */
static long largest;

static void print_line(const char *name, int ends, const steps *off, const steps *on) {
  long above = on[ARCHIVE].own - off[ARCHIVE].own;
  printf("%4d  %-6s", ends, name);
  print_count(off[ARCHIVE]);
  print_count(on[ARCHIVE]);
  printf("%10ld", above);
  print_count(off[PLAIN_O3]);
  print_count(on[PLAIN_O3]);
  printf("%10ld", on[PLAIN_O3].own - off[PLAIN_O3].own);
  print_ratio(on[ARCHIVE].own, on[PLAIN_O3].own);
  printf("\n");
  if (above > largest) largest = above;
}

static void count_both(which_call which, steps *of) {
  of[ARCHIVE] = counted(ARCHIVE, which);
  of[PLAIN_O3] = counted(PLAIN_O3, which);
}

/* The call that is lent, with the zone off and then on. */
static void zone_line(which_call which, const char *name, int ends) {
  steps off[VERSIONS], on[VERSIONS];
  count_both(which, off);
  turn_on_second_zone(&slices);
  count_both(which, on);
  print_line(name, ends, off, on);
}

static void decide_line(const char *name, int ends) { zone_line(DECIDE, name, ends); }

static void feed_line(const char *name, int ends) {
  feed_newest(&slices);
  zone_line(FEED, name, ends);
}

static void zone_table(const char *call, void (*line)(const char *name, int ends)) {
  largest = 0;
  printf("\n%-24s%14s%48s\n", call, "archive", "plain -O3");
  printf("ends  window           off            on  on - off           off            on  on - off       on / O3\n");
  for_each_window(line);
  printf("on - off: %ld at most, and the goal is %d.\n", largest, MOST_ABOVE_OFF);
}

void second_zone_tables(void) {
  printf("\nThe second zone, instructions of one call in the same way: off, as in the tables above, and on, at a reach of 1200 where\n");
  printf("the first is 850. The differences and the ratio are of what is inside.\n");
  zone_table("Decide", decide_line);
  zone_table("Feed", feed_line);
}
