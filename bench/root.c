/*
** What a root that calls itself costs (document 02, CR 3): decide and feed before and after it, and a root alone. C cannot name the
** library's root: the program is told how many bytes behind gorsepetal_decide it begins.
*/
#include <stdio.h>
#include <stdlib.h>
#include <string.h>

#include "measure.h"
#include "windows.h"

/* Inside the archive of version 3.0.0, whose root was a loop. */
static const struct {
  int ends;
  const char *window;
  long decide, feed;
} BEFORE[] = {
    {2, "quiet", 2763, 3245}, {2, "fault", 2933, 3415}, {2, "dead", 2374, 2856},
    {3, "quiet", 3434, 3945}, {3, "fault", 3635, 4146}, {3, "dead", 2868, 3379},
    {4, "quiet", 4078, 4625}, {4, "fault", 4326, 4873}, {4, "dead", 3362, 3909},
    {5, "quiet", 4695, 5250}, {5, "fault", 4974, 5529}, {5, "dead", 3856, 4411},
    {6, "quiet", 5393, 5984}, {6, "fault", 5703, 6294}, {6, "dead", 4350, 4941},
};

static long before(which_call which, const char *window, int ends) {
  size_t row = 0;
  while (BEFORE[row].ends != ends || strcmp(BEFORE[row].window, window) != 0) row++;
  return which == DECIDE ? BEFORE[row].decide : BEFORE[row].feed;
}

/* Before and after */

static void print_line(which_call which, const char *name, int ends) {
  long was = before(which, name, ends);
  steps now = counted(ARCHIVE, which), plain = counted(PLAIN_O3, which), alike = counted(QUARTER_O3, which);
  printf("%4d  %-6s%8ld", ends, name, was);
  print_count(now);
  printf("%16ld", now.own - was);
  print_count(plain);
  print_count(alike);
  print_ratio(was, plain.own);
  print_ratio(now.own, plain.own);
  print_ratio(now.own, alike.own);
  printf("\n");
}

static void decide_line(const char *name, int ends) { print_line(DECIDE, name, ends); }

static void feed_line(const char *name, int ends) {
  feed_newest(&slices);
  print_line(FEED, name, ends);
}

static void before_and_after(const char *call, void (*line)(const char *name, int ends)) {
  printf("\n%s\nends  window  before         after  after - before     plain -O3   quarter -O3", call);
  printf("  before/plain   after/plain after/quarter\n");
  for_each_window(line);
}

/* A root alone: that of end 1 in phase a, the first that decide takes. */

/* The bits of a number's root: half as many as it has itself, rounded up. */
static int root_bits(uint64_t number) {
  int bits = 0;
  for (; number != 0; number >>= 2) bits++;
  return bits;
}

/* `was` is what the root of version 3.0.0 took. */
static void print_root(const char *window, long was, uintptr_t root) {
  version = &versions[ARCHIVE];
  call = DECIDE;
  steps s = count(make_it, root);
  int bits = root_bits(s.argument);
  printf("%-12s%15llu%9d%8ld%7ld%7ld%7ld\n", window, (unsigned long long)s.argument, bits, was, all(s), s.calls,
         (long)(s.stack - s.deepest) + (long)sizeof(void *));
  if (s.calls != bits + 1) {
    printf("a root of %d bits should have a call for each, and one for zero\n", bits);
    exit(1);
  }
}

static void roots_alone(uintptr_t root) {
  enum { SQUARE_WAVES = MOST_ENDS - FEWEST_ENDS }; /* the first call with six ends: square waves of full scale on every channel */
  printf("\nA root alone, of 4096 times the square of Ia at end 1: its instructions before and after, how often it begins, and the\n");
  printf("bytes of stack from its return address to the deepest byte\n\n");
  printf("window              number     bits  before  after  calls  stack\n");
  lend_dead(&slices, MOST_ENDS);
  print_root("dead", 43, root);
  lend_quiet(&slices, MOST_ENDS);
  print_root("quiet", 93, root);
  lend_fault(&slices, MOST_ENDS);
  print_root("fault", 124, root);
  lend_nth(&slices, DECIDE, SQUARE_WAVES, OFF);
  print_root("square wave", 124, root);
}

int main(int arguments, char **words) {
  if (arguments != 2) {
    printf("wanted: how many bytes behind gorsepetal_decide the root begins\n");
    return 2;
  }
  printf("\nThe root that calls itself, instructions of one call as in the tables above. before: inside the archive of version 3.0.0,\n");
  printf("whose root was a loop. quarter: plain C with the same root. The difference and the ratios are of what is inside. The\n");
  printf("goal for decide is at most 1.10 of plain.\n");
  before_and_after("Decide", decide_line);
  before_and_after("Feed", feed_line);
  roots_alone(code_of(&versions[ARCHIVE], DECIDE) + (uintptr_t)atol(words[1]));
  return 0;
}
