/* What the calls cost in the library and in plain C: compares their answers, then counts instructions and measures time and stack. */
#include <stdio.h>
#include <stdlib.h>
#include <string.h>

#include "clock.h"
#include "measure.h"
#include "same.h"
#include "stack.h"
#include "windows.h"

enum { RETURN_ADDRESS = 8, DEFAULT_WINDOWS = 10000, WINDOWS_TO_COMPARE = 1000 };

/* Answers first */

static void same_window(const char *name, int ends) {
  (void)name;
  (void)ends;
  same_decided(&slices);
  turn_on_second_zone(&slices);
  same_decided(&slices);
  turn_on_quadrilaterals(&slices);
  same_decided(&slices);
}

/* The nth call of each kind, as it is and spoiled. */
static void same_nth(long n, added_zones zone) {
  for (which_call which = PROPOSE; which < CALLS; which++) {
    lend_nth(&slices, which, n, zone);
    same(which, &slices);
    spoil(&slices, which);
    same(which, &slices);
  }
}

static void compare(long windows) {
  same_refusals();
  same_zones();
  same_balanced();
  same_changes();
  same_quadrilaterals();
  same_events();
  for_each_window(same_window);
  for (long n = 0; n < windows; n++)
    for (added_zones zone = OFF; zone < ZONES; zone++) same_nth(n, zone);
  same_runs(windows);
  print_compared();
}

/* Time */

enum { ROUNDS = 400 };

/* Decide can be made again as it is. */
static void decide_again(void) { make(version, DECIDE, &slices); }

/* Feed gets the next frame of the window, and after the last the first again, as from a steady wave. */
static void feed_next(void) {
  static size_t frame;
  size_t length = (size_t)GORSEPETAL_FRAME_BYTES(ends_of(&slices));
  version->calls->feed(slices.state, STATE, slices.in + length * frame, length, slices.out, DECISION);
  frame = (frame + 1) % GORSEPETAL_FRAMES;
}

/* Beside the archive and plain -O3 a third version. The shortest of many rounds, the versions by turns, so that what else the machine
** does meets them alike. */
static void print_times(const char *name, int ends, void (*timed_call)(void), int third) {
  const int timed[] = {ARCHIVE, PLAIN_O3, third};
  long shortest[VERSIONS];
  for (int round = 0; round < ROUNDS; round++)
    for (size_t k = 0; k < sizeof timed / sizeof *timed; k++) {
      version = &versions[timed[k]];
      long time = nanoseconds(timed_call);
      if (round == 0 || time < shortest[timed[k]]) shortest[timed[k]] = time;
    }
  printf("%4d  %-6s%8ld%11ld%12ld", ends, name, shortest[ARCHIVE], shortest[PLAIN_O3], shortest[third]);
  print_ratio(shortest[ARCHIVE], shortest[PLAIN_O3]);
  print_ratio(shortest[ARCHIVE], shortest[third]);
  printf("\n");
}

static void decide_time(const char *name, int ends) { print_times(name, ends, decide_again, DOUBLE_O3); }
static void feed_time(const char *name, int ends) { print_times(name, ends, feed_next, OWN_O3); }

static void time_tables(void) {
  printf("\nNanoseconds of one call on this machine, in this run: the shortest of %d rounds\n", ROUNDS);
  printf("\nDecide\nends  window archive  plain -O3  double -O3   / plain -O3  / double -O3\n");
  for_each_window(decide_time);
  printf("\nFeed\nends  window archive  plain -O3     own -O3   / plain -O3     / own -O3\n");
  for_each_window(feed_time);
}

/* Stack */

/* The deepest that a call of this version goes, its return address included, over the sequence of calls as they are and spoiled. */
static long stack_bytes(int v, which_call which, long windows, added_zones zone) {
  long deepest = 0;
  lend_nth(&slices, which, 0, zone);
  const uint8_t *top = counted(v, which).stack + RETURN_ADDRESS;
  for (long n = 0; n < 2 * windows; n++) {
    lend_nth(&slices, which, n / 2, zone);
    if (n % 2 == 1) spoil(&slices, which);
    long bytes = top - deepest_written(make_it);
    if (bytes > deepest) deepest = bytes;
  }
  return deepest;
}

static void stack_table(long windows) {
  printf("\nBytes of stack from the return address to the deepest byte written, the red zone below the stack pointer among them.\n");
  printf("The most of %ld calls, half of them with a missing sample, another byte in the record or another thing wrong.\n", 2 * windows);
  printf("Added zones: the second zone and the quadrilaterals\n\n");
  printf("         %21s%21s\n", "added zones off", "added zones on");
  printf("call        archive  plain -O3   archive  plain -O3\n");
  for (which_call which = PROPOSE; which < CALLS; which++) {
    printf("%-9s", call_names[which]);
    for (added_zones zone = OFF; zone < ZONES; zone++)
      printf("%10ld%11ld", stack_bytes(ARCHIVE, which, windows, zone), stack_bytes(PLAIN_O3, which, windows, zone));
    printf("\n");
  }
}

/* The number of windows may be given; or `same`, to compare the answers and no more. */
int main(int arguments, char **words) {
  int same_only = arguments > 1 && strcmp(words[1], "same") == 0;
  long windows = same_only ? WINDOWS_TO_COMPARE : arguments > 1 ? atol(words[1]) : DEFAULT_WINDOWS;
  if (windows < 1) {
    printf("a number of windows is wanted, 1 or more, or the word same\n");
    return 2;
  }
  compare(windows);
  if (same_only) return 0;
  instruction_tables();
  second_zone_tables();
  change_tables();
  quadrilateral_tables();
  event_tables();
  time_tables();
  stack_table(windows);
  fflush(stdout);
  extent_tables(windows);
  return 0;
}
