/* How many instructions the calls take in the library and in plain C: a table for each question. */
#include <stdio.h>

#include "measure.h"
#include "windows.h"

/* One call of a table by each version that it shows, and what the archive's count is of theirs: inside, and with what is added. */
enum { SHOWN = 5 };
static const int of_decide[SHOWN] = {ARCHIVE, PLAIN_O2, PLAIN_O3, DOUBLE_O2, DOUBLE_O3};
static const int of_feed[SHOWN] = {ARCHIVE, PLAIN_O2, PLAIN_O3, DOUBLE_O3, OWN_O3};

static void print_heads(const int *shown, const char *ratios) {
  printf("ends  window  trip");
  for (int k = 0; k < SHOWN; k++) printf("%14s", versions[shown[k]].name);
  printf("%s\n", ratios);
}

static void print_counts(const char *name, int ends, which_call which, const int *shown, steps *s) {
  lent decided = slices;
  make(&versions[ARCHIVE], which, &decided);
  printf("%4d  %-6s %5d", ends, name, decided.out[0]);
  for (int k = 0; k < SHOWN; k++) print_count(s[shown[k]] = counted(shown[k], which));
}

static void decide_line(const char *name, int ends) {
  steps s[VERSIONS];
  print_counts(name, ends, DECIDE, of_decide, s);
  print_ratio(s[ARCHIVE].own, s[PLAIN_O3].own);
  print_ratio(s[ARCHIVE].own, s[DOUBLE_O3].own);
  print_ratio(all(s[ARCHIVE]), all(s[PLAIN_O3]));
  printf("\n");
}

static void decide_table(void) {
  printf("\nDecide, instructions of one call: those inside the archive or inside plain C, and after the + those that memcpy, memmove\n");
  printf("and memset of the C library add, for which it has other code on another processor.\n");
  printf("quiet: a balanced load through the line. fault: phase a to ground on the line, fed from all ends. dead: every sample is 0,\n");
  printf("so that no root takes a step.\n");
  printf("plain: the same rules in plain C with a root by bits. double: with the processor's root of a double.\n");
  printf("Then the archive's count divided by that of plain -O3 and of double -O3, rounded up; in the last column with what is\n");
  printf("added.\n\n");
  print_heads(of_decide, "   / plain -O3  / double -O3       all / O3");
  for_each_window(decide_line);
}

static void feed_line(const char *name, int ends) {
  steps s[VERSIONS];
  feed_newest(&slices);
  print_counts(name, ends, FEED, of_feed, s);
  print_ratio(s[ARCHIVE].own, s[PLAIN_O3].own);
  print_ratio(s[ARCHIVE].own, s[DOUBLE_O3].own);
  print_ratio(s[ARCHIVE].own, s[OWN_O3].own);
  print_ratio(all(s[ARCHIVE]), all(s[PLAIN_O3]));
  print_ratio(all(s[ARCHIVE]), all(s[OWN_O3]));
  printf("\n");
}

static void feed_table(void) {
  printf("\nFeed, instructions of one call, in the same way: the last frame of the same windows; the fifteen before it are in the\n");
  printf("state. Plain C moves the window on by memmove, so that it has something added too.\n");
  printf("own: as plain, but the window is kept in the processor's own numbers, so that the new frame alone is decoded.\n\n");
  print_heads(of_feed, "   / plain -O3  / double -O3     / own -O3       all / O3      all / own");
  for_each_window(feed_line);
}

/* What feed takes above decide, as a part of what decide takes, in thousandths, rounded up. */
static void print_above(long feed, long decide) {
  long thousandths = (1000 * (feed - decide) + decide - 1) / decide;
  printf("%7ld.%03ld", thousandths / 1000, thousandths % 1000);
}

static void above_line(const char *name, int ends) {
  steps decide = counted(ARCHIVE, DECIDE);
  feed_newest(&slices);
  steps feed = counted(ARCHIVE, FEED);
  printf("%4d  %-6s", ends, name);
  print_count(decide);
  print_count(feed);
  print_above(feed.own, decide.own);
  print_above(all(feed), all(decide));
  printf("\n");
}

static void above_table(void) {
  printf("\nFeed above decide in the archive: decide on the 16 frames, feed of the last of them, and the difference as a part of\n");
  printf("decide, rounded up; in the last column with what is added\n\n");
  printf("ends  window        decide          feed      above  above, all\n");
  for_each_window(above_line);
}

void print_beside_plain(which_call which) {
  steps mine = counted(ARCHIVE, which), theirs = counted(PLAIN_O3, which);
  print_count(mine);
  print_count(theirs);
  print_ratio(mine.own, theirs.own);
  print_ratio(all(mine), all(theirs));
  printf("\n");
}

static void lend_last_missing(int ends) {
  lend_quiet(&slices, ends);
  miss(&slices, last_sample(&slices));
}

static void feed_last_missing(int ends) {
  lend_last_missing(ends);
  feed_newest(&slices);
}

static void feed_first_frame(int ends) {
  lend_quiet(&slices, ends);
  feed_newest(&slices);
  put(slices.state, GORSEPETAL_STATE_AT_COUNT, 0);
}

void table_by_ends(const char *what, which_call which, void (*lend)(int ends)) {
  printf("\n%s, instructions of one call\n\n", what);
  printf("ends       archive     plain -O3   / plain -O3       all / O3\n");
  for (int ends = FEWEST_ENDS; ends <= MOST_ENDS; ends++) {
    lend(ends);
    printf("%4d", ends);
    print_beside_plain(which);
  }
}

static void entry_table(void) {
  printf("\nThe other calls, instructions of one that is accepted\n\n");
  printf("call            archive     plain -O3   / plain -O3       all / O3\n");
  for (which_call which = PROPOSE; which < DECIDE; which++) {
    lend_nth(&slices, which, 0, OFF);
    printf("%-9s", call_names[which]);
    print_beside_plain(which);
  }
}

void instruction_tables(void) {
  decide_table();
  feed_table();
  above_table();
  table_by_ends("Decide, refused because the last sample of the window is missing", DECIDE, lend_last_missing);
  table_by_ends("Feed, refused because the last sample of the frame is missing", FEED, feed_last_missing);
  table_by_ends("Feed, refused because there are fewer than 16 frames yet", FEED, feed_first_frame);
  entry_table();
}

/* The most */

typedef struct {
  long windows;
  steps fewest, most;
} extent;

static void widen(extent *to, steps s) {
  if (to->windows == 0 || all(s) < all(to->fewest)) to->fewest = s;
  if (to->windows == 0 || all(s) > all(to->most)) to->most = s;
  to->windows++;
}

/* Of one call, by the ends of the line. */
typedef extent extents[MOST_ENDS + 1];

static void print_extents(which_call which, added_zones zone, const extent *of) {
  int at = FEWEST_ENDS;
  printf("\n%s, second zone and quadrilaterals %s\nends  windows        fewest          most\n", call_names[which], zone_names[zone]);
  for (int ends = FEWEST_ENDS; ends <= MOST_ENDS; ends++) {
    printf("%4d%9ld", ends, of[ends].windows);
    print_count(of[ends].fewest);
    print_count(of[ends].most);
    printf("\n");
    if (all(of[ends].most) > all(of[at].most)) at = ends;
  }
  printf("The most: %ld, with %d ends.\n", all(of[at].most), at);
}

static void widen_nth(long n, added_zones zone, extents decide, extents feed) {
  lend_nth(&slices, DECIDE, n, zone);
  widen(&decide[ends_of(&slices)], counted(ARCHIVE, DECIDE));
  feed_newest(&slices);
  widen(&feed[ends_of(&slices)], counted(ARCHIVE, FEED));
}

void extent_tables(long windows) {
  extents decide[ZONES] = {{{0}}}, feed[ZONES] = {{{0}}};
  for (long n = 0; n < windows; n++) {
    for (added_zones zone = OFF; zone < ZONES; zone++) widen_nth(n, zone, decide[zone], feed[zone]);
    if ((n + 1) % 500 == 0) fprintf(stderr, "%ld of %ld windows counted\n", n + 1, windows);
  }
  printf("\nThe archive, instructions over %ld windows, extreme and drawn, by extreme and drawn records\n", windows);
  for (added_zones zone = OFF; zone < ZONES; zone++) {
    print_extents(DECIDE, zone, decide[zone]);
    print_extents(FEED, zone, feed[zone]);
  }
  printf("\nThe count is bounded: a loop turns once for each end, phase, frame, sample or byte of a record, and at most seven times\n");
  printf("for the slope at which a phase changes. Only the root calls itself, once for each bit of it: at most 26 calls with the\n");
  printf("first. The value of a sample decides how many, and besides some short branches: the pickups, the slopes that are tried,\n");
  printf("the sign of m, whether a fault is ahead, the tops and sides of the quadrilaterals, and what trips. Whether the second\n");
  printf("zone and the quadrilaterals are on is decided by the record.\n");
  printf("A missing sample adds a search over the samples, after which the call ends.\n");
}
