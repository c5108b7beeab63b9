/* What event files cost: the instructions of read beside feed and beside plain C, of a record in pieces, and of the other event calls. */
#include <stdio.h>
#include <string.h>

#include "event_calls.h"
#include "measure.h"

/* The goal for frames that are decided, in hundredths of feed inside the archive. */
enum { GOAL = 115 };

/* What read takes of feed, at most so far, in hundredths, rounded up. */
static long most_of_feed;

static void read_line(const char *name, int ends) {
  feed_newest(&slices);
  steps feed = counted(ARCHIVE, FEED);
  read_fed(&slices, 0);
  steps read = counted(ARCHIVE, READ), plain = counted(PLAIN_O3, READ), own = counted(OWN_O3, READ);
  long hundredths = (100 * read.own + feed.own - 1) / feed.own;
  if (hundredths > most_of_feed) most_of_feed = hundredths;
  printf("%4d  %-6s", ends, name);
  print_count(feed);
  print_count(read);
  printf("%13ld", read.own - feed.own);
  print_ratio(read.own, feed.own);
  print_ratio(all(read), all(feed));
  print_count(plain);
  print_count(own);
  print_ratio(read.own, plain.own);
  print_ratio(read.own, own.own);
  print_ratio(all(read), all(plain));
  printf("\n");
}

static void read_table(void) {
  most_of_feed = 0;
  printf("\nRead, instructions of one call in the same way: the frames of feed's table, each as a whole record of an event file without\n");
  printf("status channels. feed: of the same frame. Then read's count divided by feed's, and by that of plain C's read.\n\n");
  printf("ends  window          feed          read  read - feed        / feed    all / feed");
  printf("     plain -O3       own -O3   / plain -O3     / own -O3       all / O3\n");
  for_each_window(read_line);
  printf("/ feed: %ld.%02ld at most, and the goal is %d.%02d.\n", most_of_feed / 100, most_of_feed % 100, GOAL / 100, GOAL % 100);
}

/* What a version takes for the record that is lent, handed over in pieces of this length: the sum of the calls. */
static steps in_pieces(int v, size_t piece) {
  lent whole = slices;
  steps sum = {0};
  for (size_t at = 0; at < whole.in_len; at += piece) {
    slices.in_len = piece < whole.in_len - at ? piece : whole.in_len - at;
    memcpy(slices.in, whole.in + at, slices.in_len);
    steps s = counted(v, READ);
    sum.own += s.own;
    sum.outside += s.outside;
    make(&versions[v], READ, &slices);
  }
  slices = whole;
  return sum;
}

static void lend_quiet_record(int ends) {
  lend_quiet(&slices, ends);
  feed_newest(&slices);
  read_fed(&slices, 0);
}

static void pieces_line(int ends) {
  static const int shown[] = {ARCHIVE, PLAIN_O3};
  lend_quiet_record(ends);
  steps whole[2], two[2], single[2];
  printf("%4d", ends);
  for (int k = 0; k < 2; k++) {
    print_count(whole[k] = in_pieces(shown[k], slices.in_len));
    print_count(two[k] = in_pieces(shown[k], (slices.in_len + 1) / 2));
    print_count(single[k] = in_pieces(shown[k], 1));
  }
  print_ratio(two[0].own, whole[0].own);
  print_ratio(single[0].own, whole[0].own);
  print_ratio(single[0].own, single[1].own);
  printf("\n");
}

static void pieces_table(void) {
  printf("\nRead of a record in pieces: whole, cut in the middle, and in single bytes. The sum of the calls, on the quiet line. Then in\n");
  printf("two and in single bytes of whole, and in single bytes of plain C's.\n\n");
  printf("%4s%25s%42s\n", "", "archive", "plain -O3");
  printf("ends         whole        in two  single bytes         whole        in two  single bytes");
  printf("   two / whole single / whole  / plain -O3\n");
  for (int ends = FEWEST_ENDS; ends <= MOST_ENDS; ends++) pieces_line(ends);
}

/* One call of each further kind. */

static void lend_with_status(int ends) {
  lend_quiet(&slices, ends);
  feed_newest(&slices);
  read_fed(&slices, MOST_STATUS);
}

static void lend_one_byte(int ends) {
  lend_quiet_record(ends);
  slices.in_len = 1;
}

static void lend_other_number(int ends) {
  lend_quiet_record(ends);
  slices.in[0] = 2;
}

static void lend_first_record(int ends) {
  lend_quiet_record(ends);
  put(slices.state, GORSEPETAL_STATE_AT_COUNT, 0);
}

static void lend_to_write(int ends) { lend_nth(&slices, WRITE, ends - FEWEST_ENDS, OFF); }

static void print_line(const char *what, which_call which) {
  printf("%-25s", what);
  print_beside_plain(which);
}

static void other_calls_table(void) {
  printf("\nThe other event calls, instructions of one, six ends and no status channels\n\n");
  printf("call                            archive     plain -O3   / plain -O3       all / O3\n");
  lend_nth(&slices, OPEN, MOST_ENDS - FEWEST_ENDS, OFF);
  print_line("open", OPEN);
  lend_quiet_record(MOST_ENDS);
  print_line("wanted", WANTED);
  print_line("end, between records", END);
  slices.reader[AT_HELD] = 1;
  print_line("end, inside a record", END);
}

void event_tables(void) {
  read_table();
  pieces_table();
  table_by_ends("Read of a whole record with 96 status channels", READ, lend_with_status);
  table_by_ends("Read of one byte that finishes no record", READ, lend_one_byte);
  table_by_ends("Read of a whole record, refused because its number is another", READ, lend_other_number);
  table_by_ends("Read of a whole record, refused because there are fewer than 16 frames yet", READ, lend_first_record);
  table_by_ends("Write of a record", WRITE, lend_to_write);
  other_calls_table();
}
