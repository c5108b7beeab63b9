/* Event files: whether the library and every version of plain C do the same with every refusal, with readers of all kinds, and with a
** record that is cut anywhere. */
#include <string.h>

#include "event_calls.h"
#include "same.h"

#define COUNT(table) (sizeof(table) / sizeof *(table))

static const uint32_t LAST = 4294967295;

/* The call with a reader of other lengths, and as it is. */
static void same_with_other_readers(which_call call, lent *slices) {
  static const size_t lengths[] = {0, 1, READER - 1, READER + 1, READER};
  for (size_t k = 0; k < COUNT(lengths); k++) {
    slices->reader_len = lengths[k];
    same(call, slices);
  }
}

static void open_refusals(void) {
  static const uint64_t ends[] = {0, 1, 2, 3, 4, 5, 6, 7, 255, 256, 258, 65538, 4294967298, (uint64_t)-1};
  static const uint64_t status[] = {0, 1, 15, 16, 17, 95, 96, 97, 255, 256, 352, 65536, 4294967296, (uint64_t)-1};
  for (size_t e = 0; e < COUNT(ends); e++)
    for (size_t s = 0; s < COUNT(status); s++) {
      lent slices;
      lend_nth(&slices, OPEN, 0, OFF);
      slices.ends = ends[e];
      slices.status = status[s];
      same_with_other_readers(OPEN, &slices);
    }
}

static void write_refusals(void) {
  static const uint64_t all_ends[] = {0, 1, 2, 3, 6, 7, 258, 65538, 4294967298, (uint64_t)-1};
  static const uint64_t written[] = {0, 1, 255, 65535, 4294967293, 4294967294, 4294967295, 4294967296, (uint64_t)-1};
  for (size_t e = 0; e < COUNT(all_ends); e++)
    for (size_t w = 0; w < COUNT(written); w++)
      for (int length = -2; length <= 2; length++)
        for (int room = -1; room <= 1; room++) {
          lent slices;
          int ends = FEWEST_ENDS <= all_ends[e] && all_ends[e] <= MOST_ENDS ? (int)all_ends[e] : FEWEST_ENDS;
          lend_fault(&slices, ends);
          slices.ends = all_ends[e];
          slices.written = written[w];
          slices.time = (uint32_t)(written[w] * 1250);
          slices.in_len = (size_t)(GORSEPETAL_FRAME_BYTES(ends) + length);
          slices.out_len = (size_t)(GORSEPETAL_EVENTS_RECORD_BYTES(ends, 0) + room);
          same(WRITE, &slices);
        }
}

/* A fault whose newest frame comes as a record, the first of a file with so many status channels. */
static void lend_read(lent *to, int ends, int status) {
  lend_fault(to, ends);
  feed_newest(to);
  read_fed(to, status);
}

/* The record whole, with a byte over, and one short; with other room and a state and a reader of other lengths; and with no settings. */
static void read_refusals(const lent *read) {
  static const size_t rooms[] = {0, DECISION - 1, DECISION}, states[] = {0, STATE - 1, STATE + 1, STATE};
  for (int in_force = 0; in_force < 2; in_force++)
    for (int over = -1; over <= 1; over++)
      for (size_t r = 0; r < COUNT(rooms); r++)
        for (size_t s = 0; s < COUNT(states); s++) {
          lent slices = *read;
          if (!in_force) memset(slices.state, 0, RECORD);
          slices.in_len += (size_t)over;
          slices.out_len = rooms[r];
          slices.state_len = states[s];
          same_with_other_readers(READ, &slices);
        }
}

/* Of a file of each number of ends, for a relay of each: with a sample missing and without, with fewer than 16 frames and with 16. */
static void read_by_every_relay(void) {
  static const int status[] = {0, 1, 16, 17, 95, 96};
  for (int ends = FEWEST_ENDS; ends <= MOST_ENDS; ends++)
    for (int relay = FEWEST_ENDS; relay <= MOST_ENDS; relay++)
      for (int kind = 0; kind < 4; kind++) {
        lent slices;
        lend_read(&slices, ends, status[(ends + relay + kind) % (int)COUNT(status)]);
        good_record(slices.state, relay);
        if (kind % 2 == 1) put(slices.in + 8 + 2 * (ends + relay), 0, 0x0080);
        if (kind / 2 == 1) put(slices.state, GORSEPETAL_STATE_AT_COUNT, 3);
        read_refusals(&slices);
      }
}

/* Hands a piece over, and leaves what the archive left. */
static void go_on(lent *slices, const uint8_t *bytes, size_t length) {
  memcpy(slices->in, bytes, length);
  slices->in_len = length;
  same(READ, slices);
  make(&versions[ARCHIVE], READ, slices);
}

/* A record cut in two at each place, with the question how much is wanted and with the file's end in between; and its number wrong. */
static void records_cut(int ends, int status) {
  lent read;
  lend_read(&read, ends, status);
  for (int wrong = -1; wrong < 4; wrong++)
    for (size_t cut = 0; cut <= read.in_len; cut++) {
      lent slices = read;
      uint8_t record[LONGEST_RECORD];
      memcpy(record, read.in, read.in_len);
      if (wrong >= 0) record[wrong] ^= 0x40;
      go_on(&slices, record, cut);
      same(WANTED, &slices);
      same(END, &slices);
      go_on(&slices, record + cut, read.in_len - cut);
      same(END, &slices);
      go_on(&slices, record, read.in_len); /* the same number again */
    }
}

/* A reader whose first bytes are these, with so much in hand, the number among it right or not: asked, ended, and read on. */
static void same_reader(lent *slices, uint32_t index, int right, int held) {
  const size_t pieces[] = {0, 1, 3, 4, record_length(slices) - (size_t)held, LONGEST_RECORD};
  slices->reader[AT_HELD] = (uint8_t)held;
  put_low_word(slices->reader + AT_INDEX, index);
  put_low_word(slices->reader + 56, right ? index + 1 : index);
  put_low_word(slices->in, right ? index + 1 : index);
  same_with_other_readers(WANTED, slices);
  same_with_other_readers(END, slices);
  for (size_t k = 0; k < COUNT(pieces); k++)
    if (pieces[k] <= LONGEST_RECORD) {
      slices->in_len = pieces[k];
      same(READ, slices);
    }
}

/* Any bytes are a reader: each of the first ones about its edges. */
static void readers_of_all_kinds(void) {
  static const uint8_t ends[] = {0, 1, 2, 6, 7, 255}, status[] = {0, 1, 16, 17, 96, 97, 255}, ended[] = {0, 5, 10, 11, 12, 13, 255};
  static const uint32_t indices[] = {0, 255, 65536};
  for (size_t e = 0; e < COUNT(ends); e++)
    for (size_t s = 0; s < COUNT(status); s++)
      for (size_t d = 0; d < COUNT(ended); d++) {
        lent slices;
        lend_read(&slices, FEWEST_ENDS, 0);
        for (int at = 0; at < READER; at++) slices.reader[at] = (uint8_t)(at * 37 + 11);
        slices.reader[AT_ENDS] = ends[e];
        slices.reader[AT_STATUS] = status[s];
        slices.reader[AT_ENDED] = ended[d];
        int length = (int)record_length(&slices) % 256;
        const int held[] = {0, 3, 4, length - 1, length, 255};
        for (size_t h = 0; h < COUNT(held); h++)
          for (int right = 0; right < 2; right++) same_reader(&slices, indices[(e + s + d + h) % COUNT(indices)], right, held[h]);
      }
}

/* After 4294967295 there is no number. */
static void last_numbers(void) {
  static const uint32_t numbers[] = {0, 1, 4294967294, 4294967295};
  for (int ends = FEWEST_ENDS; ends <= MOST_ENDS; ends++)
    for (uint32_t before = 0; before < 3; before++)
      for (size_t k = 0; k < COUNT(numbers); k++) {
        lent slices;
        lend_read(&slices, ends, 0);
        put_low_word(slices.reader + AT_INDEX, LAST - before);
        put_low_word(slices.in, numbers[k]);
        same(READ, &slices);
        slices.in_len = 4;
        same(READ, &slices);
      }
}

void same_events(void) {
  open_refusals();
  write_refusals();
  read_by_every_relay();
  records_cut(2, 0);
  records_cut(3, 1);
  records_cut(6, MOST_STATUS);
  readers_of_all_kinds();
  last_numbers();
}
