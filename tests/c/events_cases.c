/* Document 02, CR 5, in named cases: event files opened and read in pieces, and what each answer leaves of the reader, the relay and the
** room. */
#include <string.h>

#include "reading.h"

/* ---- Open, wanted, lengths ---- */

static void opened(void) {
  static const struct {
    uint64_t ends, status, length; /* of a record, or 0 where the file is refused */
  } files[] = {
      {0, 0, 0},     {1, 0, 0},           {2, 0, 26},           {3, 0, 32},    {4, 0, 38},          {5, 0, 44},           {6, 0, 50},
      {7, 0, 0},     {255, 0, 0},         {258, 0, 0},          {65538, 0, 0}, {4294967298u, 0, 0}, {(uint64_t)-1, 0, 0}, {2, 1, 28},
      {2, 16, 28},   {2, 17, 30},         {2, 96, 38},          {6, 96, 62},   {2, 97, 0},          {2, 255, 0},          {2, 256, 0},
      {2, 65536, 0}, {2, 4294967296u, 0}, {2, (uint64_t)-1, 0}, {7, 97, 0},
  };
  static const uint8_t ended[READER] = {3, 5, OTHER_NUMBER, 7, 9, 9, 9, 9};
  const uint8_t *const before[] = {zeros, ended, some_window};
  lend_line(2, 15);
  for (size_t k = 0; k < sizeof files / sizeof *files; k++)
    for (size_t b = 0; b < sizeof before / sizeof *before; b++) {
      uint8_t wanted[READER] = {0};
      int good_file = files[k].length > 0;
      if (good_file) {
        wanted[ENDS] = (uint8_t)files[k].ends;
        wanted[STATUS] = (uint8_t)files[k].status;
      }
      lend(&reader, before[b], READER);
      check("open", events_open(files[k].ends, files[k].status), good_file ? GORSEPETAL_DONE : BAD_FILE);
      check_bytes("reader", in_reader, wanted, READER);
      check("wanted", events_wanted(), files[k].length);
      if (!good_file) has_ended(BAD_FILE);
    }
}

static void never_opened(void) {
  lend_line(2, 15);
  lend(&reader, zeros, READER);
  has_ended(BAD_FILE);
}

static void reader_of_another_length(void) {
  static const size_t lengths[] = {0, 1, 8, 56, READER - 1, READER + 1, STATE, ROOM};
  uint8_t bytes[ROOM] = {2};
  for (size_t k = 0; k < sizeof lengths / sizeof *lengths; k++) {
    lend_line(2, 15);
    lend(&reader, bytes, lengths[k]);
    struct lent relay = state, before = reader;
    check("open", events_open(3, 0), GORSEPETAL_NO_RELAY);
    check("open, nothing right", events_open(7, 97), GORSEPETAL_NO_RELAY);
    check("wanted", events_wanted(), 0);
    check("end", events_end(), GORSEPETAL_NO_RELAY);
    slices_are(&relay, &before);
    changes_nothing("read", nth_event(1), EVENT, DECISION, GORSEPETAL_NO_RELAY);
    changes_nothing("read, nothing right", nth_event(2), EVENT, 0, GORSEPETAL_NO_RELAY);
  }
}

/* 17 comes before the refusal that ended the reading, and the reader stays as it was. */
static void relay_of_another_length(void) {
  static const size_t lengths[] = {0, 64, READER, STATE - 1, STATE + 1, ROOM};
  static const uint8_t readers[][READER] = {{2}, {2, 0, INSIDE_RECORD, 3}, {2, 0, OTHER_NUMBER}, {0}};
  uint8_t bytes[ROOM] = {0};
  memcpy(bytes, good, RECORD);
  for (size_t k = 0; k < sizeof lengths / sizeof *lengths; k++)
    for (size_t r = 0; r < sizeof readers / sizeof *readers; r++) {
      lend(&state, bytes, lengths[k]);
      lend(&reader, readers[r], READER);
      changes_nothing("read", nth_event(1), EVENT, DECISION, GORSEPETAL_NO_RELAY);
      changes_nothing("read, another number", nth_event(2), EVENT, 0, GORSEPETAL_NO_RELAY);
      changes_nothing("read, a byte", nth_event(1), 1, DECISION, GORSEPETAL_NO_RELAY);
      lend(&reader, readers[r], READER - 1);
      changes_nothing("read, no reader either", nth_event(1), EVENT, DECISION, GORSEPETAL_NO_RELAY);
    }
}

/* A group of two bytes for each 16 status channels begun. At every place wanted is what is missing; after the last byte, a record. */
static void wanted_at_each_place(void) {
  static const int groups[][2] = {{0, 0}, {1, 1}, {15, 1}, {16, 1}, {17, 2}, {32, 2}, {33, 3}, {80, 5}, {81, 6}, {95, 6}, {96, 6}};
  for (int ends = FEWEST_ENDS; ends <= MOST_ENDS; ends++)
    for (size_t k = 0; k < sizeof groups / sizeof *groups; k++) {
      size_t length = (size_t)(14 + 6 * ends + 2 * groups[k][1]);
      uint8_t *record = event(ends, 1, 1250, nth(1));
      check("length by the header", (uint64_t)GORSEPETAL_EVENTS_RECORD_BYTES(ends, groups[k][0]), length);
      lend_file(ends, groups[k][0], 15);
      for (size_t at = 0; at < length - 1; at++) {
        check("wanted", events_wanted(), length - at);
        takes("a byte", record + at, 1);
      }
      check("wanted", events_wanted(), 1);
      finishes("the last byte", record + length - 1, 1, DECISION, GORSEPETAL_DONE);
      check("wanted, the next record", events_wanted(), length);
    }
}

/* ---- Records ---- */

/* Two ends and one status channel: number 1, time 0x01020304, nine samples, one group. */
static void record_by_hand(void) {
  static const uint8_t record[] = {1,    0,    0,    0,    4,    3,    2,    1,    0x02, 0x01, 0xFF, 0xFF, 0x00, 0x00,
                                   0x01, 0x80, 0xFF, 0x7F, 0x00, 0x80, 0x10, 0x00, 0x00, 0x10, 0xFE, 0xFF, 0x01, 0x00};
  static const uint8_t frame[FRAME] = {0x01, 0x02, 0xFF, 0xFF, 0x00, 0x00, 0x80, 0x01, 0x7F,
                                       0xFF, 0x80, 0x00, 0x00, 0x10, 0x10, 0x00, 0xFF, 0xFE};
  uint8_t wanted[READER] = {2, 1, 0, 0, 1, 0, 0, 0, 1, 2, 3, 4};
  memcpy(wanted + 12, frame, sizeof frame);
  memcpy(wanted + 56, record, sizeof record);
  lend_file(2, 1, 0);
  check("read", events_read(record, sizeof record, DECISION), GORSEPETAL_TOO_FEW_FRAMES);
  check_bytes("reader", in_reader, wanted, READER);
  check_bytes("frame, behind 15 others from byte 66 on", state.all + GUARD + 66 + 15 * 18, frame, FRAME);
  check("count", state.all[GUARD + COUNT + 1], 1);
}

/* In two pieces at each place, the empty ones too, and in single bytes: all is as if the record came whole. */
static void every_cut(void) {
  uint8_t record[EVENT];
  memcpy(record, nth_event(1), EVENT);
  lend_file(2, 0, 15);
  finishes("whole", record, EVENT, DECISION, GORSEPETAL_DONE);
  struct lent relay = state, whole = reader, decided = out;
  for (size_t cut = 0; cut < EVENT; cut++) {
    lend_file(2, 0, 15);
    takes("the first piece", record, cut);
    finishes("the second", record + cut, EVENT - cut, DECISION, GORSEPETAL_DONE);
    slices_are(&relay, &whole);
    check_bytes("out", out.all, decided.all, sizeof out.all);
  }
  lend_file(2, 0, 15);
  for (size_t at = 0; at < EVENT - 1; at++) takes("a byte", record + at, 1);
  finishes("the last byte", record + EVENT - 1, 1, DECISION, GORSEPETAL_DONE);
  slices_are(&relay, &whole);
  check_bytes("out", out.all, decided.all, sizeof out.all);
}

/* What is heard of a file of some records and a part of one more: each record's answer, with the room and the reader then. */
enum { RECORDS = 20, SHORT_OF_ONE = 7, OF_STATUS = 17, OF_RECORD = EVENT + 4 };
typedef struct {
  int records;
  uint64_t answers[RECORDS], end;
  uint8_t rooms[RECORDS][DECISION], readers[RECORDS][HAND];
} heard;

/* By the loop of the manual, in pieces of this length. */
static void hear(heard *to, const uint8_t *file, size_t length, size_t piece) {
  memset(to, 0, sizeof *to);
  lend_file(2, OF_STATUS, 5);
  for (size_t from = 0; from < length; from += piece) {
    const uint8_t *bytes = file + from;
    size_t left = piece < length - from ? piece : length - from, wanted;
    while (left > 0 && (wanted = (size_t)events_wanted()) > 0) {
      uint64_t given = events_read(bytes, left, DECISION);
      if (left < wanted) {
        check("taken", given, GORSEPETAL_DONE);
        break;
      }
      to->answers[to->records] = given;
      memcpy(to->rooms[to->records], out.all + GUARD, DECISION);
      memcpy(to->readers[to->records++], in_reader, HAND);
      bytes += wanted;
      left -= wanted;
    }
  }
  to->end = events_end();
}

static void file_in_pieces_of_every_length(void) {
  static heard whole, other_way;
  uint8_t file[RECORDS * OF_RECORD + SHORT_OF_ONE];
  for (int k = 0; k <= RECORDS; k++)
    memcpy(file + k * OF_RECORD, event(2, (uint32_t)k + 1, 1250u * (uint32_t)k, k == 12 ? nth_missing(k, 4) : nth(k)),
           k < RECORDS ? OF_RECORD : SHORT_OF_ONE);
  hear(&whole, file, sizeof file, OF_RECORD);
  check("records", (uint64_t)whole.records, RECORDS);
  for (int k = 0; k < RECORDS; k++) {
    uint64_t missing = refused(GORSEPETAL_MISSING_SAMPLE, (uint64_t)(CHANNELS * (15 + 12 - k) + 4));
    check("answer", whole.answers[k], k < 10 ? GORSEPETAL_TOO_FEW_FRAMES : k < 12 ? GORSEPETAL_DONE : missing);
  }
  check("end", whole.end, refused(INSIDE_RECORD, RECORDS));
  for (size_t piece = 1; piece <= sizeof file; piece++) {
    hear(&other_way, file, sizeof file, piece);
    check_bytes("the same is heard", (const uint8_t *)&other_way, (const uint8_t *)&whole, sizeof whole);
  }
}

static void bytes_past_wanted(void) {
  uint8_t file[3 * EVENT];
  for (uint32_t k = 0; k < 3; k++) memcpy(file + k * EVENT, nth_event(k + 1), EVENT);
  lend_file(2, 0, 15);
  finishes("three records lent, one taken", file, 3 * EVENT, DECISION, GORSEPETAL_DONE);
  takes("three bytes", file + EVENT, 3);
  finishes("the rest of the second, and the third", file + EVENT + 3, 2 * EVENT - 3, DECISION, GORSEPETAL_DONE);
  finishes("the third", file + 2 * EVENT, EVENT, DECISION, GORSEPETAL_DONE);
}

/* No settings, other ends, no room: none of it is asked before the record is whole. */
static void piece_that_finishes_none(void) {
  lend_relay(bad, 15, zeros);
  lend_reader(2, 0, 0);
  changes_nothing("nothing at all", zeros, 0, 0, GORSEPETAL_DONE);
  for (size_t length = 1; length < EVENT; length++) {
    lend_reader(2, 0, 0);
    takes("no settings", nth_event(1), length);
  }
  lend_line(3, 15);
  lend_reader(2, 0, 0);
  takes("other ends", nth_event(1), EVENT - 1);
  check("no room", events_read(zeros, 0, 0), GORSEPETAL_DONE);
  out_untouched();
}

/* Of the samples 8000 hex is a missing one: 4 for as long as it is among the 16 frames. */
static void missing_sample_in_a_file(void) {
  lend_file(2, 0, 15);
  reads("before", 1, nth(1), GORSEPETAL_DONE);
  for (uint32_t n = 2; n <= 17; n++)
    reads("in the window", n, n == 2 ? nth_missing(2, 4) : nth((int)n), refused(GORSEPETAL_MISSING_SAMPLE, CHANNELS * (17 - n) + 4));
  reads("after", 18, nth(18), GORSEPETAL_DONE);
}

/* Any time is good, also one that falls; any status bits are. */
static void times_and_status_bits(void) {
  static const uint32_t times[] = {0, 1, 1250, 1250, 2147483648u, 4294967295u, 0};
  lend_file(2, MOST_STATUS, 16);
  for (uint32_t k = 0; k < sizeof times / sizeof *times; k++) {
    uint8_t *record = event(2, k + 1, times[k], nth((int)k));
    for (int at = EVENT; at < EVENT + 12; at++) record[at] = (uint8_t)(k * 37);
    finishes("read", record, EVENT + 12, DECISION, GORSEPETAL_DONE);
    check("time", shown_time(), times[k]);
  }
}

/* ---- The refusals of feed, which do not end the reading ---- */

/* Each two neighbours at once, in the order 17, what ended the reading, 12, 1, 9, 3, 10, 4. */
static void refusals_of_read_in_order(void) {
  lend(&state, zeros, STATE - 1);
  lend(&reader, zeros, READER);
  changes_nothing("17 before 13", nth_event(2), EVENT, 0, GORSEPETAL_NO_RELAY);
  lend_relay(bad, 15, zeros);
  changes_nothing("13 before 12", nth_event(2), EVENT, 0, BAD_FILE);
  lend_reader(2, 0, 0);
  ends_by_number("12 before 1", nth_event(2), EVENT, 0);
  lend_reader(3, 0, 0);
  finishes("1 before 9", event(3, 1, 0, nth(1)), GORSEPETAL_EVENTS_RECORD_BYTES(3, 0), 0, GORSEPETAL_NO_SETTINGS);
  lend_line(2, 0);
  finishes("9 before 3", event(3, 2, 0, nth(1)), GORSEPETAL_EVENTS_RECORD_BYTES(3, 0), 0, GORSEPETAL_OTHER_FRAME_LENGTH);
  lend_reader(2, 0, 0);
  finishes("3 before 10", nth_event(1), EVENT, DECISION - 1, GORSEPETAL_NO_ROOM);
  reads("10 before 4", 2, nth_missing(1, 4), GORSEPETAL_TOO_FEW_FRAMES);
  lend_file(2, 0, 15);
  reads("4", 1, nth_missing(1, 4), refused(GORSEPETAL_MISSING_SAMPLE, 15 * CHANNELS + 4));
  lend_file(2, 0, 15);
  reads("nothing wrong", 1, nth(1), GORSEPETAL_DONE);
}

/* 9 for each record, and never 13: the file is good, but not this relay's. No frame is kept, and the reader shows each record. */
static void file_of_other_ends(void) {
  for (int ends = FEWEST_ENDS; ends <= MOST_ENDS; ends++)
    for (int relay = FEWEST_ENDS; relay <= MOST_ENDS; relay++) {
      lend_line(relay, 15);
      lend_reader(ends, 0, 0);
      for (uint32_t n = 1; n <= 3; n++) {
        struct lent before = state;
        reads("read", n, nth((int)n), relay == ends ? GORSEPETAL_DONE : GORSEPETAL_OTHER_FRAME_LENGTH);
        if (relay != ends) check_bytes("state, nothing kept", state.all, before.all, sizeof state.all);
      }
      check("end", events_end(), GORSEPETAL_DONE);
    }
}

/* After 1, 9 or 3 the record is gone, and no frame of it is kept: the next one is wanted. */
static void refused_records_are_consumed(void) {
  lend_relay(bad, 15, zeros);
  lend_reader(2, 0, 0);
  struct lent before = state;
  finishes("no settings", nth_event(1), EVENT, DECISION, GORSEPETAL_NO_SETTINGS);
  check_bytes("state, nothing kept", state.all, before.all, sizeof state.all);
  lend_line(3, 15);
  before = state;
  finishes("other ends", nth_event(2), EVENT, DECISION, GORSEPETAL_OTHER_FRAME_LENGTH);
  check_bytes("state, nothing kept", state.all, before.all, sizeof state.all);
  lend_line(2, 15);
  before = state;
  for (size_t room = 0; room < DECISION; room++) {
    finishes("no room", nth_event((uint32_t)room + 3), EVENT, room, GORSEPETAL_NO_ROOM);
    check_bytes("state, nothing kept", state.all, before.all, sizeof state.all);
  }
  reads("the next one", DECISION + 3, nth(1), GORSEPETAL_DONE);
  for (size_t room = DECISION; room <= DECISION + 2; room++) finishes("room", nth_event((uint32_t)room + 4), EVENT, room, GORSEPETAL_DONE);
}

/* The relay's window goes on from one file to the next. A confirmation empties it, also in the middle of a record. */
static void next_file_and_the_window(void) {
  lend_file(2, 0, 0);
  for (uint32_t n = 1; n <= 16; n++) reads("the first file", n, nth((int)n), n < 16 ? GORSEPETAL_TOO_FEW_FRAMES : GORSEPETAL_DONE);
  check("open", events_open(2, 0), GORSEPETAL_DONE);
  reads("the second file", 1, nth(17), GORSEPETAL_DONE);
  takes("a part of its next record", nth_event(2), 10);
  check("propose", propose(good, RECORD), GORSEPETAL_DONE);
  check("confirm", confirm(good, RECORD), GORSEPETAL_DONE);
  finishes("the rest of it", nth_event(2) + 10, EVENT - 10, DECISION, GORSEPETAL_TOO_FEW_FRAMES);
}

static void reading_leaves_the_records(void) {
  lend_file(2, 0, 0);
  for (uint32_t n = 1; n <= 20; n++) {
    reads("read", n, nth((int)n), n < 16 ? GORSEPETAL_TOO_FEW_FRAMES : GORSEPETAL_DONE);
    check_bytes("record in force", state.all + GUARD, good, RECORD);
    check_bytes("pending record", state.all + GUARD + RECORD, other, RECORD);
  }
  check("end", events_end(), GORSEPETAL_DONE);
  check("confirm", confirm(other, RECORD), GORSEPETAL_DONE);
  state_is(other, zeros, zeros);
}

/* Two readers by turns, piece by piece, through one relay: each goes on where it was. */
static void two_files_at_once(void) {
  lend_file(2, 0, 16);
  takes("the first file", nth_event(1), 5);
  struct lent first = reader;
  lend_reader(2, 1, 0);
  takes("the second file", nth_event(1), 20);
  struct lent second = reader;
  reader = first;
  finishes("the first file", nth_event(1) + 5, EVENT - 5, DECISION, GORSEPETAL_DONE);
  reader = second;
  finishes("the second file", nth_event(1) + 20, EVENT + 2 - 20, DECISION, GORSEPETAL_DONE);
}

const struct test_case events_cases[] = {
    {"opened", opened},
    {"never opened", never_opened},
    {"reader of another length", reader_of_another_length},
    {"relay of another length", relay_of_another_length},
    {"wanted at each place", wanted_at_each_place},
    {"record by hand", record_by_hand},
    {"every cut", every_cut},
    {"file in pieces of every length", file_in_pieces_of_every_length},
    {"bytes past wanted", bytes_past_wanted},
    {"piece that finishes none", piece_that_finishes_none},
    {"missing sample in a file", missing_sample_in_a_file},
    {"times and status bits", times_and_status_bits},
    {"refusals of read in order", refusals_of_read_in_order},
    {"file of other ends", file_of_other_ends},
    {"refused records are consumed", refused_records_are_consumed},
    {"next file and the window", next_file_and_the_window},
    {"reading leaves the records", reading_leaves_the_records},
    {"two files at once", two_files_at_once},
    {0, 0},
};
