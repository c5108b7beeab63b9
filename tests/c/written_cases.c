/* Document 02, CR 5, in named cases: records of event files that are written, and read back. */
#include <string.h>

#include "reading.h"

/* ---- The writer ---- */

static const uint8_t written_by_hand[] = {0x02, 0x01, 0x00, 0x00, 0xE2, 0x04, 0x00, 0x00, 0x01, 0x00, 0xFF, 0xFF, 0x00,
                                          0x80, 0xFF, 0x7F, 0x04, 0x03, 0x00, 0x00, 0x00, 0x00, 0x00, 0x00, 0x06, 0x05};
static const uint8_t frame_by_hand[FRAME] = {0x00, 0x01, 0xFF, 0xFF, 0x80, 0x00, 0x7F, 0xFF, 0x03, 0x04, 0, 0, 0, 0, 0, 0, 0x05, 0x06};

/* The 258th record, at 1250 microseconds, also where there is more room: later bytes stay. */
static void record_written(void) {
  for (size_t room = EVENT; room <= ROOM; room++) {
    check("write", events_write(2, 257, 1250, frame_by_hand, FRAME, room), GORSEPETAL_DONE);
    out_begins("record", written_by_hand, EVENT);
  }
  for (size_t room = 0; room < EVENT; room++) {
    check("write, no room", events_write(2, 257, 1250, frame_by_hand, FRAME, room), GORSEPETAL_NO_ROOM);
    out_untouched();
  }
}

/* Everything that can be wrong is, and then one thing less at a time. */
static void refusals_of_write_in_order(void) {
  static const uint64_t bad_ends[] = {0, 1, 7, 8, 255, 258, 65538, 4294967298u, (uint64_t)-1};
  for (size_t k = 0; k < sizeof bad_ends / sizeof *bad_ends; k++) {
    check("13 before 9", events_write(bad_ends[k], LAST_NUMBER, 0, zeros, FRAME - 1, 0), BAD_FILE);
    out_untouched();
    check("13", events_write(bad_ends[k], 0, 0, zeros, FRAME, ROOM), BAD_FILE);
    out_untouched();
  }
  check("9 before 3", events_write(2, LAST_NUMBER, 0, zeros, FRAME - 1, EVENT - 2), GORSEPETAL_OTHER_FRAME_LENGTH);
  out_untouched();
  check("3 before 12", events_write(2, LAST_NUMBER, 0, zeros, FRAME, EVENT - 1), GORSEPETAL_NO_ROOM);
  out_untouched();
  check("12", events_write(2, LAST_NUMBER, 0, zeros, FRAME, EVENT), OTHER_NUMBER);
  out_untouched();
  check("nothing wrong", events_write(2, LAST_NUMBER - 1, 0, zeros, FRAME, EVENT), GORSEPETAL_DONE);
}

static void frame_of_another_length_to_write(void) {
  for (int ends = FEWEST_ENDS; ends <= MOST_ENDS; ends++)
    for (size_t length = 0; length <= 2 * LONGEST_FRAME; length++) {
      int right = length == (size_t)GORSEPETAL_FRAME_BYTES(ends);
      uint64_t answer = events_write((uint64_t)ends, 0, 0, some_window, length, ROOM);
      check("write", answer, right ? GORSEPETAL_DONE : GORSEPETAL_OTHER_FRAME_LENGTH);
      if (!right) out_untouched();
    }
}

static void numbers_written(void) {
  static const uint64_t written[] = {0, 1, 254, 255, 65535, 4294967293u, 4294967294u, 4294967295u, 4294967296u, 4294967297u, (uint64_t)-1};
  for (size_t k = 0; k < sizeof written / sizeof *written; k++)
    for (int ends = FEWEST_ENDS; ends <= MOST_ENDS; ends++) {
      int length = GORSEPETAL_EVENTS_RECORD_BYTES(ends, 0), fits = written[k] < LAST_NUMBER;
      uint64_t answer = events_write((uint64_t)ends, written[k], 0xFEDCBA98, nth(3), (size_t)GORSEPETAL_FRAME_BYTES(ends), (size_t)length);
      check("write", answer, fits ? GORSEPETAL_DONE : OTHER_NUMBER);
      if (fits)
        out_begins("record", event(ends, (uint32_t)written[k] + 1, 0xFEDCBA98, nth(3)), (size_t)length);
      else
        out_untouched();
    }
}

/* ---- Round trips ---- */

/* A file is written, read back in pieces of seven bytes, and what the reader shows is written once more. */
static void round_trips(void) {
  for (int ends = FEWEST_ENDS; ends <= MOST_ENDS; ends++) {
    size_t length = (size_t)GORSEPETAL_EVENTS_RECORD_BYTES(ends, 0), frame = (size_t)GORSEPETAL_FRAME_BYTES(ends);
    lend_file(ends, 0, 0);
    for (uint32_t n = 0; n < 20; n++) {
      uint8_t record[LONGEST_EVENT];
      uint32_t time = n * 0x9E3779B9;
      const uint8_t *written = n % 3 == 2 ? nth_missing((int)n, ends) : nth((int)n);
      check("write", events_write((uint64_t)ends, n, time, written, frame, length), GORSEPETAL_DONE);
      memcpy(record, out.all + GUARD, length);
      for (size_t at = 0; at < length; at += 7) events_read(record + at, length - at < 7 ? length - at : 7, DECISION);
      check("time", shown_time(), time);
      check_bytes("frame", in_reader + SHOWN, written, frame);
      check("written again", events_write((uint64_t)ends, n, shown_time(), in_reader + SHOWN, frame, length), GORSEPETAL_DONE);
      out_begins("the same bytes", record, length);
    }
    check("end", events_end(), GORSEPETAL_DONE);
  }
}

const struct test_case written_cases[] = {
    {"record written", record_written},
    {"refusals of write in order", refusals_of_write_in_order},
    {"frame of another length to write", frame_of_another_length_to_write},
    {"numbers written", numbers_written},
    {"round trips", round_trips},
    {0, 0},
};
