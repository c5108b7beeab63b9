/* Document 02, CR 5, in named cases: how the reading of an event file ends, by a number or by the file's end, and readers of any bytes. */
#include <string.h>

#include "reading.h"

/* ---- Numbers ---- */

/* The wrong number is found at its fourth byte and not before, whatever the pieces are, and whichever of its bytes is wrong. */
static void number_at_its_fourth_byte(void) {
  for (int wrong = 0; wrong < 4; wrong++)
    for (size_t cut = 0; cut < 4; cut++)
      for (size_t length = 4; length <= EVENT; length++) {
        uint8_t record[EVENT];
        memcpy(record, nth_event(1), EVENT);
        record[wrong] ^= 0x80;
        lend_file(2, 0, 15);
        takes("fewer than four bytes", record, cut);
        ends_by_number("four bytes or more", record + cut, length - cut, 0);
      }
  uint8_t *record = nth_event(2);
  lend_file(2, 0, 15);
  for (int at = 0; at < 3; at++) takes("a byte", record + at, 1);
  ends_by_number("the fourth", record + 3, 1, 0);
}

/* At each index every number but the next is refused: the last one again, one left out, one byte another, the high byte first. */
static void numbers_in_a_row(void) {
  static const uint32_t indices[] = {0, 1, 2, 254, 255, 256, 65534, 65535, 65536, 16777215, 2147483647, 2147483648u, 4294967293u};
  for (size_t k = 0; k < sizeof indices / sizeof *indices; k++) {
    uint32_t index = indices[k], right = index + 1;
    uint32_t high_first = right << 24 | (right & 0xFF00) << 8 | (right >> 8 & 0xFF00) | right >> 24;
    const uint32_t numbers[] = {0,           index,         index - 1,        index + 2,   right,
                                right ^ 256, right ^ 65536, right ^ 16777216, LAST_NUMBER, high_first};
    for (size_t n = 0; n < sizeof numbers / sizeof *numbers; n++) {
      lend_line(2, 15);
      lend_reader(2, 0, index);
      if (numbers[n] != right)
        ends_by_number("another number", nth_event(numbers[n]), EVENT, index);
      else
        finishes("one above the last", nth_event(right), EVENT, DECISION, GORSEPETAL_DONE);
    }
  }
}

/* After 4294967295 no number is one above, not even 0. */
static void last_number(void) {
  static const uint32_t numbers[] = {0, 1, 4294967294u, 4294967295u};
  for (size_t k = 0; k < sizeof numbers / sizeof *numbers; k++) {
    lend_line(2, 15);
    lend_reader(2, 0, LAST_NUMBER - 1);
    finishes("4294967295", nth_event(LAST_NUMBER), EVENT, DECISION, GORSEPETAL_DONE);
    check("wanted", events_wanted(), EVENT);
    check("end", events_end(), GORSEPETAL_DONE);
    takes("three bytes more", nth_event(numbers[k]), 3);
    struct lent three = reader;
    ends_by_number("the fourth", nth_event(numbers[k]) + 3, 1, LAST_NUMBER);
    reader = three;
    check("end", events_end(), refused(INSIDE_RECORD, LAST_NUMBER));
    has_ended(refused(INSIDE_RECORD, LAST_NUMBER));
  }
}

/* ---- The file's end ---- */

static void ends_inside_a_record(void) {
  for (uint32_t index = 0; index < 3; index++)
    for (size_t length = 1; length < EVENT; length++) {
      lend_file(2, 0, 16);
      for (uint32_t n = 1; n <= index; n++) reads("before", n, nth((int)n), GORSEPETAL_DONE);
      takes("a part", nth_event(index + 1), length);
      struct lent relay = state, wanted = reader;
      wanted.all[GUARD + ENDED] = INSIDE_RECORD;
      check("end", events_end(), refused(INSIDE_RECORD, index));
      slices_are(&relay, &wanted);
      has_ended(refused(INSIDE_RECORD, index));
    }
}

/* It changes nothing, and the file may go on. */
static void ends_between_records(void) {
  lend_file(2, 0, 16);
  for (uint32_t n = 1; n <= 3; n++) {
    struct lent relay = state, before = reader;
    check("end", events_end(), GORSEPETAL_DONE);
    slices_are(&relay, &before);
    check("wanted", events_wanted(), EVENT);
    reads("read on", n, nth((int)n), GORSEPETAL_DONE);
  }
  takes("nothing", zeros, 0);
  check("end", events_end(), GORSEPETAL_DONE);
}

/* ---- Readers of any bytes ---- */

/* 11 and 12 in byte 2 say how the reading ended, whatever else there is. Every other byte there is 13, and so are ends, status channels or
** a count of bytes in hand that no reading has. */
static void damaged_readers(void) {
  lend_line(2, 15);
  for (int ended = 0; ended <= 255; ended++) {
    uint8_t bytes[READER];
    for (int at = 0; at < READER; at++) bytes[at] = (uint8_t)(at * 29 + 99); /* ends and status channels that no file has */
    bytes[ENDED] = (uint8_t)ended;
    put_low(bytes + INDEX, 0xFEDCBA98);
    lend(&reader, bytes, READER);
    has_ended(ended == INSIDE_RECORD || ended == OTHER_NUMBER ? refused((uint64_t)ended, 0xFEDCBA98) : BAD_FILE);
    lend_reader(2, 0, 7);
    in_reader[ENDED] = (uint8_t)ended;
    if (ended != 0) has_ended(ended == INSIDE_RECORD || ended == OTHER_NUMBER ? refused((uint64_t)ended, 7) : BAD_FILE);
  }
  for (int byte = 0; byte <= 255; byte++) {
    lend_reader(byte, 0, 7);
    if (byte < FEWEST_ENDS || MOST_ENDS < byte) has_ended(BAD_FILE);
    lend_reader(2, byte, 7);
    if (MOST_STATUS < byte) has_ended(BAD_FILE);
    lend_reader(2, 0, 7);
    in_reader[HELD] = (uint8_t)byte;
    if (EVENT <= byte) has_ended(BAD_FILE);
  }
}

/* Bytes in hand that were never read. The number among them counts at the next read, also of an empty piece; end does not look at it. Where
** the record shows nothing, bytes of no meaning stay. */
static void damaged_bytes_in_hand(void) {
  for (int held = 1; held < EVENT; held++) {
    lend_line(2, 15);
    lend_reader(2, 0, 7);
    in_reader[HELD] = (uint8_t)held;
    memset(in_reader + TIME, 0x77, READER - TIME);
    struct lent before = reader;
    check("wanted", events_wanted(), (uint64_t)(EVENT - held));
    if (held < 4)
      changes_nothing("an empty piece", zeros, 0, DECISION, GORSEPETAL_DONE);
    else
      ends_by_number("an empty piece", zeros, 0, 7);
    reader = before;
    check("end", events_end(), refused(INSIDE_RECORD, 7));
    reader = before;
    put_low(in_reader + HAND, 8);
    if (held >= 4) finishes("the right number", nth_event(8) + held, (size_t)(EVENT - held), DECISION, GORSEPETAL_DONE);
  }
}

const struct test_case ended_cases[] = {
    {"number at its fourth byte", number_at_its_fourth_byte},
    {"numbers in a row", numbers_in_a_row},
    {"last number", last_number},
    {"ends inside a record", ends_inside_a_record},
    {"ends between records", ends_between_records},
    {"damaged readers", damaged_readers},
    {"damaged bytes in hand", damaged_bytes_in_hand},
    {0, 0},
};
