/* How the C test reads event files: records, readers, and what a piece that is read has to leave. */
#include <string.h>

#include "reading.h"

void put_low(uint8_t *bytes, uint32_t number) {
  for (int k = 0; k < 4; k++) bytes[k] = (uint8_t)(number >> 8 * k);
}

/* Numbers of 16 bits from one order of bytes to the other. */
static void turn(uint8_t *to, const uint8_t *from, size_t length) {
  for (size_t k = 0; k < length; k++) to[k] = from[k ^ 1];
}

uint8_t *event(int ends, uint32_t number, uint32_t time, const uint8_t *frame) {
  static uint8_t record[LONGEST_EVENT];
  memset(record, 0xFF, sizeof record);
  put_low(record, number);
  put_low(record + 4, time);
  turn(record + 8, frame, (size_t)GORSEPETAL_FRAME_BYTES(ends));
  return record;
}

uint8_t *nth_event(uint32_t number) { return event(2, number, 1250 * number, nth((int)(number % 23))); }

uint8_t *const in_reader = reader.all + GUARD;

uint32_t shown_time(void) {
  const uint8_t *time = in_reader + TIME;
  return (uint32_t)time[0] << 24 | (uint32_t)time[1] << 16 | (uint32_t)time[2] << 8 | time[3];
}

void lend_reader(int ends, int status, uint32_t index) {
  uint8_t bytes[READER] = {(uint8_t)ends, (uint8_t)status};
  put_low(bytes + INDEX, index);
  lend(&reader, bytes, READER);
}

void lend_file(int ends, int status, int count) {
  lend_line(ends, count);
  lend_reader(ends, status, 0);
}

void slices_are(const struct lent *relay, const struct lent *wanted) {
  check_bytes("state", state.all, relay->all, sizeof state.all);
  check_bytes("reader", reader.all, wanted->all, sizeof reader.all);
}

void changes_nothing(const char *what, const uint8_t *piece, size_t length, size_t room, uint64_t answer) {
  struct lent relay = state, before = reader;
  check(what, events_read(piece, length, room), answer);
  slices_are(&relay, &before);
  out_untouched();
}

void has_ended(uint64_t answer) {
  struct lent relay = state, before = reader;
  check("wanted", events_wanted(), 0);
  changes_nothing("read, nothing", zeros, 0, DECISION, answer);
  changes_nothing("read, a byte", nth_event(1), 1, DECISION, answer);
  changes_nothing("read, more than a record", nth_event(1), EVENT + 1, DECISION, answer);
  changes_nothing("read, no room", nth_event(2), EVENT, 0, answer);
  check("end", events_end(), answer);
  slices_are(&relay, &before);
}

void takes(const char *what, const uint8_t *piece, size_t length) {
  struct lent relay = state, wanted = reader;
  uint8_t *bytes = wanted.all + GUARD;
  memcpy(bytes + HAND + bytes[HELD], piece, length);
  bytes[HELD] = (uint8_t)(bytes[HELD] + length);
  check(what, events_read(piece, length, DECISION), GORSEPETAL_DONE);
  slices_are(&relay, &wanted);
  out_untouched();
}

void ends_by_number(const char *what, const uint8_t *piece, size_t length, uint32_t index) {
  struct lent relay = state, wanted = reader;
  uint8_t *bytes = wanted.all + GUARD;
  memcpy(bytes + HAND + bytes[HELD], piece, length);
  bytes[ENDED] = OTHER_NUMBER;
  check(what, events_read(piece, length, DECISION), refused(OTHER_NUMBER, index));
  slices_are(&relay, &wanted);
  out_untouched();
  has_ended(refused(OTHER_NUMBER, index));
}

void finishes(const char *what, const uint8_t *piece, size_t length, size_t room, uint64_t answer) {
  struct lent relay = state, wanted = reader;
  uint8_t *bytes = wanted.all + GUARD, *record = bytes + HAND;
  size_t frame = (size_t)GORSEPETAL_FRAME_BYTES(bytes[ENDS]), missing = (size_t)events_wanted();
  memcpy(record + bytes[HELD], piece, length < missing ? length : missing);
  bytes[HELD] = 0;
  memcpy(bytes + INDEX, record, 4);
  for (int k = 0; k < 4; k++) bytes[TIME + k] = record[7 - k];
  turn(bytes + SHOWN, record + 8, frame);
  check("feed of its frame", feed(bytes + SHOWN, frame, room), answer);
  struct lent fed = state, decided = out;
  state = relay;
  check(what, events_read(piece, length, room), answer);
  slices_are(&fed, &wanted);
  check_bytes("out", out.all, decided.all, sizeof out.all);
}

void reads(const char *what, uint32_t number, const uint8_t *frame, uint64_t answer) {
  finishes(what, event(in_reader[ENDS], number, 1250 * number, frame), (size_t)events_wanted(), DECISION, answer);
}
