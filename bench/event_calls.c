/* The event calls that are compared and counted. Files are opened and records made by plain C, which is compared like all else. */
#include <string.h>

#include "event_calls.h"

uint32_t low_word(const uint8_t *bytes) {
  return (uint32_t)bytes[0] | (uint32_t)bytes[1] << 8 | (uint32_t)bytes[2] << 16 | (uint32_t)bytes[3] << 24;
}

void put_low_word(uint8_t *bytes, uint32_t number) {
  for (int k = 0; k < 4; k++) bytes[k] = (uint8_t)(number >> 8 * k);
}

static uint32_t drawn_word(void) {
  uint32_t upper = (uint32_t)drawn(0, 65535);
  return upper << 16 | (uint32_t)drawn(0, 65535);
}

void open_file(lent *to, int ends, int status) { plain_O3.events_open(to->reader, READER, (uint64_t)ends, (uint64_t)status); }

size_t record_length(const lent *reader) {
  return (size_t)GORSEPETAL_EVENTS_RECORD_BYTES(reader->reader[AT_ENDS], reader->reader[AT_STATUS]);
}

void put_next_record(const lent *reader, const uint8_t *frame, uint8_t *record) {
  int ends = reader->reader[AT_ENDS], frame_length = GORSEPETAL_FRAME_BYTES(ends);
  size_t status = (size_t)GORSEPETAL_EVENTS_RECORD_BYTES(ends, 0);
  uint32_t index = low_word(reader->reader + AT_INDEX);
  plain_O3.events_write((uint64_t)ends, index, drawn_word(), frame, (size_t)frame_length, record, status);
  for (size_t at = status; at < record_length(reader); at++) record[at] = (uint8_t)drawn(0, 255);
}

void read_fed(lent *feed, int status) {
  uint8_t frame[GORSEPETAL_FRAME_BYTES(MOST_ENDS)];
  memcpy(frame, feed->in, feed->in_len);
  open_file(feed, ends_of(feed), status);
  put_next_record(feed, frame, feed->in);
  feed->in_len = record_length(feed);
}

void lend_nth_event(lent *to, which_call call, long n, added_zones zone) {
  int status = (int)(n % (MOST_STATUS + 1));
  lend_nth(to, FEED, n, zone);
  to->ends = (uint64_t)ends_of(to);
  to->status = (uint64_t)status;
  to->time = drawn_word();
  if (call == OPEN) memset(to->reader, 0x5B, READER); /* a reader that is opened anew */
  if (call == WANTED || call == END) open_file(to, ends_of(to), status);
  if (call == READ) read_fed(to, status);
  if (call == WRITE) {
    to->written = drawn_word();
    to->out_len = (size_t)GORSEPETAL_EVENTS_RECORD_BYTES(ends_of(to), 0);
  }
}

/* Another byte among those that say where the reader stands. */
static void spoil_reader(lent *slices) { slices->reader[drawn(AT_ENDS, AT_INDEX + 3)] ^= (uint8_t)drawn(1, 255); }

/* A sample is missing, the number is another, the record is cut short or the reader is another. */
static void spoil_piece(lent *slices) {
  int kind = drawn(0, 3), channels = GORSEPETAL_CHANNELS(slices->reader[AT_ENDS]);
  uint8_t *sample = slices->in + 8 + 2 * drawn(0, channels - 1);
  if (kind == 0) put(sample, 0, 0x0080); /* 8000 hex, low byte first */
  if (kind == 1) slices->in[drawn(0, 3)] ^= (uint8_t)drawn(1, 255);
  if (kind == 2) slices->in_len = (size_t)drawn(0, (int)slices->in_len - 1);
  if (kind == 3) spoil_reader(slices);
}

/* The ends, the frame, the room or the number. */
static void spoil_written(lent *slices) {
  int kind = drawn(0, 3);
  if (kind == 0) slices->ends = (uint64_t)drawn(0, 300);
  if (kind == 1) slices->in_len = (size_t)drawn(0, 60);
  if (kind == 2) slices->out_len = (size_t)drawn(0, LONGEST_RECORD);
  if (kind == 3) slices->written += 0xFFFFFFFF;
}

void spoil_event(lent *slices, which_call call) {
  if (call == OPEN && drawn(0, 1))
    slices->ends = (uint64_t)drawn(0, 300);
  else if (call == OPEN)
    slices->status = (uint64_t)drawn(0, 300);
  else if (call == READ)
    spoil_piece(slices);
  else if (call == WRITE)
    spoil_written(slices);
  else
    spoil_reader(slices);
}
