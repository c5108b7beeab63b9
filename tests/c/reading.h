/* How the C test reads event files: records, readers, and what a piece that is read has to leave. */
#ifndef TESTS_READING_H
#define TESTS_READING_H
#include "lent.h"

/* The reader's parts: ends, status channels, what ended the reading, how many bytes of a record are in hand, the record's index, the time
** and the frame of the last whole record, and the bytes in hand. */
enum { ENDS, STATUS, ENDED, HELD, INDEX, TIME = GORSEPETAL_EVENTS_TIME, SHOWN = GORSEPETAL_EVENTS_FRAME, HAND = 56 };
extern uint8_t *const in_reader;
uint32_t shown_time(void);

enum {
  MOST_STATUS = 96,
  EVENT = GORSEPETAL_EVENTS_RECORD_BYTES(2, 0), /* a record of the good record's ends */
  LONGEST_EVENT = GORSEPETAL_EVENTS_RECORD_BYTES(MOST_ENDS, MOST_STATUS),
  INSIDE_RECORD = GORSEPETAL_INSIDE_RECORD,
  OTHER_NUMBER = GORSEPETAL_OTHER_NUMBER,
  BAD_FILE = GORSEPETAL_BAD_FILE,
};
#define LAST_NUMBER 4294967295u

/* 32 bits, low byte first. */
void put_low(uint8_t *bytes, uint32_t number);

/* A record of a file, its status bits all ones; and one of two ends, with the frame of that number. Each stays until the next call. */
uint8_t *event(int ends, uint32_t number, uint32_t time, const uint8_t *frame);
uint8_t *nth_event(uint32_t number);

/* A reader as open leaves it, moved on to this index. And a line with so many ends and frames kept, with the start of a file of as many
** ends. */
void lend_reader(int ends, int status, uint32_t index);
void lend_file(int ends, int status, int count);

/* What relay and reader have to be. */
void slices_are(const struct lent *relay, const struct lent *wanted);

/* Reads a piece that has to be answered so and to change nothing: neither relay nor reader nor room. */
void changes_nothing(const char *what, const uint8_t *piece, size_t length, size_t room, uint64_t answer);

/* The reading has ended: every call but open gives this refusal, and nothing changes. */
void has_ended(uint64_t answer);

/* Reads a piece that has to be taken without finishing a record: it is in hand, and nothing else changes. */
void takes(const char *what, const uint8_t *piece, size_t length);

/* Reads a piece that shows another number than the record with this index has: the reading ends, and the relay hears nothing. */
void ends_by_number(const char *what, const uint8_t *piece, size_t length, uint32_t index);

/* Reads a piece that has to finish a record: the answer, the relay and the room are those of feed with its frame, and the reader shows the
** record. Bytes behind it are not taken. */
void finishes(const char *what, const uint8_t *piece, size_t length, size_t room, uint64_t answer);

/* The same of a whole record with this frame, and room for a decision. */
void reads(const char *what, uint32_t number, const uint8_t *frame, uint64_t answer);

#endif
