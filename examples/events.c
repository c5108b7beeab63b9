/*
** How firmware reads and writes event files. The paper mill's fault is written as a file of 46 records. It is read back in pieces of 37
** bytes, with the time of each record and where the relay trips. Then the same file breaks off, and then one of its records is left out.
** What is expected is said below; the program ends with 1 if the relay answers otherwise. Run it with: sh examples/run_events
*/
#include <stdio.h>
#include <string.h>

#include "mill_fault.h"

/* ---- The firmware: the part to copy, with enter_settings of mill_fault.h ---- */

enum { STATUS = 0, RECORD = GORSEPETAL_EVENTS_RECORD_BYTES(ENDS, STATUS) }; /* a file without status channels, as the writer makes it */

static uint8_t relay[GORSEPETAL_STATE_LENGTH];       /* for files alone, and not the one that guards the line */
static uint8_t reader[GORSEPETAL_EVENTS_LENGTH];     /* how far the file has been read, and its last whole record */
static uint8_t decision[GORSEPETAL_DECISION_LENGTH]; /* the last one that was made */

/* What comes of a record, and of the refusal that ends the reading, is the firmware's matter: see below. */
static void heard(uint64_t given);

/* A file begins. The settings are entered anew, so that the window is empty: a file alone does not empty it. */
static uint64_t file_begins(void) {
  uint64_t answer = enter_settings(relay);
  return answer == GORSEPETAL_DONE ? gorsepetal_events_open(reader, sizeof reader, ENDS, STATUS) : answer;
}

/* A piece of the file has come, cut anywhere. Read takes what is wanted and no more, so the rest is handed over again. */
static void piece_came(const uint8_t *bytes, size_t len) {
  uint64_t wanted;
  while (len > 0 && (wanted = gorsepetal_events_wanted(reader, sizeof reader)) > 0) {
    uint64_t given = gorsepetal_events_read(relay, sizeof relay, reader, sizeof reader, bytes, len, decision, sizeof decision);
    if (len < wanted) { /* fewer bytes than wanted: 0 means taken, and a refusal has ended the reading */
      if (given != GORSEPETAL_DONE) heard(given);
      break;
    }
    heard(given); /* as many: 0 means decided */
    bytes += wanted;
    len -= wanted;
  }
}

/* No further piece comes. */
static uint64_t file_ends(void) { return gorsepetal_events_end(reader, sizeof reader); }

/* When the last whole record was sampled: 32 bits, upper byte first. */
static uint32_t time_of_record(void) {
  const uint8_t *time = reader + GORSEPETAL_EVENTS_TIME;
  return (uint32_t)time[0] << 24 | (uint32_t)time[1] << 16 | (uint32_t)time[2] << 8 | time[3];
}

/* The frame that was just sampled is written behind the records before it. */
static uint64_t append(uint8_t *file, size_t room, uint32_t written, uint32_t time, const uint8_t frame[FRAME]) {
  size_t at = (size_t)written * RECORD;
  return gorsepetal_events_write(ENDS, written, time, frame, FRAME, file + at, room - at);
}

/* ---- What happens, and what is expected ---- */

enum { RECORDS = 46, PIECE = 37, MICROSECONDS = 1250 }; /* 50 Hz, 16 samples a cycle */

/* The fault of examples/feed.c, at the same point of the wave: there it is worked out why the fourth frame of it trips. */
static const Stretch STRETCHES[] = {
  {"The window is empty: no decision before 16 frames have come.", 15, LOAD, .number = GORSEPETAL_TOO_FEW_FRAMES},
  {"Load: what flows in flows out.", 24, LOAD, .number = GORSEPETAL_DONE},
  {"The fault begins with record 25. Three frames of it are below the slope of 15 percent.", 27, FAULT, .number = GORSEPETAL_DONE,
   .mho = LEFT_OPEN, .dir = LEFT_OPEN},
  {"The fourth trips. Loops and direction follow as the fault fills the window.", 39, FAULT, .number = GORSEPETAL_DONE, .trip = 1,
   .diff = GORSEPETAL_PHASE_A, .mho = LEFT_OPEN, .dir = LEFT_OPEN},
  {"All 16 frames are the fault's.", RECORDS, FAULT, .number = GORSEPETAL_DONE, .trip = 1, .diff = GORSEPETAL_PHASE_A,
   .mho = GORSEPETAL_LOOP_AG, .dir = GORSEPETAL_DIRECTION_FORWARD},
};

/* The stretch of the record with this index. */
static const Stretch *stretch_of(int index) {
  const Stretch *s = STRETCHES;
  while (s->last <= index && s->last < RECORDS) s++;
  return s;
}

static uint8_t file[RECORDS * RECORD];
static int piece, records, shown, faults;
static uint64_t ending; /* what ended the reading */

static void expect(int as_wanted) {
  if (as_wanted) return;
  printf("  NOT AS EXPECTED\n");
  faults++;
}

static void print_answer(uint64_t given) {
  uint64_t number = GORSEPETAL_NUMBER(given);
  if (number == GORSEPETAL_DONE)
    printf("the file ends, between two records\n");
  else
    printf("%d at %d, %s\n", (int)number, (int)GORSEPETAL_PLACE(given), meaning(number));
}

static void print_record(uint64_t given) {
  const Stretch *s = stretch_of(records);
  if (records == 0 || s != stretch_of(records - 1)) printf("%s\n", s->what);
  printf("  piece %2d  record %2d  %5d us  ", piece, records + 1, (int)time_of_record());
  if (given == GORSEPETAL_DONE) {
    printf("trip %d diff %d mho %d dir %d\n", decision[GORSEPETAL_DECISION_AT_TRIP], decision[GORSEPETAL_DECISION_AT_PHASES],
           decision[GORSEPETAL_DECISION_AT_LOOPS], decision[GORSEPETAL_DECISION_AT_DIRECTION]);
    return;
  }
  printf("no decision: ");
  print_answer(given);
}

/* A record has to be answered as its stretch says, and to have the time and the frame that were written. */
static void heard(uint64_t given) {
  uint64_t number = GORSEPETAL_NUMBER(given);
  if (number == GORSEPETAL_OTHER_NUMBER || number == GORSEPETAL_NO_RELAY) {
    ending = given;
    return;
  }
  uint8_t frame[FRAME];
  sample(stretch_of(records)->line, records, frame);
  if (shown) print_record(given);
  expect(as_expected(stretch_of(records), 0, given, decision) && time_of_record() == (uint32_t)(MICROSECONDS * records) &&
         memcmp(reader + GORSEPETAL_EVENTS_FRAME, frame, FRAME) == 0);
  records++;
}

/* Reads a file in pieces. So many records have to be heard, then this, if anything, has to end the reading, and the file to end so. */
static void read_file(const uint8_t *bytes, size_t length, int wanted_records, uint64_t wanted_ending, uint64_t wanted_end) {
  piece = records = 0;
  ending = GORSEPETAL_DONE;
  expect(file_begins() == GORSEPETAL_DONE);
  for (size_t at = 0; at < length; at += PIECE) {
    piece++;
    piece_came(bytes + at, length - at < PIECE ? length - at : PIECE);
    if (ending != GORSEPETAL_DONE) break;
  }
  uint64_t end = file_ends();
  printf("  %d records, then in piece %d: ", records, piece);
  print_answer(ending != GORSEPETAL_DONE ? ending : end);
  expect(records == wanted_records && ending == wanted_ending && end == wanted_end);
}

static void print_bytes(int index) {
  printf("  record %2d:", index + 1);
  for (int at = 0; at < RECORD; at++) printf("%s%02X", at == 4 || at == 8 ? "  " : " ", file[RECORD * index + at]);
  printf("\n");
}

int main(void) {
  enum { BROKEN_OFF = 1000, LEFT_OUT = 29 };
  for (int n = 0; n < RECORDS; n++) {
    uint8_t frame[FRAME];
    sample(stretch_of(n)->line, n, frame);
    expect(append(file, sizeof file, (uint32_t)n, (uint32_t)(MICROSECONDS * n), frame) == GORSEPETAL_DONE);
  }
  printf("The fault is written: %d records of %d bytes. Number, time and samples, low byte first:\n", RECORDS, RECORD);
  print_bytes(0);
  print_bytes(24);

  printf("\nIt is read in pieces of %d bytes.\n", PIECE);
  shown = 1;
  read_file(file, sizeof file, RECORDS, GORSEPETAL_DONE, GORSEPETAL_DONE);
  shown = 0;

  printf("\nIt breaks off after %d bytes: 38 records, and 12 bytes of the next.\n", BROKEN_OFF);
  read_file(file, BROKEN_OFF, 38, GORSEPETAL_DONE, 256 * 38 + GORSEPETAL_INSIDE_RECORD);
  uint64_t again = gorsepetal_events_read(relay, sizeof relay, reader, sizeof reader, file + BROKEN_OFF, RECORD, decision, sizeof decision);
  printf("  the rest comes too late: ");
  print_answer(again);
  expect(again == 256 * 38 + GORSEPETAL_INSIDE_RECORD);

  printf("\nRecord %d is left out. The next one has the wrong number, which is known as soon as its four bytes are there.\n", LEFT_OUT + 1);
  memmove(file + RECORD * LEFT_OUT, file + RECORD * (LEFT_OUT + 1), RECORD * (RECORDS - LEFT_OUT - 1));
  read_file(file, RECORD * (RECORDS - 1), LEFT_OUT, 256 * LEFT_OUT + GORSEPETAL_OTHER_NUMBER, 256 * LEFT_OUT + GORSEPETAL_OTHER_NUMBER);

  printf("\n%s\n", faults ? "NOT ALL AS EXPECTED" : "All as expected.");
  return faults != 0;
}
