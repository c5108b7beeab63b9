/* The paper mill's line, for the examples in C: its settings record, and what a refusal means. */
#ifndef MILL_H
#define MILL_H
#include "gorsepetal.h"

/* A field is 16 bits, upper byte first; a negative number is two's complement. */
static void put(uint8_t *record, int at, int number) {
  record[at] = (uint8_t)(((unsigned)number >> 8) & 255);
  record[at + 1] = (uint8_t)((unsigned)number & 255);
}

enum { ENDS = 2, CHANNELS = GORSEPETAL_CHANNELS(ENDS), FRAME = GORSEPETAL_FRAME_BYTES(ENDS), WINDOW = GORSEPETAL_WINDOW_BYTES(ENDS) };

/* The settings of a line with two ends, all but the slope as the planning department gave them, in the units of the record.
** examples/line.c shows the way there from volts, amperes and ohms. */
static void fill(uint8_t record[GORSEPETAL_RECORD_LENGTH], int slope) {
  for (int i = 0; i < GORSEPETAL_RECORD_LENGTH; i++) record[i] = 0;
  put(record, GORSEPETAL_AT_ENDS, ENDS);
  put(record, GORSEPETAL_AT_SLOPE, slope);               /* percent */
  put(record, GORSEPETAL_AT_PICKUP, 60);                 /* of the differential, counts */
  put(record, GORSEPETAL_AT_REPLICA_REAL, 0);
  put(record, GORSEPETAL_AT_REPLICA_IMAGINARY, 1000);    /* thousandths of a voltage count per current count */
  put(record, GORSEPETAL_AT_REACH, 850);                 /* thousandths of the replica */
  put(record, GORSEPETAL_AT_K_REAL, 667);                /* thousandths, a ratio */
  put(record, GORSEPETAL_AT_K_IMAGINARY, 0);
  put(record, GORSEPETAL_AT_ANGLE_REAL, 0);              /* of the line: 1000 (cos, sin) of 90 degrees */
  put(record, GORSEPETAL_AT_ANGLE_IMAGINARY, 1000);
  put(record, GORSEPETAL_AT_FORWARD_LIMIT, -300);        /* in the replica's unit */
  put(record, GORSEPETAL_AT_REVERSE_LIMIT, 300);
  put(record, GORSEPETAL_AT_NEGATIVE_SEQUENCE_PICKUP, 50); /* counts */
}

static const char *meaning(uint64_t number) {
  switch (number) {
  case GORSEPETAL_NO_SETTINGS: return "no settings in force";
  case GORSEPETAL_OTHER_WINDOW_LENGTH: return "the window is of another length";
  case GORSEPETAL_NO_ROOM: return "room below 32 bytes";
  case GORSEPETAL_MISSING_SAMPLE: return "a sample is missing";
  case GORSEPETAL_OTHER_ENTRY_LENGTH: return "the entry is not 32 bytes";
  case GORSEPETAL_OUT_OF_RANGE: return "a field is out of range";
  case GORSEPETAL_NOTHING_PENDING: return "nothing is pending";
  case GORSEPETAL_DIFFERS: return "the confirmation differs";
  case GORSEPETAL_OTHER_FRAME_LENGTH: return "the frame is of another length";
  case GORSEPETAL_TOO_FEW_FRAMES: return "fewer than 16 frames yet";
  case GORSEPETAL_INSIDE_RECORD: return "the file ends inside a record";
  case GORSEPETAL_OTHER_NUMBER: return "the record's number is not one above the last";
  case GORSEPETAL_BAD_FILE: return "no file has so many ends or status channels";
  case GORSEPETAL_NO_RELAY: return "the state or the reader is of another length";
  default: return "no answer of this version";
  }
}

#endif
