/* The event calls that are compared and counted, ready to be made. */
#ifndef EVENT_CALLS_H
#define EVENT_CALLS_H
#include "windows.h"

/* Where the reader has its parts, as the manual's table has them. */
enum { AT_ENDS, AT_STATUS, AT_ENDED, AT_HELD, AT_INDEX };

/* The 32 bits of a number, low byte first: the reader's index, and a record's number and time. */
uint32_t low_word(const uint8_t *bytes);
void put_low_word(uint8_t *bytes, uint32_t number);

/* Lends a reader at the start of a file with so many ends and status channels. */
void open_file(lent *to, int ends, int status);

/* The bytes of a record of the file that the reader reads. */
size_t record_length(const lent *reader);

/* The next record of that file, with this frame, and with a time and status bits that are drawn. */
void put_next_record(const lent *reader, const uint8_t *frame, uint8_t *record);

/* Makes read of feed: the frame that is lent to be fed is lent as a whole record, the first of a file with so many status channels. */
void read_fed(lent *feed, int status);

/* The nth call as lend_nth has it: the reader is at the start of a file of the relay's ends, and a record is lent whole. And how it is
** spoiled. */
void lend_nth_event(lent *to, which_call call, long n, added_zones zone);
void spoil_event(lent *slices, which_call call);

#endif
