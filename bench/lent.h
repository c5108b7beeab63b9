/* One call with all that is lent to it, made by the library or by plain C: what is compared, counted and measured here. */
#ifndef LENT_H
#define LENT_H
#include "gorsepetal.h"
#include "plain.h"

enum {
  RECORD = GORSEPETAL_RECORD_LENGTH,
  STATE = GORSEPETAL_STATE_LENGTH,
  DECISION = GORSEPETAL_DECISION_LENGTH,
  READER = GORSEPETAL_EVENTS_LENGTH,
  FEWEST_ENDS = 2,
  MOST_ENDS = 6,
  MOST_STATUS = 96, /* channels of an event file */
  LONGEST_RECORD = GORSEPETAL_EVENTS_RECORD_BYTES(MOST_ENDS, MOST_STATUS),
  LARGEST_REACH = 2000, /* thousandths of the replica */
  LARGEST_RESISTIVE_REACH = 1000, /* tenths */
  BEYOND = 8, /* bytes after each slice, which no call may touch */
};

/* The versions, the library's archive first. */
enum { ARCHIVE, PLAIN_O2, PLAIN_O3, DOUBLE_O2, DOUBLE_O3, QUARTER_O3, OWN_O3, VERSIONS };
extern const struct version {
  const char *name;
  const all_calls *calls;
  int own_numbers; /* it keeps the window that is fed in the processor's own numbers */
} versions[VERSIONS];

typedef enum { PROPOSE, CONFIRM, READ_BACK, DECIDE, FEED, OPEN, WANTED, READ, END, WRITE, CALLS } which_call;
extern const char *const call_names[CALLS];

/* The slices of a call with their lengths. `in` is what it reads: the entry of propose and confirm, the samples of decide, the frame of
** feed and of write, the piece of an event file that read gets. Then what open and write are told besides. */
typedef struct {
  size_t state_len, in_len, out_len;
  uint8_t state[STATE + BEYOND], in[GORSEPETAL_WINDOW_BYTES(MOST_ENDS) + BEYOND], out[LONGEST_RECORD + BEYOND];
  size_t reader_len;
  uint8_t reader[READER + BEYOND];
  uint64_t ends, status, written;
  uint32_t time;
} lent;

/* Makes the call on these slices and gives back its answer. */
uint64_t make(const struct version *version, which_call call, lent *slices);

/* Puts the state's window into the order of bytes that this version keeps it in, or back. */
void turn_window(const struct version *version, lent *slices);

/* Where the code of this version's call begins. */
uintptr_t code_of(const struct version *version, which_call call);

/* Writes a 16-bit field or sample, upper byte first. */
void put(uint8_t *bytes, int at, int number);

#endif
