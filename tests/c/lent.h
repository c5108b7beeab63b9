/* What the C test lends to the calls, with guard bytes around each slice, and how an answer and what it leaves are checked. */
#ifndef TESTS_LENT_H
#define TESTS_LENT_H
#include "gorsepetal.h"

enum {
  RECORD = GORSEPETAL_RECORD_LENGTH,
  STATE = GORSEPETAL_STATE_LENGTH,
  COUNT = GORSEPETAL_STATE_AT_COUNT, /* where the state's window begins: a count of frames, then the numbers */
  NUMBERS = GORSEPETAL_STATE_AT_NUMBERS,
  DECISION = GORSEPETAL_DECISION_LENGTH,
  READER = GORSEPETAL_EVENTS_LENGTH,
  CHANNELS = GORSEPETAL_CHANNELS(2), /* of the good record; so are the next two */
  FRAME = GORSEPETAL_FRAME_BYTES(2),
  WINDOW = GORSEPETAL_WINDOW_BYTES(2),
  PHASES = 3,
  FEWEST_ENDS = 2,
  MOST_ENDS = 6,
  LONGEST = GORSEPETAL_WINDOW_BYTES(MOST_ENDS), /* of any record; so is the next */
  LONGEST_FRAME = GORSEPETAL_FRAME_BYTES(MOST_ENDS),
  ROOM = STATE + FRAME, /* for the longest slice that is lent */
  GUARD = 9, /* so every slice begins at an odd address */
};

/* A slice with guard bytes before it and from its end on. */
struct lent {
  uint8_t all[GUARD + ROOM + GUARD];
  size_t length;
};
extern struct lent state, reader, out;

/* The record of document 01, "Window program"; another good one, with slope 50; and one that propose refuses, with slope 0. */
extern const uint8_t good[RECORD], zeros[STATE];
extern uint8_t other[RECORD], bad[RECORD];

/* The good record with another reach and second reach, which stays until the next call; and with so many ends. */
uint8_t *with_reaches(int first, int second);
void with_ends(uint8_t *record, int ends);

/* The window that lend_state puts into the state: bytes of no meaning, which have to stay wherever a call is not to change them. */
extern uint8_t some_window[STATE - COUNT];

/* Fills these; to be called once. */
void set_up(void);

/* A case by its name. A table of cases ends with one that has none. */
struct test_case {
  const char *name;
  void (*run)(void);
};
extern const struct test_case entry_cases[], decide_cases[], feed_cases[], second_zone_cases[], root_cases[], balanced_cases[],
    events_cases[], ended_cases[], written_cases[], change_cases[], resistive_reach_cases[], quadrilateral_cases[];

/* Runs the cases of a table; gives back how many. */
int run_cases(const struct test_case *cases);

/* Checks so far, and those that failed. A check that fails prints the name of its case. */
extern int checks, faults;
void check(const char *what, uint64_t got, uint64_t wanted);
void check_bytes(const char *what, const uint8_t *got, const uint8_t *wanted, size_t length);

void put(uint8_t *bytes, int at, int number);
uint64_t refused(uint64_t number, uint64_t place);

/* A relay with these two records and some window, or a slice of any bytes in its place. */
void lend_state(const uint8_t *in_force, const uint8_t *pending);
void lend(struct lent *slice, const uint8_t *bytes, size_t length);

/* A relay with this record in force, another one pending, this count of frames, and the numbers given. And a line with so many ends and
** this many frames kept, all zero; the numbers behind the 16 frames are not. */
void lend_relay(const uint8_t *in_force, int count, const uint8_t *numbers);
void lend_line(int ends, int count);

/* The frame with this number: each of its samples is another, and no two frames are alike. And the same with one sample missing. */
const uint8_t *nth(int n);
const uint8_t *nth_missing(int n, int channel);

/* A channel of a window of two ends with exactly this phasor, in counts: Va, Vb, Vc are 0 to 2, the currents 3 to 5 and 6 to 8. */
void phasor(uint8_t *window, int channel, int re, int im);

/* A current of phase 0, 1 or 2 that flows in at end 1 and out at end 2. */
void through(uint8_t *window, int phase, int re, int im);

/* A window with a fault of phase x to ground, or of the two others to each other, at half of the replica. The current of end 1 leaves at
** end 2; with sign -1, for a fault behind the relay, it flows the other way. */
void fault_on(uint8_t *window, int x, int to_ground, int sign);

/* What the state has to be. */
void state_is(const uint8_t *in_force, const uint8_t *pending, const uint8_t *window);

/* The calls, on the state that was lent. The bytes that are given are lent with guards: they must stay, and so must all guards. The state
** must stay too if the call is read-back or decide. Those that write get a new buffer with this room. */
uint64_t propose(const uint8_t *bytes, size_t length);
uint64_t confirm(const uint8_t *bytes, size_t length);
uint64_t read_back(size_t room);
uint64_t decide(const uint8_t *bytes, size_t length, size_t room);
uint64_t feed(const uint8_t *bytes, size_t length, size_t room);

/* The event calls in the same way, on the reader that was lent; read is on the state too. */
uint64_t events_open(uint64_t ends, uint64_t status);
uint64_t events_wanted(void);
uint64_t events_read(const uint8_t *bytes, size_t length, size_t room);
uint64_t events_end(void);
uint64_t events_write(uint64_t ends, uint64_t written, uint32_t time, const uint8_t *frame, size_t length, size_t room);

/* Proposes a record that has to be refused 6 at this offset, or taken if it is -1. */
void proposed(const char *what, const uint8_t *record, int fault);

/* Confirms a pending record with one that differs first at this offset. That is refused, and a third entry finds nothing pending. */
void confirmed_otherwise(const uint8_t *pending, const uint8_t *entered, int at);

/* A stored record that propose would refuse counts as absent: in force no call goes by it, and pending it cannot be confirmed. */
void counts_as_absent(const uint8_t *record);

/* The decision on a window by a record in force, which has to be made; it stays until the next call. By decide; and by feed of the last
** frame, the fifteen before it being kept. */
enum { BY_DECIDE, BY_FEED, WAYS };
extern const struct way {
  const char *name;
  const uint8_t *(*decided)(const uint8_t *record, const uint8_t *window);
} ways[WAYS];

/* What the buffer has to be: as it was, or so many bytes and the rest as it was, or 32 bytes and the rest as it was. */
void out_untouched(void);
void out_begins(const char *what, const uint8_t *bytes, size_t length);
void out_is(const char *what, const uint8_t *bytes);

/* This record, proposed and confirmed where another is in force: both calls are done, it is in force, and it reads back. */
void comes_into_force(const uint8_t *record);

/* A stored state, window and all: this record in force, the other one pending, and all frames of the window kept but the last. It has to
** read back, to decide and to feed to this decision, and its pending record to be confirmed. */
void stored_state_serves(const uint8_t *record, const uint8_t *window, const uint8_t *wanted);

#endif
