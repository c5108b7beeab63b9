/* Relays at work: frames are fed one after another, or come in event files, and now and then something else is called or something is
** wrong. */
#include <string.h>

#include "event_calls.h"
#include "same.h"

enum { STEPS = 100 };

/* A relay and its line. */
typedef struct {
  lent relay;  /* the next call to be made */
  lent window; /* the frames that come, over and over, and the record by which they are the line's */
  long record; /* its number in the sequence of records */
  int frame;   /* that comes next */
} run;

/* Whether the added zones of a record in the sequence are on: so that a relay goes from off to on, and back. */
static added_zones zone_of(long record) { return record / 2 % ZONES; }

/* Makes the call with all versions, and leaves what it left to the next one. */
static uint64_t go_on(run *r, which_call call) {
  same(call, &r->relay);
  uint64_t answer = make(&versions[ARCHIVE], call, &r->relay);
  r->relay.state_len = STATE;
  r->relay.reader_len = READER;
  r->relay.out_len = DECISION;
  return answer;
}

static void lend_in(run *r, const uint8_t *bytes, size_t length) {
  memcpy(r->relay.in, bytes, length);
  r->relay.in_len = length;
}

/* The frame that comes next, of this length. */
static const uint8_t *next_frame(run *r, size_t length) {
  const uint8_t *frame = r->window.in + length * (size_t)r->frame;
  r->frame = (r->frame + 1) % GORSEPETAL_FRAMES;
  return frame;
}

/* The next frame: mostly as it is, else with a sample missing, another length, too little room or no relay. */
static void feed_next(run *r) {
  size_t length = (size_t)GORSEPETAL_FRAME_BYTES(ends_of(&r->window));
  lend_in(r, next_frame(r, length), length);
  int kind = drawn(0, 59);
  if (kind == 0) put(r->relay.in, 2 * drawn(0, (int)length / 2 - 1), GORSEPETAL_MISSING);
  if (kind == 1) r->relay.in_len = (size_t)drawn(0, (int)length + 2);
  if (kind == 2) r->relay.out_len = (size_t)drawn(0, DECISION - 1);
  if (kind == 3) r->relay.state_len = (size_t)drawn(0, STATE - 1);
  go_on(r, FEED);
}

/* A file, mostly of the line's ends, now and then of others, and rarely one that is refused. Half of them have no status channels. */
static void open_next(run *r) {
  int kind = drawn(0, 9), ends = drawn(FEWEST_ENDS - 1, MOST_ENDS + 1), status = drawn(-MOST_STATUS, MOST_STATUS + 3);
  r->relay.ends = (uint64_t)(kind < 3 ? ends : ends_of(&r->window));
  r->relay.status = (uint64_t)(status < 0 ? 0 : status);
  if (kind == 3) r->relay.reader_len = (size_t)drawn(0, READER - 1);
  go_on(r, OPEN);
}

/* The next piece of a record, of any length, now and then with bytes behind it that are the next one's. Gives back how many are taken. */
static size_t read_piece(run *r, const uint8_t *bytes, size_t left) {
  int most = drawn(0, 2) == 0 ? LONGEST_RECORD : (int)left;
  size_t length = (size_t)drawn(0, most), wanted = make(&versions[ARCHIVE], WANTED, &r->relay);
  lend_in(r, bytes, length);
  int kind = drawn(0, 99);
  if (kind == 0) r->relay.out_len = (size_t)drawn(0, DECISION - 1);
  if (kind == 1) r->relay.state_len = (size_t)drawn(0, STATE - 1);
  if (kind == 2) r->relay.reader_len = (size_t)drawn(0, READER - 1);
  go_on(r, READ);
  if (wanted == 0) return left; /* the reading has ended: once more is enough */
  if (kind == 1 || kind == 2) return 0;
  return length < wanted ? length : wanted;
}

/* The next frame as a record, piece by piece: mostly as it is, else with another number or a sample missing, or the file ends within. */
static void read_next(run *r) {
  uint8_t record[2 * LONGEST_RECORD] = {0};
  int kind = drawn(0, 99);
  if (go_on(r, WANTED) == 0 && kind < 75) open_next(r);
  size_t length = record_length(&r->relay), taken = 0;
  put_next_record(&r->relay, next_frame(r, (size_t)GORSEPETAL_FRAME_BYTES(ends_of(&r->window))), record);
  if (kind == 0) record[drawn(0, 3)] ^= (uint8_t)drawn(1, 255);
  if (kind == 1) put(record + 8 + 2 * drawn(0, 8), 0, 0x0080); /* 8000 hex, low byte first */
  while (taken < length && (kind != 2 || drawn(0, 3) != 0)) taken += read_piece(r, record + taken, length - taken);
  if (drawn(0, 9) == 0 || kind == 2) go_on(r, END);
}

/* The next frame is written as a record, mostly with room for it. */
static void write_next(run *r) {
  int ends = ends_of(&r->window);
  size_t length = (size_t)GORSEPETAL_FRAME_BYTES(ends);
  lend_in(r, next_frame(r, length), length);
  r->relay.ends = (uint64_t)(ends + (drawn(0, 9) == 0));
  r->relay.written = (uint64_t)drawn(0, 65535);
  r->relay.time = 1250 * (uint32_t)r->relay.written;
  r->relay.out_len = (size_t)drawn(GORSEPETAL_EVENTS_RECORD_BYTES(ends, 0) - 1, LONGEST_RECORD);
  go_on(r, WRITE);
}

/* Two entries of the same record again or of another line's, the second one sometimes mistyped. */
static void enter(run *r, int another) {
  lent window = r->window;
  if (another) {
    r->record++;
    lend_nth(&window, DECIDE, r->record, zone_of(r->record));
  }
  lend_in(r, window.state, RECORD);
  go_on(r, PROPOSE);
  if (drawn(0, 2) == 0) r->relay.in[drawn(0, RECORD - 1)] ^= (uint8_t)drawn(1, 255);
  if (go_on(r, CONFIRM) == GORSEPETAL_DONE) r->window = window;
}

/* Calls that leave the window: decide, read-back, and an entry that nothing follows. */
static void call_another(run *r) {
  lend_in(r, r->window.in, r->window.in_len);
  go_on(r, DECIDE);
  go_on(r, READ_BACK);
  lend_in(r, r->window.state, RECORD);
  go_on(r, drawn(0, 1) ? PROPOSE : CONFIRM);
}

/* The relay comes with a record in force and an empty window, or with a window of any bytes. */
static void run_nth(long n) {
  run r = {.record = n};
  lend_nth(&r.window, DECIDE, n, zone_of(n));
  lend_fresh(&r.relay);
  memcpy(r.relay.state, r.window.state, RECORD);
  for (int at = GORSEPETAL_STATE_AT_COUNT; n % 2 == 1 && at < STATE; at++) r.relay.state[at] = (uint8_t)drawn(0, 255);
  for (int step = 0; step < STEPS; step++) {
    int kind = drawn(0, 59);
    if (kind < 2)
      enter(&r, kind);
    else if (kind == 2)
      call_another(&r);
    else if (kind == 3)
      open_next(&r);
    else if (kind == 4)
      write_next(&r);
    else if (kind < 25)
      read_next(&r);
    else
      feed_next(&r);
  }
}

void same_runs(long runs) {
  for (long n = 0; n < runs; n++) run_nth(n);
}
