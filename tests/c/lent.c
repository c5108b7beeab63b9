/* What the C test lends to the calls, with guard bytes around each slice, and how an answer and what it leaves are checked. */
#include <stdio.h>
#include <string.h>

#include "lent.h"

enum { AROUND = 0xA5, LATER = 0x5A };

const uint8_t good[RECORD] = {
    0x00, 0x02, 0x00, 0x0F, 0x00, 0x64, 0x00, 0x00, 0x03, 0xE8, 0x03, 0x52, 0x02, 0x9B, 0x00, 0x00,
    0x00, 0x00, 0x03, 0xE8, 0xFE, 0xD4, 0x01, 0x2C, 0x00, 0x32, 0x00, 0x00, 0x00, 0x00, 0x00, 0x00,
};
const uint8_t zeros[STATE];
uint8_t other[RECORD], bad[RECORD], some_window[STATE - COUNT];

void set_up(void) {
  memcpy(other, good, RECORD);
  other[3] = 50;
  memcpy(bad, good, RECORD);
  bad[3] = 0;
  for (int k = 0; k < STATE - COUNT; k++) some_window[k] = (uint8_t)(1 + k % 251);
}

uint8_t *with_reaches(int first, int second) {
  static uint8_t record[RECORD];
  memcpy(record, good, RECORD);
  put(record, GORSEPETAL_AT_REACH, first);
  put(record, GORSEPETAL_AT_SECOND_REACH, second);
  return record;
}

void with_ends(uint8_t *record, int ends) {
  memcpy(record, good, RECORD);
  record[1] = (uint8_t)ends;
}

/* Checks */

int checks, faults;
static const char *case_name;

int run_cases(const struct test_case *cases) {
  int count = 0;
  for (; cases[count].name != 0; count++) {
    case_name = cases[count].name;
    cases[count].run();
  }
  return count;
}

void check(const char *what, uint64_t got, uint64_t wanted) {
  checks++;
  if (got == wanted) return;
  faults++;
  printf("FAIL %s, %s: got %d at %llu, wanted %d at %llu\n", case_name, what, (int)GORSEPETAL_NUMBER(got),
         (unsigned long long)GORSEPETAL_PLACE(got), (int)GORSEPETAL_NUMBER(wanted), (unsigned long long)GORSEPETAL_PLACE(wanted));
}

void check_bytes(const char *what, const uint8_t *got, const uint8_t *wanted, size_t length) {
  checks++;
  if (memcmp(got, wanted, length) == 0) return;
  faults++;
  printf("FAIL %s, %s: other bytes than wanted\n", case_name, what);
}

/* Slices */

struct lent state, reader, out;

void put(uint8_t *bytes, int at, int number) {
  bytes[at] = (uint8_t)((unsigned)number >> 8);
  bytes[at + 1] = (uint8_t)number;
}

uint64_t refused(uint64_t number, uint64_t place) { return 256 * place + number; }

void lend(struct lent *slice, const uint8_t *bytes, size_t length) {
  memset(slice->all, AROUND, sizeof slice->all);
  memcpy(slice->all + GUARD, bytes, length);
  slice->length = length;
}

void lend_state(const uint8_t *in_force, const uint8_t *pending) {
  uint8_t bytes[STATE];
  memcpy(bytes, in_force, RECORD);
  memcpy(bytes + RECORD, pending, RECORD);
  memcpy(bytes + COUNT, some_window, STATE - COUNT);
  lend(&state, bytes, STATE);
}

void lend_relay(const uint8_t *in_force, int count, const uint8_t *numbers) {
  lend_state(in_force, other);
  put(state.all + GUARD, COUNT, count);
  memcpy(state.all + GUARD + NUMBERS, numbers, LONGEST);
}

void lend_line(int ends, int count) {
  uint8_t record[RECORD], numbers[LONGEST];
  int kept = GORSEPETAL_WINDOW_BYTES(ends);
  with_ends(record, ends);
  memset(numbers, 0, sizeof numbers);
  memset(numbers + kept, 0x77, (size_t)(LONGEST - kept));
  lend_relay(record, count, numbers);
}

void state_is(const uint8_t *in_force, const uint8_t *pending, const uint8_t *window) {
  check_bytes("record in force", state.all + GUARD, in_force, RECORD);
  check_bytes("pending record", state.all + GUARD + RECORD, pending, RECORD);
  check_bytes("window in the state", state.all + GUARD + COUNT, window, STATE - COUNT);
}

static void lend_out(size_t room) {
  uint8_t bytes[ROOM];
  memset(bytes, LATER, sizeof bytes);
  lend(&out, bytes, room);
}

static void later_untouched(size_t from) {
  uint8_t bytes[ROOM];
  memset(bytes, LATER, sizeof bytes);
  check_bytes(from == 0 ? "out" : "later bytes of out", out.all + GUARD + from, bytes, out.length - from);
}

void out_untouched(void) { later_untouched(0); }

void out_begins(const char *what, const uint8_t *bytes, size_t length) {
  check_bytes(what, out.all + GUARD, bytes, length);
  later_untouched(length);
}

void out_is(const char *what, const uint8_t *bytes) { out_begins(what, bytes, DECISION); }

static void guards_kept(const char *what, const struct lent *slice) {
  uint8_t guard[GUARD + ROOM];
  memset(guard, AROUND, sizeof guard);
  check_bytes(what, slice->all, guard, GUARD);
  check_bytes(what, slice->all + GUARD + slice->length, guard, sizeof slice->all - GUARD - slice->length);
}

/* Frames and windows */

const uint8_t *nth(int n) {
  static uint8_t frame[LONGEST_FRAME];
  for (int channel = 0; channel < LONGEST_FRAME / 2; channel++) put(frame, 2 * channel, 1000 * (n % 23) - 11000 + 37 * channel);
  return frame;
}

const uint8_t *nth_missing(int n, int channel) {
  static uint8_t frame[LONGEST_FRAME];
  memcpy(frame, nth(n), sizeof frame);
  put(frame, 2 * channel, GORSEPETAL_MISSING);
  return frame;
}

void phasor(uint8_t *window, int channel, int re, int im) {
  put(window, 2 * channel, 8 * re);
  put(window, 2 * (9 * 4 + channel), -8 * im);
}

void through(uint8_t *window, int phase, int re, int im) {
  phasor(window, 3 + phase, re, im);
  phasor(window, 6 + phase, -re, -im);
}

void fault_on(uint8_t *window, int x, int to_ground, int sign) {
  /* Of x and the two phases that follow it: the voltage and the current of end 1. */
  static const int ground[3][4] = {{1000, 0, 0, -1000}, {-1000, -1732, 0, 0}, {-1000, 1732, 0, 0}};
  static const int phases[3][4] = {{2000, 0, 0, 0}, {-1000, -500, -1000, 0}, {-1000, 500, 1000, 0}};
  memset(window, 0, WINDOW);
  for (int k = 0; k < 3; k++) {
    const int *of = to_ground ? ground[k] : phases[k];
    int at = (x + k) % 3;
    phasor(window, at, of[0], of[1]);
    through(window, at, sign * of[2], sign * of[3]);
  }
}

/* Calls */

/* What a call reads and must not change. */
static struct lent in, in_before;

static void lend_in(const uint8_t *bytes, size_t length) {
  lend(&in, bytes, length);
  in_before = in;
}

static void in_kept(const char *what) { check_bytes(what, in.all, in_before.all, sizeof in.all); }

static uint64_t enter(uint64_t (*call)(uint8_t *, size_t, const uint8_t *, size_t), const uint8_t *bytes, size_t length) {
  lend_in(bytes, length);
  uint64_t answer = call(state.all + GUARD, state.length, in.all + GUARD, in.length);
  in_kept("entry");
  guards_kept("around the state", &state);
  return answer;
}

uint64_t propose(const uint8_t *bytes, size_t length) { return enter(gorsepetal_propose, bytes, length); }
uint64_t confirm(const uint8_t *bytes, size_t length) { return enter(gorsepetal_confirm, bytes, length); }

uint64_t read_back(size_t room) {
  struct lent before = state;
  lend_out(room);
  uint64_t answer = gorsepetal_read_back(state.all + GUARD, state.length, out.all + GUARD, out.length);
  check_bytes("state", state.all, before.all, sizeof state.all);
  guards_kept("around out", &out);
  return answer;
}

uint64_t decide(const uint8_t *bytes, size_t length, size_t room) {
  struct lent before = state;
  lend_in(bytes, length);
  lend_out(room);
  uint64_t answer = gorsepetal_decide(state.all + GUARD, state.length, in.all + GUARD, in.length, out.all + GUARD, out.length);
  check_bytes("state", state.all, before.all, sizeof state.all);
  in_kept("samples");
  guards_kept("around out", &out);
  return answer;
}

uint64_t feed(const uint8_t *bytes, size_t length, size_t room) {
  lend_in(bytes, length);
  lend_out(room);
  uint64_t answer = gorsepetal_feed(state.all + GUARD, state.length, in.all + GUARD, in.length, out.all + GUARD, out.length);
  in_kept("frame");
  guards_kept("around the state", &state);
  guards_kept("around out", &out);
  return answer;
}

uint64_t events_open(uint64_t ends, uint64_t status) {
  uint64_t answer = gorsepetal_events_open(reader.all + GUARD, reader.length, ends, status);
  guards_kept("around the reader", &reader);
  return answer;
}

uint64_t events_wanted(void) {
  struct lent before = reader;
  uint64_t count = gorsepetal_events_wanted(reader.all + GUARD, reader.length);
  check_bytes("reader", reader.all, before.all, sizeof reader.all);
  return count;
}

uint64_t events_read(const uint8_t *bytes, size_t length, size_t room) {
  lend_in(bytes, length);
  lend_out(room);
  uint64_t answer = gorsepetal_events_read(state.all + GUARD, state.length, reader.all + GUARD, reader.length, in.all + GUARD, in.length,
                                           out.all + GUARD, out.length);
  in_kept("piece");
  guards_kept("around the state", &state);
  guards_kept("around the reader", &reader);
  guards_kept("around out", &out);
  return answer;
}

uint64_t events_end(void) {
  uint64_t answer = gorsepetal_events_end(reader.all + GUARD, reader.length);
  guards_kept("around the reader", &reader);
  return answer;
}

uint64_t events_write(uint64_t ends, uint64_t written, uint32_t time, const uint8_t *frame, size_t length, size_t room) {
  lend_in(frame, length);
  lend_out(room);
  uint64_t answer = gorsepetal_events_write(ends, written, time, in.all + GUARD, in.length, out.all + GUARD, out.length);
  in_kept("frame");
  guards_kept("around out", &out);
  return answer;
}

/* What several cases ask of the calls */

void proposed(const char *what, const uint8_t *record, int fault) {
  int taken = fault < 0;
  lend_state(other, good);
  check(what, propose(record, RECORD), taken ? GORSEPETAL_DONE : refused(GORSEPETAL_OUT_OF_RANGE, (uint64_t)fault));
  state_is(other, taken ? record : zeros, some_window);
}

void confirmed_otherwise(const uint8_t *pending, const uint8_t *entered, int at) {
  lend_state(other, pending);
  check("confirm", confirm(entered, RECORD), refused(GORSEPETAL_DIFFERS, (uint64_t)at));
  state_is(other, zeros, some_window);
  check("third entry", confirm(pending, RECORD), GORSEPETAL_NOTHING_PENDING);
  state_is(other, zeros, some_window);
}

void counts_as_absent(const uint8_t *record) {
  lend_state(record, good);
  check("read back", read_back(RECORD), GORSEPETAL_NO_SETTINGS);
  out_untouched();
  check("decide", decide(zeros, WINDOW, DECISION), GORSEPETAL_NO_SETTINGS);
  out_untouched();
  check("feed", feed(zeros, FRAME, DECISION), GORSEPETAL_NO_SETTINGS);
  out_untouched();
  state_is(record, good, some_window);
  lend_state(good, record);
  check("confirm", confirm(record, RECORD), GORSEPETAL_NOTHING_PENDING);
  state_is(good, zeros, some_window);
}

static const uint8_t *decided(const uint8_t *record, const uint8_t *window) {
  lend_state(record, zeros);
  check("decide", decide(window, (size_t)GORSEPETAL_WINDOW_BYTES(record[1]), DECISION), GORSEPETAL_DONE);
  return out.all + GUARD;
}

static const uint8_t *fed(const uint8_t *record, const uint8_t *window) {
  size_t frame = (size_t)GORSEPETAL_FRAME_BYTES(record[1]), kept = 15 * frame;
  lend_state(record, zeros);
  put(state.all + GUARD, COUNT, 15);
  memcpy(state.all + GUARD + NUMBERS + frame, window, kept);
  check("feed", feed(window + kept, frame, DECISION), GORSEPETAL_DONE);
  return out.all + GUARD;
}

const struct way ways[WAYS] = {{"decide", decided}, {"feed", fed}};

void stored_state_serves(const uint8_t *record, const uint8_t *window, const uint8_t *wanted) {
  lend_state(record, other);
  put(state.all + GUARD, COUNT, 16);
  memcpy(state.all + GUARD + NUMBERS + FRAME, window, WINDOW - FRAME);
  check("read back", read_back(RECORD), GORSEPETAL_DONE);
  out_is("record", record);
  check("decide", decide(window, WINDOW, DECISION), GORSEPETAL_DONE);
  out_is("decision", wanted);
  check("feed", feed(window + WINDOW - FRAME, FRAME, DECISION), GORSEPETAL_DONE);
  out_is("decision", wanted);
  check("confirm", confirm(other, RECORD), GORSEPETAL_DONE);
  state_is(other, zeros, zeros);
}

void comes_into_force(const uint8_t *record) {
  lend_state(other, zeros);
  check("propose", propose(record, RECORD), GORSEPETAL_DONE);
  check("confirm", confirm(record, RECORD), GORSEPETAL_DONE);
  state_is(record, zeros, zeros);
  check("read back", read_back(RECORD), GORSEPETAL_DONE);
  out_is("record", record);
}
