/* Feed in named cases: frame after frame, what each answer leaves, and what the other calls leave of the window. */
#include <string.h>

#include "lent.h"

/* The state after a frame was kept: the window moved on, the numbers behind it as they were, one frame more and 16 at most. */
static void moved_on(uint8_t *wanted, const uint8_t *frame, int length) {
  int count = 256 * wanted[COUNT] + wanted[COUNT + 1];
  memmove(wanted + NUMBERS, wanted + NUMBERS + length, (size_t)(15 * length));
  memcpy(wanted + NUMBERS + 15 * length, frame, (size_t)length);
  put(wanted, COUNT, count < 16 ? count + 1 : 16);
}

/* Feeds a frame that has to be kept, with this answer. If it is decided, the decision is that of decide on the 16 frames. */
static void keeps(const char *what, const uint8_t *frame, uint64_t answer) {
  uint8_t wanted[STATE], decided[DECISION];
  int ends = state.all[GUARD + 1], length = GORSEPETAL_FRAME_BYTES(ends);
  memcpy(wanted, state.all + GUARD, STATE);
  moved_on(wanted, frame, length);
  if (answer == GORSEPETAL_DONE) {
    check("decide on the 16 frames", decide(wanted + NUMBERS, (size_t)GORSEPETAL_WINDOW_BYTES(ends), DECISION), answer);
    memcpy(decided, out.all + GUARD, DECISION);
  }
  check(what, feed(frame, (size_t)length, DECISION + 1), answer);
  check_bytes("state, the frame kept", state.all + GUARD, wanted, STATE);
  if (answer == GORSEPETAL_DONE)
    out_is("decision", decided);
  else
    out_untouched();
}

/* Feeds a frame that has to be refused and not kept. */
static void keeps_nothing(const char *what, const uint8_t *frame, size_t length, size_t room, uint64_t answer) {
  uint8_t before[STATE];
  memcpy(before, state.all + GUARD, STATE);
  check(what, feed(frame, length, room), answer);
  check_bytes("state, nothing kept", state.all + GUARD, before, STATE);
  out_untouched();
}

/* For each number of ends, so the shortest frame, 18 bytes, and the longest, 42. */
static void sixteen_frames(void) {
  for (int ends = FEWEST_ENDS; ends <= MOST_ENDS; ends++) {
    lend_line(ends, 0);
    for (int n = 1; n <= 15; n++) keeps("one of the first fifteen", nth(n), GORSEPETAL_TOO_FEW_FRAMES);
    for (int n = 16; n <= 50; n++) keeps("the sixteenth and later", nth(n), GORSEPETAL_DONE);
    keeps("the same frame again", nth(50), GORSEPETAL_DONE);
  }
}

static void fresh_relay_fed(void) {
  lend(&state, zeros, STATE);
  keeps_nothing("no settings", zeros, FRAME, DECISION, GORSEPETAL_NO_SETTINGS);
  check("propose", propose(good, RECORD), GORSEPETAL_DONE);
  keeps_nothing("only pending", zeros, FRAME, DECISION, GORSEPETAL_NO_SETTINGS);
  check("confirm", confirm(good, RECORD), GORSEPETAL_DONE);
  keeps("in force", nth(1), GORSEPETAL_TOO_FEW_FRAMES);
  check("count, in bytes 64 and 65", 256u * state.all[GUARD + 64] + state.all[GUARD + 65], 1);
  check_bytes("frame, behind 15 others from byte 66 on", state.all + GUARD + 66 + 15 * 18, nth(1), 18);
  lend_relay(bad, 16, zeros);
  keeps_nothing("in force, but out of range", zeros, FRAME, DECISION, GORSEPETAL_NO_SETTINGS);
}

/* The first frame has what decide_cases.c has in frame 0 of its window: with fifteen zero frames after it, it is the oldest, n = 0. Phase a
** changes at slope 42, as it is worked out there. */
static void paper_mill_fed(void) {
  uint8_t fault[FRAME] = {0}, record[RECORD], wanted[DECISION] = {1, 1, [GORSEPETAL_DECISION_AT_CHANGE_A] = 42};
  put(fault, 2 * 3, 8 * 100);
  put(fault, 2 * 6, 8 * -40);
  put(wanted, GORSEPETAL_DECISION_AT_RESTRAINT_A + 2, 8960);
  put(wanted, GORSEPETAL_DECISION_AT_DIFFERENTIAL_A + 2, 3840);
  memcpy(record, good, RECORD);
  record[5] = 60; /* pickup */
  lend_relay(record, 0, zeros);
  keeps("frame 1", fault, GORSEPETAL_TOO_FEW_FRAMES);
  for (int n = 2; n <= 15; n++) keeps("frames 2 to 15", zeros, GORSEPETAL_TOO_FEW_FRAMES);
  check("frame 16", feed(zeros, FRAME, DECISION), GORSEPETAL_DONE);
  out_is("decision", wanted);
  check("frame 17", feed(zeros, FRAME, DECISION), GORSEPETAL_DONE);
  out_is("decision, the fault's frame gone", zeros);
}

/* In the order 17, 1, 9, 3, 10, 4: each two neighbours at once, and what the first of them leaves. */
static void refusals_of_feed_in_order(void) {
  uint8_t bytes[ROOM] = {0};
  memcpy(bytes, bad, RECORD);
  lend(&state, bytes, STATE - 1);
  check("17 before 1", feed(zeros, FRAME, DECISION), GORSEPETAL_NO_RELAY);
  check_bytes("state", state.all + GUARD, bytes, STATE - 1);
  out_untouched();
  lend_relay(bad, 15, zeros);
  keeps_nothing("1 before 9", zeros, FRAME + 2, DECISION, GORSEPETAL_NO_SETTINGS);
  lend_relay(good, 15, zeros);
  keeps_nothing("9 before 3", zeros, FRAME + 2, DECISION - 1, GORSEPETAL_OTHER_FRAME_LENGTH);
  lend_relay(good, 0, zeros);
  keeps_nothing("3 before 10", zeros, FRAME, DECISION - 1, GORSEPETAL_NO_ROOM);
  keeps("10 before 4", nth_missing(1, 4), GORSEPETAL_TOO_FEW_FRAMES);
  lend_relay(good, 15, zeros);
  keeps_nothing("3 before 4", nth_missing(1, 4), FRAME, DECISION - 1, GORSEPETAL_NO_ROOM);
  keeps("4", nth_missing(1, 4), refused(GORSEPETAL_MISSING_SAMPLE, 15 * CHANNELS + 4));
  lend_relay(good, 15, zeros);
  keeps("nothing wrong", zeros, GORSEPETAL_DONE);
}

/* Every length but one, so an odd byte over and a frame of other ends; the same where nothing can be decided yet. */
static void frame_of_another_length(void) {
  for (int ends = FEWEST_ENDS; ends <= MOST_ENDS; ends++)
    for (int count = 0; count <= 16; count += 8) {
      lend_line(ends, count);
      for (size_t length = 0; length <= STATE; length++)
        if (length != (size_t)GORSEPETAL_FRAME_BYTES(ends))
          keeps_nothing("feed", zeros, length, DECISION, GORSEPETAL_OTHER_FRAME_LENGTH);
    }
}

static void room_to_feed(void) {
  lend_relay(good, 3, zeros);
  for (size_t room = 0; room < DECISION; room++) keeps_nothing("too little, too few frames", zeros, FRAME, room, GORSEPETAL_NO_ROOM);
  lend_relay(good, 16, zeros);
  for (size_t room = 0; room < DECISION; room++) keeps_nothing("too little", zeros, FRAME, room, GORSEPETAL_NO_ROOM);
  for (size_t room = DECISION; room <= ROOM; room++) {
    check("room", feed(zeros, FRAME, room), GORSEPETAL_DONE);
    out_is("decision", zeros);
  }
}

/* One missing sample is refused 16 times, and its place falls by a frame each time. */
static void missing_sample_passes_through(void) {
  for (int ends = FEWEST_ENDS; ends <= MOST_ENDS; ends++) {
    int channels = GORSEPETAL_CHANNELS(ends);
    lend_line(ends, 16);
    for (int channel = 0; channel < channels; channel++) {
      keeps("before", nth(1), GORSEPETAL_DONE);
      for (int frame = 15; frame >= 0; frame--)
        keeps("in the window", frame == 15 ? nth_missing(2, channel) : nth(frame),
              refused(GORSEPETAL_MISSING_SAMPLE, (uint64_t)(channels * frame + channel)));
      keeps("after", nth(3), GORSEPETAL_DONE);
    }
  }
}

/* Two frames with missing samples, five frames apart: the older one is named until it has gone. Of one frame the first sample is named. */
static void first_missing_sample_is_named(void) {
  uint8_t two[FRAME];
  memcpy(two, nth_missing(1, 2), FRAME);
  put(two, 2 * 7, GORSEPETAL_MISSING);
  lend_relay(good, 16, zeros);
  for (int n = 0; n <= 20; n++) {
    int place = n < 16 ? CHANNELS * (15 - n) + 2 : CHANNELS * (20 - n);
    keeps("feed", n == 0 ? two : n == 5 ? nth_missing(n, 0) : nth(n), refused(GORSEPETAL_MISSING_SAMPLE, (uint64_t)place));
  }
  keeps("both gone", zeros, GORSEPETAL_DONE);
}

static void missing_among_the_first_fifteen(void) {
  lend_relay(good, 0, zeros);
  for (int n = 1; n <= 15; n++) keeps("kept", n == 3 ? nth_missing(n, 8) : nth(n), GORSEPETAL_TOO_FEW_FRAMES);
  keeps("shows at the sixteenth", nth(16), refused(GORSEPETAL_MISSING_SAMPLE, 2 * CHANNELS + 8));
  keeps("and after", nth(17), refused(GORSEPETAL_MISSING_SAMPLE, 1 * CHANNELS + 8));
  keeps("and after", nth(18), refused(GORSEPETAL_MISSING_SAMPLE, 8));
  keeps("gone", nth(19), GORSEPETAL_DONE);
}

/* Below 15 a frame is only counted; from 15 on it is decided. Above 16 the count reads as 16, and becomes 16 when a frame is kept. */
static void count_in_the_state(void) {
  static const int counts[] = {0, 1, 14, 15, 16, 17, 200, 255, 256, 271, 3840, 32768, 65535};
  for (size_t k = 0; k < sizeof counts / sizeof *counts; k++) {
    lend_relay(good, counts[k], some_window);
    keeps_nothing("another length", zeros, FRAME - 1, DECISION, GORSEPETAL_OTHER_FRAME_LENGTH);
    keeps_nothing("no room", zeros, FRAME, 0, GORSEPETAL_NO_ROOM);
    keeps("a frame", nth(1), counts[k] < 15 ? GORSEPETAL_TOO_FEW_FRAMES : GORSEPETAL_DONE);
    check("count", 256u * state.all[GUARD + COUNT] + state.all[GUARD + COUNT + 1], (uint64_t)(counts[k] < 16 ? counts[k] + 1 : 16));
  }
}

/* Numbers behind the 16 frames are not the line's: they stay, and a missing sample among them is not seen. */
static void numbers_behind(void) {
  uint8_t numbers[LONGEST];
  for (int k = 0; k < LONGEST; k += 2) put(numbers, k, GORSEPETAL_MISSING);
  for (int ends = FEWEST_ENDS; ends <= MOST_ENDS; ends++) {
    uint8_t record[RECORD];
    with_ends(record, ends);
    lend_relay(record, 0, numbers);
    for (int n = 1; n <= 15; n++) keeps("missing samples kept from before", nth(n), GORSEPETAL_TOO_FEW_FRAMES);
    for (int n = 16; n <= 40; n++) keeps("none among the 16 frames", nth(n), GORSEPETAL_DONE);
  }
}

/* Any bytes are a state: here every number of the window is a missing sample, and fifteen frames count as kept. */
static void window_of_any_bytes(void) {
  uint8_t numbers[LONGEST];
  for (int k = 0; k < LONGEST; k += 2) put(numbers, k, GORSEPETAL_MISSING);
  lend_relay(good, 15, numbers);
  for (int n = 1; n <= 15; n++) keeps("missing from the oldest on", nth(n), refused(GORSEPETAL_MISSING_SAMPLE, 0));
  keeps("all gone", nth(16), GORSEPETAL_DONE);
}

/* A confirmation answered 0 leaves no frame, whatever record it is, and the numbers are zero, those behind too. */
static void confirmation_empties(void) {
  uint8_t six[RECORD];
  with_ends(six, 6);
  const uint8_t *const records[] = {good, other, six};
  for (size_t k = 0; k < sizeof records / sizeof *records; k++) {
    lend_relay(good, 16, some_window);
    keeps("before", nth(1), GORSEPETAL_DONE);
    check("propose", propose(records[k], RECORD), GORSEPETAL_DONE);
    keeps("between the two entries", nth(2), GORSEPETAL_DONE);
    check("confirm", confirm(records[k], RECORD), GORSEPETAL_DONE);
    state_is(records[k], zeros, zeros);
    for (int n = 1; n <= 15; n++) keeps("fifteen frames later", nth(n), GORSEPETAL_TOO_FEW_FRAMES);
    keeps("the sixteenth", nth(16), GORSEPETAL_DONE);
  }
}

/* All that changes no record in force leaves the window, and the next frame is decided. */
static void other_calls_leave_the_window(void) {
  uint8_t window[STATE - COUNT], samples[WINDOW] = {0x80, 0x00};
  lend_relay(good, 16, some_window);
  memcpy(window, state.all + GUARD + COUNT, sizeof window);
  check("propose", propose(other, RECORD), GORSEPETAL_DONE);
  state_is(good, other, window);
  check("propose, out of range", propose(bad, RECORD), refused(GORSEPETAL_OUT_OF_RANGE, 2));
  state_is(good, zeros, window);
  check("propose, another length", propose(good, RECORD - 1), GORSEPETAL_OTHER_ENTRY_LENGTH);
  check("confirm, another length", confirm(good, RECORD - 1), GORSEPETAL_OTHER_ENTRY_LENGTH);
  check("confirm, nothing pending", confirm(good, RECORD), GORSEPETAL_NOTHING_PENDING);
  state_is(good, zeros, window);
  check("propose", propose(good, RECORD), GORSEPETAL_DONE);
  check("confirm, differs", confirm(other, RECORD), refused(GORSEPETAL_DIFFERS, 3));
  state_is(good, zeros, window);
  check("read back", read_back(RECORD), GORSEPETAL_DONE);
  check("read back, no room", read_back(0), GORSEPETAL_NO_ROOM);
  check("decide", decide(zeros, WINDOW, DECISION), GORSEPETAL_DONE);
  check("decide, another length", decide(zeros, WINDOW - 2, DECISION), GORSEPETAL_OTHER_WINDOW_LENGTH);
  check("decide, no room", decide(zeros, WINDOW, 0), GORSEPETAL_NO_ROOM);
  check("decide, a sample missing", decide(samples, WINDOW, DECISION), refused(GORSEPETAL_MISSING_SAMPLE, 0));
  state_is(good, zeros, window);
  keeps("feed", nth(1), GORSEPETAL_DONE);
}

/* The state of version 1 is refused; its record is brought over by two entries, and by its 64 bytes in front of zeros. */
static void state_of_version_1(void) {
  uint8_t before[COUNT], brought[STATE] = {0};
  memcpy(before, good, RECORD);
  memcpy(before + RECORD, other, RECORD);
  lend(&state, before, sizeof before);
  check("feed", feed(zeros, FRAME, DECISION), GORSEPETAL_NO_RELAY);
  check("read back", read_back(RECORD), GORSEPETAL_NO_RELAY);
  check("decide", decide(zeros, WINDOW, DECISION), GORSEPETAL_NO_RELAY);
  check("propose", propose(before, RECORD), GORSEPETAL_NO_RELAY);
  check("confirm", confirm(before + RECORD, RECORD), GORSEPETAL_NO_RELAY);
  check_bytes("state", state.all + GUARD, before, sizeof before);
  lend(&state, zeros, STATE);
  check("propose", propose(before, RECORD), GORSEPETAL_DONE);
  check("confirm", confirm(before, RECORD), GORSEPETAL_DONE);
  state_is(good, zeros, zeros);
  memcpy(brought, before, sizeof before);
  lend(&state, brought, STATE);
  check("read back", read_back(RECORD), GORSEPETAL_DONE);
  out_is("record", good);
  keeps("feed", nth(1), GORSEPETAL_TOO_FEW_FRAMES);
}

const struct test_case feed_cases[] = {
    {"sixteen frames", sixteen_frames},
    {"fresh relay fed", fresh_relay_fed},
    {"paper mill fed", paper_mill_fed},
    {"refusals of feed in order", refusals_of_feed_in_order},
    {"frame of another length", frame_of_another_length},
    {"room to feed", room_to_feed},
    {"missing sample passes through", missing_sample_passes_through},
    {"first missing sample is named", first_missing_sample_is_named},
    {"missing among the first fifteen", missing_among_the_first_fifteen},
    {"count in the state", count_in_the_state},
    {"numbers behind", numbers_behind},
    {"window of any bytes", window_of_any_bytes},
    {"confirmation empties", confirmation_empties},
    {"other calls leave the window", other_calls_leave_the_window},
    {"state of version 1", state_of_version_1},
    {0, 0},
};
