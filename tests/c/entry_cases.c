/* Propose, confirm and read-back in named cases, and a state of another length for these, for decide and for feed. */
#include <string.h>

#include "lent.h"

static void fresh_relay(void) {
  lend_state(zeros, zeros);
  check("read back", read_back(RECORD), GORSEPETAL_NO_SETTINGS);
  out_untouched();
  check("confirm", confirm(good, RECORD), GORSEPETAL_NOTHING_PENDING);
  state_is(zeros, zeros, some_window);
}

static void two_entries_alike(void) {
  lend_state(zeros, zeros);
  check("propose", propose(good, RECORD), GORSEPETAL_DONE);
  state_is(zeros, good, some_window);
  check("read back before the second entry", read_back(RECORD), GORSEPETAL_NO_SETTINGS);
  check("confirm", confirm(good, RECORD), GORSEPETAL_DONE);
  state_is(good, zeros, zeros);
  check("confirm again", confirm(good, RECORD), GORSEPETAL_NOTHING_PENDING);
  state_is(good, zeros, zeros);
}

static void later_proposal_replaces(void) {
  lend_state(good, good);
  check("propose", propose(other, RECORD), GORSEPETAL_DONE);
  state_is(good, other, some_window);
  check("confirm the earlier one", confirm(good, RECORD), refused(GORSEPETAL_DIFFERS, 3));
  state_is(good, zeros, some_window);
}

static void mismatch_at_each_offset(void) {
  for (int at = 0; at < RECORD; at++) {
    uint8_t mistyped[RECORD];
    memcpy(mistyped, good, RECORD);
    for (int i = at; i < RECORD; i++) mistyped[i] ^= 0x80; /* all later bytes differ too: the first is named */
    lend_state(other, good);
    check("confirm", confirm(mistyped, RECORD), refused(GORSEPETAL_DIFFERS, (uint64_t)at));
    state_is(other, zeros, some_window);
    check("third entry", confirm(good, RECORD), GORSEPETAL_NOTHING_PENDING);
    state_is(other, zeros, some_window);
  }
}

static void entry_of_another_length(void) {
  static const size_t lengths[] = {0, 1, 31, 33, 64};
  uint8_t bytes[ROOM] = {0};
  memcpy(bytes, good, RECORD);
  for (size_t k = 0; k < sizeof lengths / sizeof *lengths; k++) {
    lend_state(other, good);
    check("propose", propose(bytes, lengths[k]), GORSEPETAL_OTHER_ENTRY_LENGTH);
    state_is(other, zeros, some_window);
    lend_state(other, good);
    check("confirm", confirm(bytes, lengths[k]), GORSEPETAL_OTHER_ENTRY_LENGTH);
    state_is(other, zeros, some_window);
    check("confirm with nothing pending", confirm(bytes, lengths[k]), GORSEPETAL_OTHER_ENTRY_LENGTH);
    state_is(other, zeros, some_window);
  }
}

static void state_of_another_length(void) {
  static const size_t lengths[] = {0, 1, 32, 63, 64, 65, 737, 739, ROOM}; /* 64 is that of version 1 */
  uint8_t bytes[ROOM] = {0}, missing[WINDOW] = {0x80, 0x00};
  memcpy(bytes, good, RECORD);
  memcpy(bytes + RECORD, good, RECORD);
  for (size_t k = 0; k < sizeof lengths / sizeof *lengths; k++) {
    lend(&state, bytes, lengths[k]);
    check("propose", propose(good, RECORD), GORSEPETAL_NO_RELAY);
    check("propose, nothing right", propose(bad, 0), GORSEPETAL_NO_RELAY);
    check("confirm", confirm(good, RECORD), GORSEPETAL_NO_RELAY);
    check("confirm, nothing right", confirm(bad, 0), GORSEPETAL_NO_RELAY);
    check("read back", read_back(RECORD), GORSEPETAL_NO_RELAY);
    out_untouched();
    check("read back, no room", read_back(0), GORSEPETAL_NO_RELAY);
    check("decide", decide(zeros, WINDOW, DECISION), GORSEPETAL_NO_RELAY);
    out_untouched();
    check("decide, a sample missing", decide(missing, WINDOW, DECISION), GORSEPETAL_NO_RELAY);
    check("decide, nothing right", decide(zeros, 1, 0), GORSEPETAL_NO_RELAY);
    check("feed", feed(zeros, FRAME, DECISION), GORSEPETAL_NO_RELAY);
    out_untouched();
    check("feed, a sample missing", feed(missing, FRAME, DECISION), GORSEPETAL_NO_RELAY);
    check("feed, nothing right", feed(zeros, 1, 0), GORSEPETAL_NO_RELAY);
    check_bytes("state", state.all + GUARD, bytes, lengths[k]);
  }
}

/* The good record with one number changed, and the offset at which it is refused, or -1. */
static const struct {
  int at, number, fault;
} edges[] = {
    {0, 1, 0},         {0, 2, -1},       {0, 6, -1},       {0, 7, 0},         {0, 258, 0},      {2, 0, 2},        {2, 1, -1},
    {2, 100, -1},      {2, 101, 2},      {4, 0, 4},        {4, 1, -1},        {4, 42000, -1},   {4, 42001, 4},    {6, 0, -1},
    {6, 20000, -1},    {6, 20001, 6},    {8, 0, 8},        {8, 1, -1},        {8, 20000, -1},   {8, 20001, 8},    {10, 0, 10},
    {10, 1, -1},       {10, 2000, -1},   {10, 2001, 10},   {12, 0, -1},       {12, 1000, -1},   {12, 1001, 12},   {14, -501, 14},
    {14, -500, -1},    {14, 500, -1},    {14, 501, 14},    {16, 0, -1},       {16, 44, -1},     {16, 45, 18},     {16, 1000, 18},
    {16, 1001, 16},    {18, 998, 18},    {18, 999, -1},    {18, 1000, -1},    {18, 1001, 18},   {20, -20001, 20}, {20, -20000, -1},
    {20, 299, -1},     {20, 300, 22},    {20, 20000, 22},  {20, 20001, 20},   {22, -20001, 22}, {22, -300, 22},   {22, -299, -1},
    {22, 20000, -1},   {22, 20001, 22},  {24, 0, 24},      {24, 1, -1},       {24, 42000, -1},  {24, 42001, 24},  {26, 0, -1},
    {26, 849, 26},     {26, 850, -1},    {26, 2000, -1},   {26, 2001, 26},    {28, 0, -1},      {28, 1, -1},      {28, 1000, -1},
    {28, 1001, 28},    {30, 256, 30},    {30, 1, 31},
};

static void edges_of_each_field(void) {
  for (size_t k = 0; k < sizeof edges / sizeof *edges; k++) {
    uint8_t record[RECORD];
    memcpy(record, good, RECORD);
    put(record, edges[k].at, edges[k].number);
    proposed("propose", record, edges[k].fault);
  }
}

static void stored_record_out_of_range(void) {
  lend_state(bad, good);
  check("read back", read_back(RECORD), GORSEPETAL_NO_SETTINGS);
  out_untouched();
  check("propose", propose(other, RECORD), GORSEPETAL_DONE);
  state_is(bad, other, some_window);
  lend_state(bad, bad);
  check("confirm", confirm(bad, RECORD), GORSEPETAL_NOTHING_PENDING);
  state_is(bad, zeros, some_window);
  lend_state(bad, good);
  check("confirm", confirm(good, RECORD), GORSEPETAL_DONE);
  state_is(good, zeros, zeros);
}

static void room_to_read_back(void) {
  lend_state(good, other);
  for (size_t room = 0; room < RECORD; room++) {
    check("too little room", read_back(room), GORSEPETAL_NO_ROOM);
    out_untouched();
  }
  for (size_t room = RECORD; room <= ROOM; room++) {
    check("room", read_back(room), GORSEPETAL_DONE);
    out_is("record", good);
  }
  lend_state(zeros, good);
  check("no settings and no room", read_back(0), GORSEPETAL_NO_SETTINGS);
}

const struct test_case entry_cases[] = {
    {"fresh relay", fresh_relay},
    {"two entries alike", two_entries_alike},
    {"later proposal replaces", later_proposal_replaces},
    {"mismatch at each offset", mismatch_at_each_offset},
    {"entry of another length", entry_of_another_length},
    {"state of another length", state_of_another_length},
    {"edges of each field", edges_of_each_field},
    {"stored record out of range", stored_record_out_of_range},
    {"room to read back", room_to_read_back},
    {0, 0},
};
