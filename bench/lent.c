/* One call with all that is lent to it: the versions that can make it, and how it is made. */
#include "lent.h"

static const all_calls archive = {gorsepetal_propose,    gorsepetal_confirm,     gorsepetal_read_back,     gorsepetal_decide,
                                  gorsepetal_feed,       gorsepetal_events_open, gorsepetal_events_wanted, gorsepetal_events_read,
                                  gorsepetal_events_end, gorsepetal_events_write};

const struct version versions[VERSIONS] = {
    {"archive", &archive, 0},
    {"plain -O2", &plain_O2, 0},
    {"plain -O3", &plain_O3, 0},
    {"double -O2", &plain_double_O2, 0},
    {"double -O3", &plain_double_O3, 0},
    {"quarter -O3", &plain_quarter_O3, 0},
    {"own -O3", &plain_own_O3, 1},
};

const char *const call_names[CALLS] = {"propose", "confirm", "read-back", "decide", "feed", "open", "wanted", "read", "end", "write"};

uint64_t make(const struct version *version, which_call call, lent *l) {
  const all_calls *its = version->calls;
  switch (call) {
  case PROPOSE: return its->propose(l->state, l->state_len, l->in, l->in_len);
  case CONFIRM: return its->confirm(l->state, l->state_len, l->in, l->in_len);
  case READ_BACK: return its->read_back(l->state, l->state_len, l->out, l->out_len);
  case DECIDE: return its->decide(l->state, l->state_len, l->in, l->in_len, l->out, l->out_len);
  case FEED: return its->feed(l->state, l->state_len, l->in, l->in_len, l->out, l->out_len);
  case OPEN: return its->events_open(l->reader, l->reader_len, l->ends, l->status);
  case WANTED: return its->events_wanted(l->reader, l->reader_len);
  case READ: return its->events_read(l->state, l->state_len, l->reader, l->reader_len, l->in, l->in_len, l->out, l->out_len);
  case END: return its->events_end(l->reader, l->reader_len);
  default: return its->events_write(l->ends, l->written, l->time, l->in, l->in_len, l->out, l->out_len);
  }
}

void turn_window(const struct version *version, lent *l) {
  for (int at = GORSEPETAL_STATE_AT_COUNT; version->own_numbers && at < STATE; at += 2) {
    uint8_t upper = l->state[at];
    l->state[at] = l->state[at + 1];
    l->state[at + 1] = upper;
  }
}

uintptr_t code_of(const struct version *version, which_call call) {
  const all_calls *its = version->calls;
  switch (call) {
  case PROPOSE: return (uintptr_t)its->propose;
  case CONFIRM: return (uintptr_t)its->confirm;
  case READ_BACK: return (uintptr_t)its->read_back;
  case DECIDE: return (uintptr_t)its->decide;
  case FEED: return (uintptr_t)its->feed;
  case OPEN: return (uintptr_t)its->events_open;
  case WANTED: return (uintptr_t)its->events_wanted;
  case READ: return (uintptr_t)its->events_read;
  case END: return (uintptr_t)its->events_end;
  default: return (uintptr_t)its->events_write;
  }
}

void put(uint8_t *bytes, int at, int number) {
  bytes[at] = (uint8_t)((unsigned)number >> 8);
  bytes[at + 1] = (uint8_t)number;
}
