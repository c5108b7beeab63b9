/*
** Makes the calls that standard input describes and writes what each left to standard output; it judges nothing.
**
** Input: a letter, the length of a guard (1 byte) and of a slice (3 bytes, upper first), then guard, slice, guard. The letter s
** lends a new relay and w a new window, or a new frame; p, c and r propose, confirm and read back with the relay as the last call
** left it, and d decides on the window as the last call left it, with this slice as the room for the decision. f feeds the frame in
** the same way.
** For event files n gives numbers (8 bytes each, upper first): which reader, then those that a call takes besides; e lends this reader
** anew. O opens a file, M asks how many bytes are wanted, E ends the file. R reads the slice that w lent as a piece of the file, W
** writes it as a frame, both with this slice as the room.
** Output for a call: what came back (8 bytes, upper first), then of relay, window, reader and other slice those that it was lent, each
** with its guards.
*/
#include <stdio.h>

#include "gorsepetal.h"

enum { HEAD = 5, LONGEST = 2 * 65536, MOST = 255 + LONGEST + 255, READERS = 4 };

struct lent {
  uint8_t all[MOST];
  size_t guard, length;
};
static struct lent state, window, other, numbers, readers[READERS];

static uint64_t number(size_t at) {
  uint64_t value = 0;
  for (size_t i = 0; i < 8; i++) value = 256 * value + numbers.all[numbers.guard + 8 * at + i];
  return value;
}

static struct lent *reader(void) { return &readers[number(0) % READERS]; }

static int among(const char *letters, uint8_t letter) {
  while (*letters && *letters != letter) letters++;
  return *letters != 0;
}

/* Where a letter's slice goes; none for a letter that has no meaning. */
static struct lent *place(uint8_t letter) {
  switch (letter) {
  case 's': return &state;
  case 'w': return &window;
  case 'n': return &numbers;
  case 'e': return reader();
  default: return among("pcrdfOMREW", letter) ? &other : 0;
  }
}

static size_t whole(const struct lent *slice) { return slice->guard + slice->length + slice->guard; }

static int take(struct lent *slice, const uint8_t head[HEAD]) {
  slice->guard = head[1];
  slice->length = 65536 * (size_t)head[2] + 256 * (size_t)head[3] + head[4];
  return slice->length <= LONGEST && fread(slice->all, 1, whole(slice), stdin) == whole(slice);
}

static uint64_t call(uint8_t letter) {
  uint8_t *relay = state.all + state.guard, *samples = window.all + window.guard, *bytes = other.all + other.guard;
  uint8_t *file = reader()->all + reader()->guard;
  size_t file_len = reader()->length;
  switch (letter) {
  case 'p': return gorsepetal_propose(relay, state.length, bytes, other.length);
  case 'c': return gorsepetal_confirm(relay, state.length, bytes, other.length);
  case 'r': return gorsepetal_read_back(relay, state.length, bytes, other.length);
  case 'f': return gorsepetal_feed(relay, state.length, samples, window.length, bytes, other.length);
  case 'O': return gorsepetal_events_open(file, file_len, number(1), number(2));
  case 'M': return gorsepetal_events_wanted(file, file_len);
  case 'R': return gorsepetal_events_read(relay, state.length, file, file_len, samples, window.length, bytes, other.length);
  case 'E': return gorsepetal_events_end(file, file_len);
  case 'W':
    return gorsepetal_events_write(number(1), number(2), (uint32_t)number(3), samples, window.length, bytes, other.length);
  default: return gorsepetal_decide(relay, state.length, samples, window.length, bytes, other.length);
  }
}

static void tell_slice(const struct lent *slice) { fwrite(slice->all, 1, whole(slice), stdout); }

/* Nothing is kept back, so that after a crash the last answer written is that of the call before. */
static int tell(uint8_t letter, uint64_t answer) {
  uint8_t bytes[8];
  for (int i = 0; i < 8; i++) bytes[i] = (uint8_t)(answer >> (56 - 8 * i));
  fwrite(bytes, 1, sizeof bytes, stdout);
  if (among("pcrdfR", letter)) tell_slice(&state);
  if (among("dfRW", letter)) tell_slice(&window);
  if (among("OMRE", letter)) tell_slice(reader());
  if (among("pcrdfRW", letter)) tell_slice(&other);
  return fflush(stdout) == 0;
}

int main(void) {
  uint8_t head[HEAD];
  while (fread(head, 1, HEAD, stdin) == HEAD) {
    struct lent *slice = place(head[0]);
    if (!slice || !take(slice, head)) return 1;
    if (slice == &other && !tell(head[0], call(head[0]))) return 1;
  }
  return 0;
}
