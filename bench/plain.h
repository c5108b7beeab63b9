/* The calls in plain C, to be counted beside the library's: one source, compiled in six ways. */
#ifndef PLAIN_H
#define PLAIN_H
#include <stddef.h>
#include <stdint.h>

/* The calls of gorsepetal.h, under no name: whoever holds this can call the library or any version of plain C alike. */
typedef struct {
  uint64_t (*propose)(uint8_t *state, size_t state_len, const uint8_t *entry, size_t entry_len);
  uint64_t (*confirm)(uint8_t *state, size_t state_len, const uint8_t *entry, size_t entry_len);
  uint64_t (*read_back)(const uint8_t *state, size_t state_len, uint8_t *out, size_t out_len);
  uint64_t (*decide)(const uint8_t *state, size_t state_len, const uint8_t *samples, size_t samples_len, uint8_t *out, size_t out_len);
  uint64_t (*feed)(uint8_t *state, size_t state_len, const uint8_t *frame, size_t frame_len, uint8_t *out, size_t out_len);
  uint64_t (*events_open)(uint8_t *reader, size_t reader_len, uint64_t ends, uint64_t status);
  uint64_t (*events_wanted)(const uint8_t *reader, size_t reader_len);
  uint64_t (*events_read)(uint8_t *state, size_t state_len, uint8_t *reader, size_t reader_len, const uint8_t *bytes, size_t bytes_len,
                          uint8_t *out, size_t out_len);
  uint64_t (*events_end)(uint8_t *reader, size_t reader_len);
  uint64_t (*events_write)(uint64_t ends, uint64_t written, uint32_t time, const uint8_t *frame, size_t frame_len, uint8_t *out,
                           size_t out_len);
} all_calls;

/* At -O2 and at -O3, with a root by bits and with the processor's root of a double; and at -O3 with the library's root, which calls
** itself. The last keeps the window that is fed in the processor's own numbers, where the others and the library have bytes, upper byte
** first. */
extern const all_calls plain_O2, plain_O3, plain_double_O2, plain_double_O3, plain_quarter_O3, plain_own_O3;

#endif
