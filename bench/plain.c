/*
** Document 01, feeding, the second zone, balanced faults, event files, the slope at which a phase changes and the quadrilaterals, as one
** would write them in C: tables, 64-bit sums, one quantity after another. It is the measure for the library's speed and nothing else: its
** answers are compared with the library's before anything is counted.
**
** It is compiled six times, each time under the name PLAIN: at -O2 and at -O3, and with one of three roots. By itself the root is a
** whole-number one, a bit of the result a turn, beginning at the highest bit there is. DOUBLE_ROOT takes the processor's square root of a
** double, which is exact here: every number that a root is taken of is below 2^52. QUARTER_ROOT takes the library's, which calls itself.
** OWN_NUMBERS is for feed: see there.
*/
#include <string.h>

#include "plain.h"

enum { RECORD = 32, DECISION = 32, FRAMES = 16, PHASES = 3, MOST_ENDS = 6, LONGEST = FRAMES * PHASES * (1 + MOST_ENDS) };
enum { COUNT = 2 * RECORD, NUMBERS = COUNT + 2, STATE = NUMBERS + 2 * LONGEST }; /* of the state: the offsets of its window, its length */
enum { DONE, NO_SETTINGS, WINDOW_LENGTH, NO_ROOM, MISSING, ENTRY_LENGTH, OUT_OF_RANGE, NOTHING_PENDING, DIFFERS };
enum { FRAME_LENGTH = 9, TOO_FEW_FRAMES = 10, INSIDE_RECORD = 11, OTHER_NUMBER = 12, BAD_FILE = 13, NO_RELAY = 17 };
enum { NONE, FORWARD, REVERSE };

typedef struct {
  int64_t re, im;
} phasor;

static const int16_t COSINES[FRAMES] = {16384,  15137,  11585,  6270,  0, -6270, -11585, -15137,
                                        -16384, -15137, -11585, -6270, 0, 6270,  11585,  15137};

/* Bytes: 16-bit fields and samples, 32-bit words of the decision, upper byte first */

static int64_t unsigned_at(const uint8_t *bytes, size_t at) { return bytes[at] << 8 | bytes[at + 1]; }
static int64_t signed_at(const uint8_t *bytes, size_t at) { return (int16_t)(bytes[at] << 8 | bytes[at + 1]); }

static void put_word(uint8_t *bytes, uint64_t n) {
  bytes[0] = (uint8_t)(n >> 24);
  bytes[1] = (uint8_t)(n >> 16);
  bytes[2] = (uint8_t)(n >> 8);
  bytes[3] = (uint8_t)n;
}

static uint64_t refused(uint64_t number, uint64_t place) { return 256 * place + number; }

/* Settings */

static int outside(int64_t x, int64_t low, int64_t high) { return x < low || high < x; }

/* The offset of the first fault of a record, or RECORD if it has none. */
static size_t fault(const uint8_t *r) {
  if (outside(unsigned_at(r, 0), 2, 6)) return 0;
  if (outside(unsigned_at(r, 2), 1, 100)) return 2;
  if (outside(unsigned_at(r, 4), 1, 42000)) return 4;
  if (outside(unsigned_at(r, 6), 0, 20000)) return 6;
  if (outside(unsigned_at(r, 8), 1, 20000)) return 8;
  if (outside(unsigned_at(r, 10), 1, 2000)) return 10;
  if (outside(unsigned_at(r, 12), 0, 1000)) return 12;
  if (outside(signed_at(r, 14), -500, 500)) return 14;
  int64_t re = unsigned_at(r, 16), im = unsigned_at(r, 18);
  if (outside(re, 0, 1000)) return 16;
  if (outside(im, 0, 1000) || outside(re * re + im * im, 998000, 1002000)) return 18;
  int64_t zf = signed_at(r, 20), zr = signed_at(r, 22);
  if (outside(zf, -20000, 20000)) return 20;
  if (outside(zr, -20000, 20000) || zf >= zr) return 22;
  if (outside(unsigned_at(r, 24), 1, 42000)) return 24;
  int64_t second_reach = unsigned_at(r, 26);
  if (second_reach != 0 && outside(second_reach, unsigned_at(r, 10), 2000)) return 26;
  if (outside(unsigned_at(r, 28), 0, 1000)) return 28;
  for (size_t at = 30; at < RECORD; at++)
    if (r[at] != 0) return at;
  return RECORD;
}

static int good(const uint8_t *record) { return fault(record) == RECORD; }

static size_t ends_of(const uint8_t *record) { return (size_t)unsigned_at(record, 0); }
static size_t channels_of(const uint8_t *record) { return PHASES + PHASES * ends_of(record); }

static uint64_t proposed(const uint8_t *entry, size_t entry_len) {
  if (entry_len != RECORD) return ENTRY_LENGTH;
  size_t at = fault(entry);
  return at == RECORD ? DONE : refused(OUT_OF_RANGE, at);
}

static uint64_t propose(uint8_t *state, size_t state_len, const uint8_t *entry, size_t entry_len) {
  if (state_len != STATE) return NO_RELAY;
  uint64_t answer = proposed(entry, entry_len);
  if (answer == DONE)
    memcpy(state + RECORD, entry, RECORD);
  else
    memset(state + RECORD, 0, RECORD);
  return answer;
}

static uint64_t confirmed(const uint8_t *pending, const uint8_t *entry, size_t entry_len) {
  if (entry_len != RECORD) return ENTRY_LENGTH;
  if (!good(pending)) return NOTHING_PENDING;
  for (size_t at = 0; at < RECORD; at++)
    if (pending[at] != entry[at]) return refused(DIFFERS, at);
  return DONE;
}

static uint64_t confirm(uint8_t *state, size_t state_len, const uint8_t *entry, size_t entry_len) {
  if (state_len != STATE) return NO_RELAY;
  uint64_t answer = confirmed(state + RECORD, entry, entry_len);
  if (answer == DONE) {
    memcpy(state, entry, RECORD);
    memset(state + COUNT, 0, STATE - COUNT);
  }
  memset(state + RECORD, 0, RECORD);
  return answer;
}

static uint64_t read_back(const uint8_t *state, size_t state_len, uint8_t *out, size_t out_len) {
  if (state_len != STATE) return NO_RELAY;
  if (!good(state)) return NO_SETTINGS;
  if (out_len < RECORD) return NO_ROOM;
  memcpy(out, state, RECORD);
  return DONE;
}

/* Phasors */

/* Rounded by 2^bits. The compilers that firmware meets shift a negative number downward. */
static int64_t rounded(int64_t x, int bits) { return (x + ((int64_t)1 << (bits - 1))) >> bits; }

/* Rounded by 1000; a division goes toward zero, so a negative one is mended. */
static int64_t rounded_thousandths(int64_t x) {
  int64_t quotient = (x + 500) / 1000;
  return quotient * 1000 > x + 500 ? quotient - 1 : quotient;
}

static int64_t magnitude(int64_t x) { return x < 0 ? -x : x; }

static phasor plus(phasor p, phasor q) { return (phasor){p.re + q.re, p.im + q.im}; }
static phasor minus(phasor p, phasor q) { return (phasor){p.re - q.re, p.im - q.im}; }
static phasor times(phasor p, phasor q) { return (phasor){p.re * q.re - p.im * q.im, p.re * q.im + p.im * q.re}; }
static phasor minus_j(phasor p) { return (phasor){p.im, -p.re}; }
static int64_t dot(phasor p, phasor q) { return p.re * q.re + p.im * q.im; }   /* Re(p q*) */
static int64_t cross(phasor p, phasor q) { return p.im * q.re - p.re * q.im; } /* Im(p q*) */

static phasor measure(const int16_t *window, size_t channels, size_t channel) {
  int64_t a = 0, b = 0;
  for (size_t n = 0; n < FRAMES; n++) {
    int64_t x = window[n * channels + channel];
    a += x * COSINES[n];
    b -= x * COSINES[(n + 12) % FRAMES];
  }
  return (phasor){rounded(a, 17), rounded(b, 17)};
}

/* Direction, from the voltages v and the currents i of end 1 */

static const phasor A = {-8192, 14189}, A2 = {-8192, -14189}; /* a and its conjugate, over 16384 */

static phasor over_16384(phasor p) { return (phasor){rounded(p.re, 14), rounded(p.im, 14)}; }

/* x[0] + f x[1] + g x[2]: three times the positive sequence with a and its conjugate, the negative one with them changed about. */
static phasor sequence(const phasor *x, phasor f, phasor g) {
  phasor first = {16384 * x[0].re, 16384 * x[0].im};
  return over_16384(plus(first, plus(times(f, x[1]), times(g, x[2]))));
}

/* Whether 3I2 reaches its pickup, and the direction, which is none where it does not. */
typedef struct {
  int picked_up, way;
} negative_sequence;

static negative_sequence direction(const uint8_t *r, const phasor *v, const phasor *i) {
  phasor v2 = sequence(v, A2, A), i2 = sequence(i, A2, A), d = {unsigned_at(r, 16), unsigned_at(r, 18)};
  int64_t square = dot(i2, i2), pickup = unsigned_at(r, 24);
  if (square < pickup * pickup) return (negative_sequence){0, NONE};
  int64_t torque = dot(v2, times(d, i2));
  if (torque < signed_at(r, 20) * square) return (negative_sequence){1, FORWARD};
  return (negative_sequence){1, torque > signed_at(r, 22) * square ? REVERSE : NONE};
}

/* Mho loops, from the same */

static phasor residual(const phasor *i) { return plus(plus(i[0], i[1]), i[2]); } /* Ir */

/* The k product, which the ground loops add to the current of their phase. */
static phasor compensation(const uint8_t *r, phasor ir) {
  phasor exact = times((phasor){unsigned_at(r, 12), signed_at(r, 14)}, ir);
  return (phasor){rounded_thousandths(exact.re), rounded_thousandths(exact.im)};
}

/* The loops that assert in each zone: AG, BG, CG from bit 0 on, AB, BC, CA from bit 3 on. */
typedef struct {
  int first, second;
} zones;

/* What they are set to. The second reach is 0 where its zone is off. */
typedef struct {
  phasor z;
  int64_t reach, second_reach;
} mho;

static int asserts(int64_t n, int64_t m, int64_t reach) { return m > 0 && 1000000 * n <= reach * m; }

/* One loop: both zones have the same n and m. */
static void put_loop(zones *to, size_t bit, const mho *set, phasor v, phasor i, phasor vp) {
  int64_t n = dot(v, vp), m = dot(times(set->z, i), vp);
  to->first |= asserts(n, m, set->reach) << bit;
  to->second |= (set->second_reach != 0 && asserts(n, m, set->second_reach)) << bit;
}

static zones loops(const uint8_t *r, const phasor *v, const phasor *i) {
  mho set = {{unsigned_at(r, 6), unsigned_at(r, 8)}, unsigned_at(r, 10), unsigned_at(r, 26)};
  phasor p = sequence(v, A, A2), ap = over_16384(times(A, p)), a2p = over_16384(times(A2, p));
  phasor k_product = compensation(r, residual(i));
  const phasor ground[PHASES] = {p, a2p, ap}, phase[PHASES] = {ap, p, a2p};
  zones bits = {0, 0};
  for (size_t x = 0; x < PHASES; x++) {
    size_t y = (x + 1) % PHASES;
    put_loop(&bits, x, &set, v[x], plus(i[x], k_product), ground[x]);
    put_loop(&bits, PHASES + x, &set, minus(v[x], v[y]), minus(i[x], i[y]), minus_j(phase[x]));
  }
  return bits;
}

/* Quadrilaterals, from the same, for a fault ahead */

/* Those that operate: A, B, C from bit 0 on. Im[(r Z I - 1000000 V) Ir*] is minus (r q + 1000000 Im[V Ir*]). */
static int quadrilaterals(const uint8_t *r, const phasor *v, const phasor *i) {
  int64_t reach = unsigned_at(r, 10), resistive_reach = unsigned_at(r, 28);
  phasor z = {unsigned_at(r, 6), unsigned_at(r, 8)}, ir = residual(i), k_product = compensation(r, ir);
  int bits = 0;
  for (size_t x = 0; x < PHASES; x++) {
    phasor drop = times(z, plus(i[x], k_product));
    int64_t n = cross(v[x], drop), q = cross(ir, drop);
    int below_top = reach * q + 1000000 * cross(v[x], ir) < 0;
    int between_sides = q != 0 && 10 * magnitude(n) <= resistive_reach * magnitude(q);
    bits |= (below_top & between_sides) << x;
  }
  return bits;
}

/* Percentage differential */

/* The floor of the root. */
#ifdef DOUBLE_ROOT
static uint64_t root_down(uint64_t x) { return (uint64_t)(int64_t)__builtin_sqrt((double)(int64_t)x); }
#elif defined QUARTER_ROOT
static uint64_t root_down(uint64_t x) {
  if (x == 0) return 0;
  uint64_t doubled = 2 * root_down(x / 4);
  return (doubled + 1) * (doubled + 1) <= x ? doubled + 1 : doubled;
}
#else
static uint64_t root_down(uint64_t x) {
  if (x == 0) return 0;
  uint64_t root = 0, bit = (uint64_t)1 << ((63 - __builtin_clzll(x)) & ~1); /* the highest power of four that is not above x */
  do {
    uint64_t tried = root + bit;
    root >>= 1;
    if (x >= tried) {
      x -= tried;
      root += bit;
    }
    bit >>= 2;
  } while (bit != 0);
  return root;
}
#endif

/* The smallest whole number whose square is at least x. */
static uint64_t root_up(uint64_t x) {
  uint64_t root = root_down(x);
  return root * root < x ? root + 1 : root;
}

static int operates(uint64_t slope, uint64_t pickup, uint64_t square, uint64_t restraint) {
  uint64_t restrained = slope * restraint;
  return square >= pickup * pickup && 40960000 * square > restrained * restrained;
}

/* The slope at which a phase changes: the largest at which it operates, or 0 if there is none. It is 99 at most, since at 100 no phase
** operates, so seven bits are tried, the highest first. */
static uint64_t slope_of_change(uint64_t pickup, uint64_t square, uint64_t restraint) {
  uint64_t c = 0;
  for (uint64_t bit = 64; bit > 0; bit /= 2)
    if (operates(c + bit, pickup, square, restraint)) c += bit;
  return c;
}

/* The phases that operate. To the decision go the slopes of change, a byte each, and the restraints U and the magnitudes of the
** differential, a word each. */
static int differential(const uint8_t *r, phasor currents[PHASES][MOST_ENDS], uint8_t *changes, uint8_t *restraints, uint8_t *magnitudes) {
  size_t ends = ends_of(r);
  uint64_t slope = (uint64_t)unsigned_at(r, 2), pickup = (uint64_t)unsigned_at(r, 4);
  int bits = 0;
  for (size_t p = 0; p < PHASES; p++) {
    phasor sum = {0, 0};
    uint64_t restraint = 0;
    for (size_t e = 0; e < ends; e++) {
      phasor i = currents[p][e];
      sum = plus(sum, i);
      restraint += root_up(4096 * (uint64_t)dot(i, i));
    }
    uint64_t square = (uint64_t)dot(sum, sum);
    if (operates(slope, pickup, square, restraint)) bits |= 1 << p;
    changes[p] = (uint8_t)slope_of_change(pickup, square, restraint);
    put_word(restraints + 4 * p, restraint);
    put_word(magnitudes + 4 * p, root_down(4096 * square));
  }
  return bits;
}

/* Decision */

enum { PHASE_LOOPS = 8 + 16 + 32 }; /* AB, BC and CA */

/* Whether distance trips. By direction any loop of the first zone will do; a balanced fault has too little 3I2 for one, and there all three
** phase loops have to assert. */
static int distance(negative_sequence found, int first_zone) {
  return found.picked_up ? found.way == FORWARD && first_zone != 0 : (first_zone & PHASE_LOOPS) == PHASE_LOOPS;
}

/* The decision on a window of which no sample is missing. */
static void decision(const uint8_t *r, const int16_t *window, uint8_t *out) {
  size_t ends = ends_of(r), channels = channels_of(r);
  phasor v[PHASES], local[PHASES], currents[PHASES][MOST_ENDS];
  for (size_t p = 0; p < PHASES; p++) {
    v[p] = measure(window, channels, p);
    for (size_t e = 0; e < ends; e++) currents[p][e] = measure(window, channels, PHASES + PHASES * e + p);
    local[p] = currents[p][0];
  }
  int phases = differential(r, currents, out + 5, out + 8, out + 20);
  negative_sequence found = direction(r, v, local);
  zones asserting = loops(r, v, local);
  int resistive = found.way == FORWARD && unsigned_at(r, 28) != 0 ? quadrilaterals(r, v, local) : 0;
  out[0] = phases != 0 || distance(found, asserting.first) || resistive != 0;
  out[1] = (uint8_t)(phases | resistive << PHASES);
  out[2] = (uint8_t)asserting.first;
  out[3] = (uint8_t)found.way;
  out[4] = (uint8_t)asserting.second;
}

/* The answer of decide and of feed on a window of samples, upper byte first. It is written out in both, which at -O3 makes the
** faster feed. */
static inline __attribute__((always_inline)) uint64_t decided(const uint8_t *r, const uint8_t *samples, uint8_t *out) {
  size_t numbers = FRAMES * channels_of(r);
  int16_t window[LONGEST];
  for (size_t k = 0; k < numbers; k++) {
    window[k] = (int16_t)signed_at(samples, 2 * k);
    if (window[k] == -32768) return refused(MISSING, k);
  }
  decision(r, window, out);
  return DONE;
}

static uint64_t decide(const uint8_t *state, size_t state_len, const uint8_t *samples, size_t samples_len, uint8_t *out, size_t out_len) {
  if (state_len != STATE) return NO_RELAY;
  if (!good(state)) return NO_SETTINGS;
  if (samples_len != 2 * FRAMES * channels_of(state)) return WINDOW_LENGTH;
  if (out_len < DECISION) return NO_ROOM;
  return decided(state, samples, out);
}

/* Feeding. The frame is kept as the newest, and the oldest goes; of a line with fewer ends the numbers behind the 16 frames stay. */

static uint16_t counted(int64_t count) { return (uint16_t)(count < FRAMES ? count + 1 : FRAMES); }

#ifdef OWN_NUMBERS
/* The same 738 bytes with the count and the numbers in the processor's own order, aligned: only the new frame has to be decoded. */
typedef struct __attribute__((may_alias)) {
  uint8_t records[COUNT];
  uint16_t count;
  int16_t numbers[LONGEST];
} relay;

static uint64_t fed(uint8_t *state, const uint8_t *frame, uint8_t *out) {
  relay *own = (relay *)state;
  size_t channels = channels_of(state), numbers = FRAMES * channels, newest = numbers - channels;
  memmove(own->numbers, own->numbers + channels, newest * sizeof *own->numbers);
  for (size_t k = 0; k < channels; k++) own->numbers[newest + k] = (int16_t)signed_at(frame, 2 * k);
  own->count = counted(own->count);
  if (own->count < FRAMES) return TOO_FEW_FRAMES;
  for (size_t k = 0; k < numbers; k++)
    if (own->numbers[k] == -32768) return refused(MISSING, k);
  decision(state, own->numbers, out);
  return DONE;
}
#else
static uint64_t fed(uint8_t *state, const uint8_t *frame, uint8_t *out) {
  uint8_t *numbers = state + NUMBERS;
  size_t length = 2 * channels_of(state), newest = (FRAMES - 1) * length;
  memmove(numbers, numbers + length, newest);
  memcpy(numbers + newest, frame, length);
  uint16_t count = counted(unsigned_at(state, COUNT));
  state[COUNT] = 0;
  state[COUNT + 1] = (uint8_t)count;
  return count < FRAMES ? TOO_FEW_FRAMES : decided(state, numbers, out);
}
#endif

static uint64_t feed(uint8_t *state, size_t state_len, const uint8_t *frame, size_t frame_len, uint8_t *out, size_t out_len) {
  if (state_len != STATE) return NO_RELAY;
  if (!good(state)) return NO_SETTINGS;
  if (frame_len != 2 * channels_of(state)) return FRAME_LENGTH;
  if (out_len < DECISION) return NO_ROOM;
  return fed(state, frame, out);
}

/* Event files. A record is its number, its time, the samples of a frame and groups of 16 status channels, low byte first throughout. */

enum { FEWEST_ENDS = 2, MOST_STATUS = 96, BEFORE_SAMPLES = 8 };
static const uint64_t LAST_NUMBER = 4294967295;

/* The reader, as the library keeps it: AT_HELD is how many bytes of a record are in hand; time and frame are of the last whole one. */
enum { AT_ENDS, AT_STATUS, AT_ENDED, AT_HELD, AT_INDEX, AT_TIME = 8, AT_FRAME = 12, AT_HAND = 56, READER = 160 };

static uint32_t word_at(const uint8_t *bytes) {
  return (uint32_t)bytes[0] | (uint32_t)bytes[1] << 8 | (uint32_t)bytes[2] << 16 | (uint32_t)bytes[3] << 24;
}

static void put_low_word(uint8_t *bytes, uint32_t n) {
  bytes[0] = (uint8_t)n;
  bytes[1] = (uint8_t)(n >> 8);
  bytes[2] = (uint8_t)(n >> 16);
  bytes[3] = (uint8_t)(n >> 24);
}

/* Copies 16-bit numbers, the two bytes of each exchanged. */
static void turn(uint8_t *restrict to, const uint8_t *restrict from, size_t bytes) {
  for (size_t k = 0; k < bytes; k += 2) {
    to[k] = from[k + 1];
    to[k + 1] = from[k];
  }
}

static int good_ends(uint64_t ends) { return FEWEST_ENDS <= ends && ends <= MOST_ENDS; }
static int good_file(uint64_t ends, uint64_t status) { return good_ends(ends) && status <= MOST_STATUS; }
static size_t frame_bytes(size_t ends) { return 2 * (PHASES + PHASES * ends); }

static size_t record_bytes(const uint8_t *reader) {
  return BEFORE_SAMPLES + frame_bytes(reader[AT_ENDS]) + 2 * (((size_t)reader[AT_STATUS] + 15) / 16);
}

/* The refusal that ended the reading, or DONE while it goes on. */
static uint64_t ending(const uint8_t *reader) {
  uint8_t ended = reader[AT_ENDED];
  if (ended == INSIDE_RECORD || ended == OTHER_NUMBER) return refused(ended, word_at(reader + AT_INDEX));
  return ended == 0 && good_file(reader[AT_ENDS], reader[AT_STATUS]) && reader[AT_HELD] < record_bytes(reader) ? DONE : BAD_FILE;
}

static uint64_t events_open(uint8_t *reader, size_t reader_len, uint64_t ends, uint64_t status) {
  if (reader_len != READER) return NO_RELAY;
  memset(reader, 0, READER);
  if (!good_file(ends, status)) return BAD_FILE;
  reader[AT_ENDS] = (uint8_t)ends;
  reader[AT_STATUS] = (uint8_t)status;
  return DONE;
}

static uint64_t events_wanted(const uint8_t *reader, size_t reader_len) {
  return reader_len != READER || ending(reader) != DONE ? 0 : record_bytes(reader) - reader[AT_HELD];
}

/* Ends the reading, with this refusal of the record being read. */
static uint64_t ended_by(uint8_t *reader, uint8_t refusal) {
  reader[AT_ENDED] = refusal;
  return refused(refusal, word_at(reader + AT_INDEX));
}

static uint64_t events_read(uint8_t *state, size_t state_len, uint8_t *reader, size_t reader_len, const uint8_t *bytes, size_t bytes_len,
                            uint8_t *out, size_t out_len) {
  if (state_len != STATE || reader_len != READER) return NO_RELAY;
  uint64_t refusal = ending(reader);
  if (refusal != DONE) return refusal;
  const uint8_t *record = reader + AT_HAND;
  size_t whole = record_bytes(reader), held = reader[AT_HELD], taken = whole - held;
  if (bytes_len < taken) taken = bytes_len;
  memcpy(reader + AT_HAND + held, bytes, taken);
  held += taken;
  if (held >= 4 && word_at(record) != (uint64_t)word_at(reader + AT_INDEX) + 1) return ended_by(reader, OTHER_NUMBER);
  if (held < whole) {
    reader[AT_HELD] = (uint8_t)held;
    return DONE;
  }
  size_t frame = frame_bytes(reader[AT_ENDS]);
  reader[AT_HELD] = 0;
  memcpy(reader + AT_INDEX, record, 4);
  put_word(reader + AT_TIME, word_at(record + 4));
  turn(reader + AT_FRAME, record + BEFORE_SAMPLES, frame);
  return feed(state, state_len, reader + AT_FRAME, frame, out, out_len);
}

static uint64_t events_end(uint8_t *reader, size_t reader_len) {
  if (reader_len != READER) return NO_RELAY;
  uint64_t refusal = ending(reader);
  return refusal != DONE || reader[AT_HELD] == 0 ? refusal : ended_by(reader, INSIDE_RECORD);
}

static uint64_t events_write(uint64_t ends, uint64_t written, uint32_t time, const uint8_t *frame, size_t frame_len, uint8_t *out,
                             size_t out_len) {
  if (!good_ends(ends)) return BAD_FILE;
  if (frame_len != frame_bytes(ends)) return FRAME_LENGTH;
  if (out_len < BEFORE_SAMPLES + frame_len) return NO_ROOM;
  if (written >= LAST_NUMBER) return OTHER_NUMBER;
  put_low_word(out, (uint32_t)written + 1);
  put_low_word(out + 4, time);
  turn(out + BEFORE_SAMPLES, frame, frame_len);
  return DONE;
}

const all_calls PLAIN = {propose, confirm, read_back, decide, feed, events_open, events_wanted, events_read, events_end, events_write};
