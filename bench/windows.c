/* The calls that are compared and counted: records, and windows made of whole numbers from the cosine table, so that they are the same
** everywhere. */
#include <string.h>

#include "event_calls.h"
#include "windows.h"

enum { FRAMES = 16, PHASES = 3, LARGEST = 32767, SCALE = 16384 };

static const int COSINES[FRAMES] = {16384,  15137,  11585,  6270,  0, -6270, -11585, -15137,
                                    -16384, -15137, -11585, -6270, 0, 6270,  11585,  15137};

static int sine(int n) { return COSINES[(n + 12) % FRAMES]; }

/* Drawn numbers, the same in every run */

static uint32_t draw;

int drawn(int low, int high) {
  draw = draw * 1664525u + 1013904223u;
  return low + (int)((draw >> 8) % (uint32_t)(high - low + 1));
}

/* Records */

enum { DOCUMENTS, LARGEST_SETTINGS, SMALLEST_SETTINGS, RECORDS };
enum { D_REAL = 7, D_IMAGINARY, FORWARD_LIMIT, REVERSE_LIMIT, FIELDS = 12 }; /* after the ends, up to the second reach */

static const int SETTINGS[RECORDS][FIELDS] = {
    [DOCUMENTS] = {15, 100, 0, 1000, 850, 667, 0, 0, 1000, -300, 300, 50},
    [LARGEST_SETTINGS] = {100, 42000, 20000, 20000, 2000, 1000, 500, 1000, 44, 19999, 20000, 42000},
    [SMALLEST_SETTINGS] = {1, 1, 0, 1, 1, 0, -500, 0, 999, -20000, -19999, 1},
};
static const int RANGES[FIELDS][2] = {{1, 100},    {1, 42000}, {0, 20000}, {1, 20000},      {1, 2000},       {0, 1000},
                                      {-500, 500}, {0, 1000},  {0, 1000},  {-20000, 19999}, {-19999, 20000}, {1, 42000}};

static void put_record(uint8_t *record, int ends, const int *settings) {
  memset(record, 0, RECORD);
  put(record, 0, ends);
  for (int field = 0; field < FIELDS; field++) put(record, 2 + 2 * field, settings[field]);
}

void good_record(uint8_t *record, int ends) { put_record(record, ends, SETTINGS[DOCUMENTS]); }

/* The second zone and the quadrilaterals */

enum { USUAL_SECOND_REACH = 1200, USUAL_RESISTIVE_REACH = 20 };

const char *const zone_names[ZONES] = {"off", "on"};

void turn_on_second_zone(lent *window) { put(window->state, GORSEPETAL_AT_SECOND_REACH, USUAL_SECOND_REACH); }
void turn_on_quadrilaterals(lent *window) { put(window->state, GORSEPETAL_AT_RESISTIVE_REACH, USUAL_RESISTIVE_REACH); }

/* Nothing is drawn for them, so that the windows are the same with them on and off. */
static void put_nth_added_reaches(uint8_t *record, long n) {
  int first = record[GORSEPETAL_AT_REACH] << 8 | record[GORSEPETAL_AT_REACH + 1];
  const int second[] = {first, LARGEST_REACH, (first + LARGEST_REACH) / 2};
  const int resistive[] = {USUAL_RESISTIVE_REACH, 1 + (int)(n % LARGEST_RESISTIVE_REACH), 1, LARGEST_RESISTIVE_REACH};
  put(record, GORSEPETAL_AT_SECOND_REACH, second[n % 3]);
  put(record, GORSEPETAL_AT_RESISTIVE_REACH, resistive[n % 4]);
}

/* Each field anywhere in its range; D is put on its circle and the reverse limit above the forward one. */
static void put_drawn_record(uint8_t *record, int ends) {
  int settings[FIELDS], imaginary = 0;
  for (int field = 0; field < FIELDS; field++) settings[field] = drawn(RANGES[field][0], RANGES[field][1]);
  while (settings[D_REAL] * settings[D_REAL] + imaginary * imaginary < 998000) imaginary++;
  settings[D_IMAGINARY] = imaginary;
  if (settings[REVERSE_LIMIT] <= settings[FORWARD_LIMIT]) settings[REVERSE_LIMIT] = settings[FORWARD_LIMIT] + 1;
  put_record(record, ends, settings);
}

/* Windows */

int ends_of(const lent *window) { return window->state[1]; }
static int channels_of(const lent *window) { return PHASES + PHASES * ends_of(window); }
static int current(int end, int phase) { return PHASES * end + phase; } /* the channel; ends count from 1 */

int last_sample(const lent *window) { return FRAMES * channels_of(window) - 1; }
void miss(lent *window, int index) { put(window->in, 2 * index, -32768); }

static void put_sample(lent *window, int frame, int channel, int number) {
  put(window->in, 2 * (channels_of(window) * frame + channel), number);
}

void lend_fresh(lent *to) {
  memset(to, 0, sizeof *to);
  memset(to->out, 0xA5, sizeof to->out);
  memset(to->state + STATE, 0xA5, BEYOND);
  memset(to->reader + READER, 0xA5, BEYOND);
  to->state_len = STATE;
  to->reader_len = READER;
  to->out_len = DECISION;
}

/* Decide with no samples yet, by the record that is in force. */
static void lend_window(lent *to) { to->in_len = (size_t)GORSEPETAL_WINDOW_BYTES(ends_of(to)); }

/* A steady wave with this phasor. */
static void wave(lent *to, int channel, int re, int im) {
  for (int n = 0; n < FRAMES; n++) put_sample(to, n, channel, (re * COSINES[n] - im * sine(n)) / SCALE);
}

/* The same in three phases from a channel on: b a third of a cycle after a, and c after b. */
static void balanced(lent *to, int channel, int re, int im) {
  wave(to, channel, re, im);
  wave(to, channel + 1, (-8192 * re + 14189 * im) / SCALE, (-14189 * re - 8192 * im) / SCALE);
  wave(to, channel + 2, (-8192 * re - 14189 * im) / SCALE, (14189 * re - 8192 * im) / SCALE);
}

void lend_dead(lent *to, int ends) {
  lend_fresh(to);
  good_record(to->state, ends);
  lend_window(to);
}

/* 10000 counts of voltage and 2000 of current, peak; the current lags by a sixteenth of a cycle. */
void lend_quiet(lent *to, int ends) {
  lend_dead(to, ends);
  balanced(to, 0, 10000, 0);
  balanced(to, current(1, 0), 1848, -765);
  for (int end = 2; end <= ends; end++) balanced(to, current(end, 0), -1848 / (ends - 1), 765 / (ends - 1));
}

/* Phase a: a tenth of the voltage is left, and 20000 counts come in from every end, a quarter of a cycle late. */
void lend_fault(lent *to, int ends) {
  lend_quiet(to, ends);
  wave(to, 0, 1000, 0);
  for (int end = 1; end <= ends; end++) wave(to, current(end, 0), 0, -20000);
}

/* 5000 counts come in from every end, a quarter of a cycle late: 30000 of six ends. */
void lend_three(lent *to, int ends) {
  lend_dead(to, ends);
  balanced(to, 0, 1000, 0);
  for (int end = 1; end <= ends; end++) balanced(to, current(end, 0), 0, -5000);
}

/* Exactly this phasor, its parts up to 4095: one sample makes each of them, as in document 01's hand checks. */
static void put_phasor(lent *to, int channel, int re, int im) {
  put_sample(to, 0, channel, 8 * re);
  put_sample(to, 4, channel, -8 * im);
}

/* A current of a phase that flows in at end 1 and out at end 2. */
static void through(lent *to, int phase, int re, int im) {
  put_phasor(to, current(1, phase), re, im);
  put_phasor(to, current(2, phase), -re, -im);
}

void lend_change(lent *to, int ends, int c) {
  const int half[PHASES] = {5 + 10 * c, 10 + 10 * c, 1 + 10 * c}; /* of the differential, in counts */
  lend_dead(to, ends);
  for (int phase = 0; phase < PHASES; phase++) {
    put_phasor(to, current(1, phase), 1000 + half[phase], 0);
    put_phasor(to, current(ends, phase), half[phase] - 1000, 0);
  }
}

/* With phase 0, Va is 500, and Ia of -1000 j and Ib of -500 j flow through. */
void lend_edge(lent *to, int ends, int phase) {
  lend_dead(to, ends);
  put_phasor(to, phase, 500, 0);
  through(to, phase, 0, -1000);
  through(to, (phase + 1) % PHASES, 0, -500);
}

/* The currents of a fault ahead, a quarter of a cycle behind voltages of 500 each. */
static const int AHEAD[PHASES][2] = {{0, -1000}, {-866, 500}, {866, 500}};

/* The voltages; the sign of those currents; and a zero sequence beside them, times j. */
static const struct {
  int v[PHASES][2], sign, zero_sequence;
} BALANCED[BALANCED_FAULTS] = {
    [HALFWAY] = {{{500, 0}, {-250, -433}, {-250, 433}}, 1, 0},
    [LOWER_VA] = {{{480, 0}, {-250, -433}, {-250, 433}}, 1, 0},
    [HIGHER_VA] = {{{520, 0}, {-250, -433}, {-250, 433}}, 1, 0},
    [PHASE_LOOPS_ALONE] = {{{-1200, 0}, {-1950, -433}, {-1950, 433}}, 1, 360},
    [ALL_BUT_AB] = {{{818, 183}, {-568, -617}, {-150, 260}}, 1, 0},
    [ALL_BUT_BC] = {{{300, 0}, {-250, -800}, {-250, 800}}, 1, 0},
    [ALL_BUT_CA] = {{{818, -183}, {-150, -260}, {-568, 617}}, 1, 0},
    [BEHIND] = {{{500, 0}, {-250, -433}, {-250, 433}}, -1, 0},
    [ONE_COUNT_LEFT] = {{{1, 0}, {0, -1}, {-1, 1}}, 1, 0},
};

void lend_balanced(lent *to, int ends, balanced_fault fault, int i2) {
  lend_dead(to, ends);
  for (int phase = 0; phase < PHASES; phase++) {
    const int *v = BALANCED[fault].v[phase], sign = BALANCED[fault].sign;
    int re = sign * AHEAD[phase][0], im = sign * AHEAD[phase][1] + BALANCED[fault].zero_sequence;
    put_phasor(to, phase, v[0], v[1]);
    through(to, phase, re, phase == 0 ? im - i2 : im);
  }
}

/* The record for them: its Z is j 1000, and k = 500. So with Ir = (0, -1000) and no other current, Z I of the phase is (1500000, 0): the
** top is at Re V = 1200, and the sides are at |Im V| = 1000. Of the other phases the top is at 400. */
static void lend_resistive_line(lent *to, int ends) {
  lend_dead(to, ends);
  put(to->state, GORSEPETAL_AT_REACH, 800);
  put(to->state, GORSEPETAL_AT_K_REAL, 500);
  put(to->state, GORSEPETAL_AT_FORWARD_LIMIT, 19999);
  put(to->state, GORSEPETAL_AT_REVERSE_LIMIT, 20000);
  put(to->state, GORSEPETAL_AT_RESISTIVE_REACH, 10);
}

/* Of the phase the voltage; the two other voltages, which are real; and the currents of the phase and of the next one, times j. */
static const struct {
  int v[2], others, i, next;
} RESISTIVE[RESISTIVE_FAULTS] = {
    [BELOW_TOP] = {{1199, 0}, 4000, -1000, 0},
    [ON_TOP] = {{1200, 0}, 4000, -1000, 0},
    [ON_SIDE] = {{600, 1000}, 4000, -1000, 0},
    [ON_OTHER_SIDE] = {{600, -1000}, 4000, -1000, 0},
    [BEYOND_SIDE] = {{600, 1001}, 4000, -1000, 0},
    [BEYOND_OTHER_SIDE] = {{600, -1001}, 4000, -1000, 0},
    [NO_LOOP_CURRENT] = {{-1000, 0}, 4000, 1000, -3000}, /* Ir is -2000, and E takes the phase's current away */
    [TURNED_ROUND] = {{401, 0}, -3000, -1000, 2000},     /* I is -500, and the top at 400 */
    [TURNED_ROUND_TOP] = {{400, 0}, -3000, -1000, 2000},
    [NO_RESIDUAL] = {{0, 0}, 4000, -1000, 1000},
    [NO_POLARISING] = {{1000, 0}, 1000, -1000, 0},
};

void lend_resistive(lent *to, int ends, resistive_fault fault, int phase) {
  int next = (phase + 1) % PHASES, last = (phase + 2) % PHASES;
  lend_resistive_line(to, ends);
  put_phasor(to, phase, RESISTIVE[fault].v[0], RESISTIVE[fault].v[1]);
  put_phasor(to, next, RESISTIVE[fault].others, 0);
  put_phasor(to, last, RESISTIVE[fault].others, 0);
  through(to, phase, 0, RESISTIVE[fault].i);
  through(to, next, 0, RESISTIVE[fault].next);
}

/* With E = (0, -1050) the tops are at Re V = 1160, 1400 and 1640. Inside there is no voltage, outside 4000 counts. 3I2 is 520 counts. */
void lend_quadrilaterals(lent *to, int ends, int set) {
  lend_resistive_line(to, ends);
  for (int phase = 0; phase < PHASES; phase++) {
    put_phasor(to, phase, set >> phase & 1 ? 0 : 4000, 0);
    through(to, phase, 0, 300 * phase - 1000);
  }
}

/* Of a feed that is lent: where the number with this index in its 16 frames stands. The oldest frame in the state is not among them. */
static uint8_t *fed_number(lent *feed, int index) {
  int channels = channels_of(feed), newest = (FRAMES - 1) * channels;
  return index < newest ? feed->state + GORSEPETAL_STATE_AT_NUMBERS + 2 * (channels + index) : feed->in + 2 * (index - newest);
}

void feed_newest(lent *window) {
  lent feed = *window;
  feed.in_len = (size_t)GORSEPETAL_FRAME_BYTES(ends_of(window));
  memset(feed.in, 0, sizeof feed.in);
  put(feed.state, GORSEPETAL_STATE_AT_COUNT, FRAMES - 1);
  for (int index = 0; index <= last_sample(window); index++) memcpy(fed_number(&feed, index), window->in + 2 * index, 2);
  *window = feed;
}

/* Every channel alike, or one sample of 1 and nothing else. The square waves have the largest components there are. */
enum { COSINE_SQUARE, SINE_SQUARE, A_SINGLE_ONE, ALTERNATING, HIGHEST, LOWEST, ZEROS, EXTREMES };

static int extreme_sample(int kind, int frame, int channel) {
  if (kind == COSINE_SQUARE) return COSINES[frame] >= 0 ? LARGEST : -LARGEST;
  if (kind == SINE_SQUARE) return sine(frame) >= 0 ? LARGEST : -LARGEST;
  if (kind == A_SINGLE_ONE) return frame == 0 && channel == current(1, 0);
  if (kind == ALTERNATING) return frame % 2 == 0 ? LARGEST : -LARGEST;
  if (kind == ZEROS) return 0;
  return kind == HIGHEST ? LARGEST : -LARGEST;
}

static void put_extreme_channel(lent *to, int channel, int kind) {
  for (int frame = 0; frame < FRAMES; frame++) put_sample(to, frame, channel, extreme_sample(kind, frame, channel));
}

void lend_full_scale(lent *to, int ends) {
  lend_resistive_line(to, ends);
  for (int channel = 0; channel < channels_of(to); channel++) put_extreme_channel(to, channel, COSINE_SQUARE);
  for (int end = 1; end <= ends; end++)
    for (int n = 0; n < FRAMES; n++) put_sample(to, n, current(end, 2), COSINES[n] >= 0 ? LARGEST - 767 : 767 - LARGEST);
}

/* A steady wave, a square wave or noise, of any size from full scale downward. */
static void put_drawn_channel(lent *to, int channel) {
  int steady = drawn(0, 2) == 0, noise = drawn(0, 1), late = drawn(0, FRAMES - 1), divisor = 1 << drawn(0, 15);
  int re = drawn(-16000, 16000) / divisor, im = drawn(-16000, 16000) / divisor;
  for (int n = 0; n < FRAMES; n++) {
    int square = COSINES[(n + late) % FRAMES] >= 0 ? LARGEST : -LARGEST;
    put_sample(to, n, channel, (noise ? drawn(-LARGEST, LARGEST) : square) / divisor);
  }
  if (steady) wave(to, channel, re, im);
}

/* The sequence */

static int ends_of_nth(long n) { return FEWEST_ENDS + (int)(n % (MOST_ENDS - FEWEST_ENDS + 1)); }
static long turn_of_nth(long n) { return n / (MOST_ENDS - FEWEST_ENDS + 1); } /* in a turn every number of ends has its call */
static int extreme(long n) { return turn_of_nth(n) < EXTREMES * RECORDS; }

static void put_nth_record(uint8_t *record, long n) {
  if (extreme(n))
    put_record(record, ends_of_nth(n), SETTINGS[turn_of_nth(n) % RECORDS]);
  else
    put_drawn_record(record, ends_of_nth(n));
}

static void put_nth_window(lent *to, long n) {
  lend_window(to);
  for (int channel = 0; channel < channels_of(to); channel++)
    if (extreme(n))
      put_extreme_channel(to, channel, (int)(turn_of_nth(n) / RECORDS));
    else
      put_drawn_channel(to, channel);
}

void lend_nth(lent *to, which_call call, long n, added_zones zone) {
  if (call >= OPEN) {
    lend_nth_event(to, call, n, zone);
    return;
  }
  uint8_t record[RECORD];
  draw = (uint32_t)n * 2654435761u;
  put_nth_record(record, n);
  if (zone == ON) put_nth_added_reaches(record, n);
  lend_fresh(to);
  memset(to->state + GORSEPETAL_STATE_AT_COUNT, 0x5B, STATE - GORSEPETAL_STATE_AT_COUNT); /* a window to be left alone, or emptied */
  if (call == PROPOSE || call == CONFIRM) {
    memcpy(to->in, record, RECORD);
    to->in_len = RECORD;
  }
  if (call == CONFIRM) memcpy(to->state + RECORD, record, RECORD);
  if (call == READ_BACK || call == DECIDE || call == FEED) memcpy(to->state, record, RECORD);
  if (call == DECIDE || call == FEED) put_nth_window(to, n);
  if (call == FEED) feed_newest(to);
}

void spoil(lent *slices, which_call call) {
  if (call >= OPEN) {
    spoil_event(slices, call);
    return;
  }
  if (call == DECIDE || call == FEED) {
    int index = drawn(0, last_sample(slices));
    put(call == DECIDE ? slices->in + 2 * index : fed_number(slices, index), 0, GORSEPETAL_MISSING);
    return;
  }
  uint8_t *record = call == READ_BACK ? slices->state : slices->in;
  int at = drawn(0, RECORD - 1);
  record[at] ^= (uint8_t)drawn(1, 255);
}
