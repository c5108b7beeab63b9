/* The paper mill's line frame by frame, for the examples in C: its settings entered, its load and its fault as waves, and what is expected
** of the relay. */
#ifndef MILL_FAULT_H
#define MILL_FAULT_H
#include "mill.h"

/* Two entries, each in a buffer filled anew. The confirmation empties the window: no decision for the next 15 frames. */
static uint64_t enter_settings(uint8_t relay[GORSEPETAL_STATE_LENGTH]) {
  uint8_t first[GORSEPETAL_RECORD_LENGTH], second[GORSEPETAL_RECORD_LENGTH];
  fill(first, 15);
  fill(second, 15);
  uint64_t answer = gorsepetal_propose(relay, GORSEPETAL_STATE_LENGTH, first, sizeof first);
  return answer == GORSEPETAL_DONE ? gorsepetal_confirm(relay, GORSEPETAL_STATE_LENGTH, second, sizeof second) : answer;
}

/* ---- The line ---- */

/* Of each channel the phasor, in counts: Va, Vb, Vc; Ia, Ib, Ic of end 1; the same of end 2. The load is 300 counts, in at end 1 and out at
** end 2. The fault, of phase a to ground, halves Va and adds 1000 counts in at end 1, of which 400 go out at end 2. */
typedef struct { int re, im; } Phasor;
static const Phasor LOAD[CHANNELS] = {{2000, 0}, {-1000, -1732}, {-1000, 1732}, {300, 0}, {-150, -260}, {-150, 260},
                                      {-300, 0}, {150, 260}, {150, -260}};
static const Phasor FAULT[CHANNELS] = {{1000, 0}, {-1000, -1732}, {-1000, 1732}, {300, -1000}, {-150, -260}, {-150, 260},
                                       {-300, 400}, {150, 260}, {150, -260}};

/* The frame of a steady wave: re cos - im sin, sixteen frames a cycle. */
static void sample(const Phasor *line, int n, uint8_t frame[FRAME]) {
  static const int COSINES[] = {10000, 9239, 7071, 3827, 0, -3827, -7071, -9239, -10000, -9239, -7071, -3827, 0, 3827, 7071, 9239};
  int cosine = COSINES[n % 16], sine = COSINES[(n + 12) % 16];
  for (int c = 0; c < CHANNELS; c++) {
    int x = line[c].re * cosine - line[c].im * sine;
    put(frame, 2 * c, (x + (x < 0 ? -5000 : 5000)) / 10000);
  }
}

/* ---- What is expected ---- */

enum { LEFT_OPEN = -1 };
typedef struct {
  const char *what;
  int last;              /* the frame with which it ends */
  const Phasor *line;
  int entered, missing;  /* before its first frame the settings are entered; in its first frame Ib of end 2 is missing */
  uint64_t number;       /* of each answer, and the first four bytes of the decision */
  int trip, diff, mho, dir;
} Stretch;

static int as_expected(const Stretch *s, int place, uint64_t answer, const uint8_t *decision) {
  if (answer != 256 * (uint64_t)place + s->number) return 0;
  return s->number != GORSEPETAL_DONE ||
         (decision[GORSEPETAL_DECISION_AT_TRIP] == s->trip && decision[GORSEPETAL_DECISION_AT_PHASES] == s->diff &&
          (s->mho == LEFT_OPEN || decision[GORSEPETAL_DECISION_AT_LOOPS] == s->mho) &&
          (s->dir == LEFT_OPEN || decision[GORSEPETAL_DECISION_AT_DIRECTION] == s->dir));
}

#endif
