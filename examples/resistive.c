/*
** A cable owner's question: up to which resistance does the relay see a fault to ground? The line is the one that the manual works out,
** here with two ends. Phase a has a fault to ground, of more and more ohms. A table shows whether its circle sees it, and which
** quadrilaterals do at some resistive reaches. Then: at how many ohms each of them stops, what the other end's current does to that, and
** what has to be asked so that no trip on a fault beyond the line is passed on. What is expected is worked out from the network, in ohms;
** the program ends with 1 if the relay answers otherwise. Run it with: sh examples/run_resistive
**
** Left out of the model: load, the line's capacitance, the decaying direct current of a fault, transformer errors.
*/
#include <stdio.h>

#include "network.h"

enum { ENDS = 2, CHANNELS = GORSEPETAL_CHANNELS(ENDS), WINDOW = GORSEPETAL_WINDOW_BYTES(ENDS), PHASES = 3 };

static int faults;

static void expect(int as_expected) {
  if (as_expected) return;
  printf("  NOT AS EXPECTED\n");
  faults++;
}

/* ---- The network, in secondary volts, amperes and ohms ---- */

#define E 57.7 /* volts of each source, phase to ground, effective; both are in phase, so there is no load */
static const Complex LINE[] = {{0.8, 4.0}, {0.8, 4.0}, {2.0, 11.6}}; /* by sequence */
static const Complex SOURCE = {0, 0.9};                              /* behind either end, in each sequence */

/* A fault of phase a to ground: its place in parts of the line from end 1, its ohms, and whether end 2 feeds it too. Above 1 it lies beyond
** end 2, on a line of the same kind. */
typedef struct { double place, ohm; int fed_from_both; } Fault;

/* What there is to measure: the voltages of end 1, and the currents into the line of both ends. */
typedef struct { Complex v[PHASES], i[ENDS][PHASES]; } Measured;

/* The three sequences in series, with three times the resistance. Each end's part of the current goes by its own impedance to the fault. */
static Measured solve(const Fault *f) {
  Complex near[3], seen[3], total = {3 * f->ohm, 0}, v[3], i[ENDS][3];
  Measured m;
  for (int s = 0; s < 3; s++) {
    near[s] = plus(SOURCE, scaled(LINE[s], f->place));
    seen[s] = f->fed_from_both ? parallel(near[s], plus(SOURCE, scaled(LINE[s], 1 - f->place))) : near[s];
    total = plus(total, seen[s]);
  }
  Complex into_fault = over((Complex){E, 0}, total);
  for (int s = 0; s < 3; s++) {
    i[0][s] = times(into_fault, over(seen[s], near[s]));
    i[1][s] = f->place > 1 ? scaled(i[0][s], -1) : minus(into_fault, i[0][s]);
    v[s] = minus((Complex){s == POSITIVE ? E : 0, 0}, times(i[0][s], SOURCE));
  }
  to_phases(v, m.v);
  for (int end = 0; end < ENDS; end++) to_phases(i[end], m.i[end]);
  return m;
}

/* ---- The relay ---- */

#define CV 100.0 /* counts per volt */
#define CI 200.0 /* counts per ampere */
#define REACH 0.8
static const int RESISTIVE_REACHES[] = {0, 2, 4, 8}; /* ohms; 0 is off */
enum { RELAYS = sizeof RESISTIVE_REACHES / sizeof RESISTIVE_REACHES[0] };
static uint8_t relays[RELAYS][GORSEPETAL_STATE_LENGTH]; /* all zero: fresh relays */

/* The manual's record, but for two ends, for a K of 100, at which no phase operates, so that distance alone trips, and for R. */
static void fill(uint8_t record[GORSEPETAL_RECORD_LENGTH], int ohms) {
  for (int at = 0; at < GORSEPETAL_RECORD_LENGTH; at++) record[at] = 0;
  put(record, GORSEPETAL_AT_ENDS, ENDS);
  put(record, GORSEPETAL_AT_SLOPE, 100);
  put(record, GORSEPETAL_AT_PICKUP, 57);
  put(record, GORSEPETAL_AT_REPLICA_REAL, 400);
  put(record, GORSEPETAL_AT_REPLICA_IMAGINARY, 2000);
  put(record, GORSEPETAL_AT_REACH, rounded(1000 * REACH));
  put(record, GORSEPETAL_AT_K_REAL, 628);
  put(record, GORSEPETAL_AT_K_IMAGINARY, 26);
  put(record, GORSEPETAL_AT_ANGLE_REAL, 196);
  put(record, GORSEPETAL_AT_ANGLE_IMAGINARY, 981);
  put(record, GORSEPETAL_AT_FORWARD_LIMIT, -225);
  put(record, GORSEPETAL_AT_REVERSE_LIMIT, 650);
  put(record, GORSEPETAL_AT_NEGATIVE_SEQUENCE_PICKUP, 28);
  put(record, GORSEPETAL_AT_RESISTIVE_REACH, rounded(10 * ohms * CV / CI)); /* tenths of a voltage count per current count */
}

/* Two entries, each in a buffer filled anew. */
static void enter(uint8_t *relay, int ohms) {
  uint8_t first[GORSEPETAL_RECORD_LENGTH], second[GORSEPETAL_RECORD_LENGTH];
  fill(first, ohms);
  fill(second, ohms);
  int r = 256 * first[GORSEPETAL_AT_RESISTIVE_REACH] + first[GORSEPETAL_AT_RESISTIVE_REACH + 1];
  uint64_t proposed = gorsepetal_propose(relay, GORSEPETAL_STATE_LENGTH, first, sizeof first);
  uint64_t confirmed = gorsepetal_confirm(relay, GORSEPETAL_STATE_LENGTH, second, sizeof second);
  printf("  %d ohm times %.0f is R = %d; propose answers %d, confirm %d\n", ohms, 10 * CV / CI, r, (int)proposed, (int)confirmed);
  expect(proposed == GORSEPETAL_DONE && confirmed == GORSEPETAL_DONE);
}

/* Sixteen frames of a steady wave; the decision stays until the next call. */
static const uint8_t *decide(const uint8_t *relay, const Measured *m) {
  static const Complex STEP = {0.92387953251128674, 0.38268343236508977}; /* a sixteenth of a turn */
  static uint8_t decision[GORSEPETAL_DECISION_LENGTH];
  uint8_t window[WINDOW];
  Complex turn = {ROOT2, 0}; /* from the effective value to the peak */
  for (int n = 0; n < GORSEPETAL_FRAMES; n++, turn = times(turn, STEP))
    for (int channel = 0; channel < CHANNELS; channel++) {
      int end = channel / 3 - 1; /* -1 for the voltages */
      Complex x = end < 0 ? scaled(m->v[channel], CV) : scaled(m->i[end][channel % 3], CI);
      put(window, 2 * (CHANNELS * n + channel), rounded(times(x, turn).re));
    }
  expect(gorsepetal_decide(relay, GORSEPETAL_STATE_LENGTH, window, sizeof window, decision, sizeof decision) == GORSEPETAL_DONE);
  return decision;
}

/* ---- What is expected, from the network ---- */

/* What the ground loop of a phase has for V and I. */
typedef struct { Complex v, z_i, residual; } Loop;
static Loop loop_of(const Measured *m, int phase) {
  Complex k = over(minus(LINE[ZERO], LINE[POSITIVE]), scaled(LINE[POSITIVE], 3)), sum = plus(m->i[0][0], plus(m->i[0][1], m->i[0][2]));
  return (Loop){m->v[phase], times(LINE[POSITIVE], plus(m->i[0][phase], times(k, sum))), sum};
}

/* The part of the line and the ohms at which it sees the fault: V = part x Z I + ohms x Ir. */
static double part_seen(Loop l) { return across(l.v, l.residual) / across(l.z_i, l.residual); }
static double ohms_seen(Loop l) { return across(l.v, l.z_i) / across(l.residual, l.z_i); }

/* The quadrilaterals that have to operate, as bits from 1 on: short of the reach, and not farther than R to either side. */
static int expected(const Measured *m, int ohms) {
  int bits = 0;
  for (int phase = 0; phase < PHASES; phase++) {
    Loop l = loop_of(m, phase);
    if (ohms != 0 && part_seen(l) < REACH && ohms_seen(l) <= ohms && -ohms_seen(l) <= ohms) bits |= 1 << phase;
  }
  return bits;
}

/* ---- What the owner is told ---- */

static int quadrilaterals(const uint8_t *decision) { return (decision[GORSEPETAL_DECISION_AT_PHASES] & GORSEPETAL_QUADRILATERALS) >> 3; }

static const char *letters(int bits) {
  static const char *const SETS[] = {"-", "A", "B", "A B", "C", "A C", "B C", "A B C"};
  return SETS[bits];
}

/* What is left of a hundredth is the arithmetic's: 0.00 has no sign. */
static double shown(double x) { return -0.005 < x && x < 0.005 ? 0 : x; }

static void print_head(void) {
  printf("   ohm   Ia, A   the loop of a sees it at   circle AG");
  for (int k = 0; k < RELAYS; k++) printf(RESISTIVE_REACHES[k] ? "   R %d ohm" : "   R off  ", RESISTIVE_REACHES[k]);
  printf("\n");
}

/* One fault by every relay: the circle of phase a is the same in all of them, and each of the quadrilaterals trips. */
static void print_fault(Fault f) {
  Measured m = solve(&f);
  Loop a = loop_of(&m, 0);
  printf("%6.2f%8.2f   %9.1f %% %7.2f ohm  ", f.ohm, size(m.i[0][0]), 100 * part_seen(a), shown(ohms_seen(a)));
  int circle = decide(relays[0], &m)[GORSEPETAL_DECISION_AT_LOOPS];
  printf("      %-9s", circle & GORSEPETAL_LOOP_AG ? "yes" : "no");
  for (int k = 0; k < RELAYS; k++) {
    const uint8_t *d = decide(relays[k], &m);
    printf(k < RELAYS - 1 ? "   %-7s" : "   %s", letters(quadrilaterals(d)));
    expect(quadrilaterals(d) == expected(&m, RESISTIVE_REACHES[k]) && d[GORSEPETAL_DECISION_AT_LOOPS] == circle &&
           d[GORSEPETAL_DECISION_AT_DIRECTION] == GORSEPETAL_DIRECTION_FORWARD &&
           d[GORSEPETAL_DECISION_AT_TRIP] == (circle != 0 || quadrilaterals(d) != 0));
  }
  printf("\n");
}

/* Whether the circle AG, or by a relay with a resistive reach its quadrilateral A, sees a fault of so many hundredths of an ohm. */
static int sees(int relay, Fault f, int hundredths) {
  f.ohm = hundredths / 100.0;
  Measured m = solve(&f);
  const uint8_t *d = decide(relays[relay], &m);
  return relay == 0 ? d[GORSEPETAL_DECISION_AT_LOOPS] & GORSEPETAL_LOOP_AG : quadrilaterals(d) & 1;
}

/* The most hundredths of an ohm with which it is seen; -1 if it is not even without. */
static int most_seen(int relay, Fault f) {
  int most = -1;
  for (int step = 1024; step > 0; step /= 2)
    if (sees(relay, f, most + step)) most += step;
  return most;
}

/* Of one place. `share` is what part of the current through the resistance comes from end 1: the quadrilateral stops at R times that. */
static void print_stops(double place, int fed_from_both, double share) {
  printf("%6.0f %%", 100 * place);
  for (int k = 0; k < RELAYS; k++) {
    int most = most_seen(k, (Fault){place, 0, fed_from_both});
    if (most < 0)
      printf("%12s", "never");
    else
      printf("%8.2f ohm", most / 100.0);
    double off = most / 100.0 - share * RESISTIVE_REACHES[k];
    if (k > 0) expect(place < REACH ? -0.05 < off && off < 0.05 : most < 0);
  }
  printf("\n");
}

static void print_stops_head(void) {
  printf("   place   circle AG");
  for (int k = 1; k < RELAYS; k++) printf("     R %d ohm", RESISTIVE_REACHES[k]);
  printf("\n");
}

/* ---- What the firmware asks before it passes a trip on: the part to copy ---- */

/* The differential of a phase in counts. */
static int differential(const uint8_t *decision, int phase) {
  const uint8_t *word = decision + GORSEPETAL_DECISION_AT_DIFFERENTIAL_A + 4 * phase;
  return (16777216 * word[0] + 65536 * word[1] + 256 * word[2] + word[3]) / 64;
}

/* A trip by quadrilaterals alone is passed on only if the phase of one of them has a differential. A fault on the line has one, whatever
** the slope; of a fault beyond it no phase has. */
static int passed_on(const uint8_t *decision, int pickup) {
  if (!decision[GORSEPETAL_DECISION_AT_TRIP]) return 0;
  if (decision[GORSEPETAL_DECISION_AT_PHASES] & GORSEPETAL_PHASES || decision[GORSEPETAL_DECISION_AT_LOOPS]) return 1;
  for (int phase = 0; phase < PHASES; phase++)
    if (quadrilaterals(decision) >> phase & 1 && differential(decision, phase) >= pickup) return 1;
  return 0;
}

static void print_passed_on(Fault f) {
  const int relay = 2, on_the_line = f.place < 1;
  Measured m = solve(&f);
  const uint8_t *d = decide(relays[relay], &m);
  int passed = passed_on(d, 57);
  printf("%6.0f %%%8.2f ohm   %-6s   differential %5d %5d %5d   %s\n", 100 * f.place, f.ohm, letters(quadrilaterals(d)),
         differential(d, 0), differential(d, 1), differential(d, 2),
         passed ? "trip, passed on" : d[GORSEPETAL_DECISION_AT_TRIP] ? "trip, held back" : "no trip");
  expect(quadrilaterals(d) == expected(&m, RESISTIVE_REACHES[relay]) && (on_the_line || !passed));
}

int main(void) {
  static const double OHMS[] = {0, 1, 1.9, 2.1, 3.9, 4.1, 7.9, 8.1, 12}, PLACES[] = {0, 0.2, 0.4, 0.6, 0.79, 0.81};
  printf("The line that the manual works out: 0.8 + j 4.0 ohm, secondary, of which zone 1 covers 80 percent. Four relays with the\n"
         "same settings but for the resistive reach. The slope is 100 in all of them, so that distance alone trips.\n");
  for (int k = 0; k < RELAYS; k++) enter(relays[k], RESISTIVE_REACHES[k]);

  printf("\nPhase a to ground at 40 percent of the line, fed from end 1 alone. Which quadrilaterals operate, and trip:\n");
  print_head();
  for (size_t k = 0; k < sizeof OHMS / sizeof OHMS[0]; k++) print_fault((Fault){0.4, OHMS[k], 0});

  printf("\nAt how many ohms does it stop? Fed from end 1 alone:\n");
  print_stops_head();
  for (size_t k = 0; k < sizeof PLACES / sizeof PLACES[0]; k++) print_stops(PLACES[k], 0, 1);
  printf("Fed from both ends alike, so that end 1 has half of the current through the resistance:\n");
  print_stops_head();
  print_stops(0.5, 1, 0.5);

  printf("\nTo the loop of a sound phase a fault ahead seems to lie behind, so the sides alone hold it back, and it may operate on a\n"
         "fault beyond the line too. So the firmware holds a trip back that has no differential in the phase of a quadrilateral.\n"
         "At R = 4 ohm, with the differential of phases a, b and c in counts:\n");
  print_passed_on((Fault){0.4, 3.9, 0});
  print_passed_on((Fault){0.4, 4.1, 0});
  print_passed_on((Fault){1.01, 0, 0});
  print_passed_on((Fault){1.01, 3.9, 0});
  print_passed_on((Fault){1.01, 12, 0});
  print_passed_on((Fault){1.01, 20, 0});
  print_passed_on((Fault){1.01, 40, 0});

  printf("\n%s\n", faults ? "NOT ALL AS EXPECTED" : "All as expected.");
  return faults != 0;
}
