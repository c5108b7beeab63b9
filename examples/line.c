/*
** A line as in a substation: three ends, 110 kV, 50 Hz. The network is solved by symmetrical components, its volts and amperes go through
** transformers and converters to windows, and its ohms and amperes become a settings record by the manual's formulas. Each case says
** what to expect and why, and the relay's answer is compared with it: the program ends with 1 if one differs. Run it with:
** sh examples/run_line
**
** Left out of the model: fault resistance, which examples/resistive.c is about, the line's capacitance, the decaying direct current of a
** fault, transformer errors.
*/
#include <stdio.h>

#include "network.h"

enum { ENDS = 3, CHANNELS = GORSEPETAL_CHANNELS(ENDS), WINDOW = GORSEPETAL_WINDOW_BYTES(ENDS) };

/* ---- The line, in primary volts, amperes and ohms ---- */

#define LINE_KM 40.0 /* from end 1 to end 2 */
#define TEE 0.5      /* of it, where the spur to end 3 leaves */
#define SPUR 0.5     /* the spur, in parts of that length: so ends 2 and 3 are equally far from end 1 */

/* By sequence; the negative one has the impedances of the positive. */
static const Complex PER_KM[] = {{0.12, 0.40}, {0.12, 0.40}, {0.30, 1.20}};
static const Complex SOURCE[][ENDS] = { /* behind each end's busbar, at its strongest */
  {{0.4, 4.8}, {0.8, 8.0}, {3.0, 36.0}}, {{0.4, 4.8}, {0.8, 8.0}, {3.0, 36.0}}, {{0.5, 4.0}, {1.0, 9.0}, {2.0, 18.0}}};
static const Complex EMF[ENDS] = {{63508, 0}, {62890, -8839}, {63266, -5535}}; /* 110 kV over root 3; end 2 lags 8 degrees, end 3 5 */

static Complex line_impedance(int sequence) { return scaled(PER_KM[sequence], LINE_KM); }
static Complex line_direction(void) { return scaled(PER_KM[POSITIVE], 1 / size(PER_KM[POSITIVE])); } /* cos and sin of its angle */
static Complex line_k(void) { return over(minus(PER_KM[ZERO], PER_KM[POSITIVE]), scaled(PER_KM[POSITIVE], 3)); }

/* One sequence's network as admittances between nodes. The nodes of the busbars come first: node e is that of end e + 1. */
enum { TEE_NODE = ENDS, FAULT_NODE, NODES };
typedef struct { Complex y[NODES][NODES]; int on_line; } Network;

static void branch(Network *net, int p, int q, Complex z) {
  Complex y = over((Complex){1, 0}, z);
  net->y[p][p] = plus(net->y[p][p], y);
  net->y[q][q] = plus(net->y[q][q], y);
  net->y[p][q] = minus(net->y[p][q], y);
  net->y[q][p] = minus(net->y[q][p], y);
}

/* A part of the line, between two places; the fault's node is put in if it lies there. */
static void section(Network *net, int p, double from, int q, double to, Complex z, double place) {
  if (place <= from || place >= to) {
    branch(net, p, q, scaled(z, to - from));
    return;
  }
  branch(net, p, FAULT_NODE, scaled(z, place - from));
  branch(net, FAULT_NODE, q, scaled(z, to - place));
}

/* The place of the fault is in parts of the line from end 1. Below 0 it is on a feeder of end 1's busbar, behind the relay; above 1 on
** one of end 2's, behind the far busbar. */
static Network network(int sequence, double place) {
  Network net = {.on_line = place > 0 && place < 1};
  Complex z = line_impedance(sequence);
  for (int e = 0; e < ENDS; e++) net.y[e][e] = over((Complex){1, 0}, SOURCE[sequence][e]);
  section(&net, 0, 0, TEE_NODE, TEE, z, place);
  section(&net, TEE_NODE, TEE, 1, 1, z, place);
  branch(&net, TEE_NODE, 2, scaled(z, SPUR));
  if (!net.on_line) branch(&net, place < 0 ? 0 : 1, FAULT_NODE, scaled(z, place < 0 ? -place : place - 1));
  return net;
}

/* The nodes' voltages v for the currents that are put in at the nodes: elimination. v holds the currents before. */
static void solve(Network net, Complex v[NODES]) {
  for (int p = 0; p < NODES; p++)
    for (int q = p + 1; q < NODES; q++) {
      Complex f = over(net.y[q][p], net.y[p][p]);
      for (int r = p; r < NODES; r++) net.y[q][r] = minus(net.y[q][r], times(f, net.y[p][r]));
      v[q] = minus(v[q], times(f, v[p]));
    }
  for (int p = NODES - 1; p >= 0; p--) {
    for (int q = p + 1; q < NODES; q++) v[p] = minus(v[p], times(net.y[p][q], v[q]));
    v[p] = over(v[p], net.y[p][p]);
  }
}

/* What there is to measure, effective values: end 1's voltage and each end's current into the line, by sequence and by phase. */
typedef struct { Complex v_sequence[3], v[3], i_sequence[ENDS][3], i[ENDS][3]; } Line;
typedef enum { LOAD, A_TO_GROUND, BALANCED } Kind;

/* The load by the sources; then the fault as a current drawn from its node, in each sequence, and both added up. */
static Line solve_line(Kind kind, double place) {
  Complex before[NODES] = {{0, 0}}, by_one[3][NODES] = {{{0, 0}}}, drawn[3] = {{0, 0}}, z = {0, 0};
  Network net[3];
  Line line = {.v = {{0, 0}}};
  for (int s = 0; s < 3; s++) { /* the voltages by one ampere into the fault's node; there they are the network's impedance */
    net[s] = network(s, place);
    by_one[s][FAULT_NODE].re = 1;
    solve(net[s], by_one[s]);
    if (s == POSITIVE || kind == A_TO_GROUND) z = plus(z, by_one[s][FAULT_NODE]); /* to ground, the three are in series */
  }
  for (int e = 0; e < ENDS; e++) before[e] = over(EMF[e], SOURCE[POSITIVE][e]);
  solve(net[POSITIVE], before);
  for (int s = 0; s < 3; s++) {
    Complex v[NODES];
    if (kind == A_TO_GROUND || (kind == BALANCED && s == POSITIVE)) drawn[s] = over(before[FAULT_NODE], z);
    for (int p = 0; p < NODES; p++) v[p] = minus(s == POSITIVE ? before[p] : (Complex){0, 0}, times(drawn[s], by_one[s][p]));
    line.v_sequence[s] = v[0];
    for (int e = 0; e < ENDS; e++) /* along the line's branches, not along a feeder's */
      for (int p = TEE_NODE; p <= (net[s].on_line ? FAULT_NODE : TEE_NODE); p++)
        line.i_sequence[e][s] = minus(line.i_sequence[e][s], times(net[s].y[e][p], minus(v[e], v[p])));
  }
  to_phases(line.v_sequence, line.v);
  for (int e = 0; e < ENDS; e++) to_phases(line.i_sequence[e], line.i[e]);
  return line;
}

/* ---- Transformers and converters ---- */

#define VT 1000.0                               /* voltage transformers: 110000 V to 110 V */
static const double CT[ENDS] = {300, 300, 150}; /* current transformers: so many amperes to 1 A */
#define CV 300.0 /* counts per secondary volt: 1.2 times the rated voltage has a peak of 107.8 V, 32332 counts of 32767 */
#define CI 600.0 /* counts per secondary ampere: the range ends at 54.6 A peak. So cv over ci is 1/2 */

/* Secondary ohms of a primary impedance, at end 1. */
static Complex secondary(Complex z) { return scaled(z, CT[0] / VT); }

/* What a converter gives for a value in counts: the nearest whole one that it has. */
static int converted(double counts, int lowest) {
  return counts < lowest ? lowest : counts > GORSEPETAL_LARGEST_SAMPLE ? GORSEPETAL_LARGEST_SAMPLE : rounded(counts);
}

/* One count must be the same primary current at every end. A missing sample stays missing: its mark is not to be scaled. */
static int to_end_1(int count, int end) { return count == GORSEPETAL_MISSING ? count : rounded(count * CT[end] / CT[0]); }

static int number_at(const uint8_t *bytes, int at) {
  int number = 256 * bytes[at] + bytes[at + 1];
  return number < 32768 ? number : number - 65536;
}

/* ---- The settings record ---- */

#define SLOPE 30.0         /* percent */
#define PICKUP 0.2         /* secondary amperes, effective */
#define PICKUP_3I2 0.1     /* secondary amperes, effective, of three times the negative sequence */
#define REACH 80.0         /* percent of the line; ends 2 and 3 are equally far, so it ends before both */
#define FORWARD_LIMIT -0.6 /* secondary ohms: about half of what a fault ahead measures */
#define REVERSE_LIMIT 3.0  /* and half of what one behind measures: check_limits has both */
#define SECOND_REACH 175.0 /* percent of the line; for a lamp, so beyond where any fault on it seems to lie: check_second_reach has that */
#define RESISTIVE_REACH 2.0 /* secondary ohms, below what sound phases see of a fault beyond the line: check_resistive_reach has that */

static void field(uint8_t *record, int shown, int at, const char *name, double value, const char *unit, double factor) {
  int setting = rounded(value * factor);
  put(record, at, setting);
  if (shown) printf("  at %2d  %-24s %7.3f %-8s times %7.2f is %5d\n", at, name, value, unit, factor, setting);
}

/* The manual's formulas. A voltage count per current count is not an ohm; where that is forgotten, cv_over_ci is 1. */
static void fill(uint8_t r[GORSEPETAL_RECORD_LENGTH], double cv_over_ci, int shown) {
  Complex z = secondary(line_impedance(POSITIVE)), k = line_k(), d = line_direction();
  double ohm = 1000 * cv_over_ci, ampere = ROOT2 * CI;
  for (int i = 0; i < GORSEPETAL_RECORD_LENGTH; i++) r[i] = 0;
  field(r, shown, GORSEPETAL_AT_ENDS, "ends of the line", ENDS, "", 1);
  field(r, shown, GORSEPETAL_AT_SLOPE, "slope K", SLOPE, "percent", 1);
  field(r, shown, GORSEPETAL_AT_PICKUP, "differential pickup", PICKUP, "A", ampere);
  field(r, shown, GORSEPETAL_AT_REPLICA_REAL, "replica Z, real", z.re, "ohm", ohm);
  field(r, shown, GORSEPETAL_AT_REPLICA_IMAGINARY, "replica Z, imaginary", z.im, "ohm", ohm);
  field(r, shown, GORSEPETAL_AT_REACH, "reach r", REACH, "percent", 10);
  field(r, shown, GORSEPETAL_AT_K_REAL, "k, real", k.re, "", 1000);
  field(r, shown, GORSEPETAL_AT_K_IMAGINARY, "k, imaginary", k.im, "", 1000);
  field(r, shown, GORSEPETAL_AT_ANGLE_REAL, "line angle D, real", d.re, "", 1000);
  field(r, shown, GORSEPETAL_AT_ANGLE_IMAGINARY, "line angle D, imaginary", d.im, "", 1000);
  field(r, shown, GORSEPETAL_AT_FORWARD_LIMIT, "forward limit zf", FORWARD_LIMIT, "ohm", ohm);
  field(r, shown, GORSEPETAL_AT_REVERSE_LIMIT, "reverse limit zr", REVERSE_LIMIT, "ohm", ohm);
  field(r, shown, GORSEPETAL_AT_NEGATIVE_SEQUENCE_PICKUP, "pickup of 3I2", PICKUP_3I2, "A", ampere);
  field(r, shown, GORSEPETAL_AT_SECOND_REACH, "second reach r2", SECOND_REACH, "percent", 10);
  field(r, shown, GORSEPETAL_AT_RESISTIVE_REACH, "resistive reach R", RESISTIVE_REACH, "ohm", 10 * cv_over_ci);
}

/* Both entries, each in a buffer filled anew, and what is then in force; 1 if a call is refused. */
static int enter(uint8_t *state, double cv_over_ci) {
  uint8_t first[GORSEPETAL_RECORD_LENGTH], second[GORSEPETAL_RECORD_LENGTH], back[GORSEPETAL_RECORD_LENGTH];
  fill(first, cv_over_ci, 1);
  fill(second, cv_over_ci, 0);
  printf("  bytes:");
  for (int i = 0; i < GORSEPETAL_RECORD_LENGTH; i++) printf("%s%02X", i % 2 ? "" : " ", first[i]);
  uint64_t proposed = gorsepetal_propose(state, GORSEPETAL_STATE_LENGTH, first, sizeof first);
  uint64_t confirmed = gorsepetal_confirm(state, GORSEPETAL_STATE_LENGTH, second, sizeof second);
  printf("\n  propose answers %d, confirm answers %d\n", (int)proposed, (int)confirmed);
  if (gorsepetal_read_back(state, GORSEPETAL_STATE_LENGTH, back, sizeof back) != GORSEPETAL_DONE) return 1;
  double ohm = 1000 * CV / CI;
  Complex z = {number_at(back, GORSEPETAL_AT_REPLICA_REAL) / ohm, number_at(back, GORSEPETAL_AT_REPLICA_IMAGINARY) / ohm};
  double percent = size(z) / size(secondary(line_impedance(POSITIVE))) / 10; /* of the line, for a thousandth of Z */
  printf("  read back: Z is %.2f + j%.2f ohm to the relay; zone 1 reaches %.0f percent of the line, the second zone %.0f, and the\n"
         "  quadrilaterals %.1f ohm to each side\n\n", z.re, z.im, percent * number_at(back, GORSEPETAL_AT_REACH),
         percent * number_at(back, GORSEPETAL_AT_SECOND_REACH), number_at(back, GORSEPETAL_AT_RESISTIVE_REACH) / (ohm / 100));
  return proposed != GORSEPETAL_DONE || confirmed != GORSEPETAL_DONE;
}

/* The limits lie between what the relay measures for faults ahead and behind; 1 if not. */
static int check_limits(void) {
  const Complex *source = SOURCE[NEGATIVE];
  Complex z = line_impedance(NEGATIVE), to_2 = plus(scaled(z, 1 - TEE), source[1]), to_3 = plus(scaled(z, SPUR), source[2]);
  double ahead = -along(secondary(source[0]), line_direction());
  double behind = along(secondary(plus(scaled(z, TEE), parallel(to_2, to_3))), line_direction());
  printf("The limits, with all sources at their strongest. For a fault ahead Z2 is minus the source behind end 1: %.2f ohm, and\n"
         "below zf, as it has to be. For a fault behind it is the line to the tee and, from there, the ways to ends 2 and 3 with\n"
         "their sources, in parallel: %.2f ohm, and above zr.\n\n", ahead, behind);
  return !(ahead < FORWARD_LIMIT && REVERSE_LIMIT < behind);
}

/* Where a fault at a far end's busbar seems to lie, in percent of the line, by one sequence. The current of the other far end comes in at
** the tee and is not end 1's. The manual takes the weakest source behind end 1; here it has one strength. */
static double seems_at(int sequence, int far, int other) {
  static const double FROM_TEE[ENDS] = {TEE, 1 - TEE, SPUR};
  Complex z = line_impedance(sequence);
  double infeed = size(plus(scaled(z, FROM_TEE[0]), SOURCE[sequence][0])) / size(plus(scaled(z, FROM_TEE[other]), SOURCE[sequence][other]));
  return 100 * (FROM_TEE[0] + FROM_TEE[far] * (1 + infeed));
}

/* The second zone covers each far end, with a fifth to spare; 1 if not. */
static int check_second_reach(void) {
  double at_2[] = {seems_at(POSITIVE, 1, 2), seems_at(ZERO, 1, 2)}, at_3[] = {seems_at(POSITIVE, 2, 1), seems_at(ZERO, 2, 1)}, farthest = 0;
  for (int s = 0; s < 2; s++) {
    if (at_2[s] > farthest) farthest = at_2[s];
    if (at_3[s] > farthest) farthest = at_3[s];
  }
  printf("The second reach is for a lamp, which has to light for every fault on the line. Beyond the tee the other far end feeds in,\n"
         "so a fault seems farther than it is. By the positive and the zero sequence one at end 2 seems to lie at %.0f and %.0f percent,\n"
         "and one at end 3 at %.0f and %.0f; a ground loop sees it between the two. With a fifth to spare that is %.0f percent of the\n"
         "line, and the second zone covers it.\n\n", at_2[0], at_2[1], at_3[0], at_3[1], 1.2 * farthest);
  return SECOND_REACH < 1.2 * farthest;
}

/* The quadrilaterals of the sound phases leave a solid fault of phase a at the far busbar alone; 1 if not. Their V is a sound voltage, and
** their I is what k makes of the residual current, with some load. */
static int check_resistive_reach(void) {
  Line line = solve_line(A_TO_GROUND, 1.0001);
  Complex residual = scaled(line.i_sequence[0][ZERO], 3);
  double nearest = 1e9;
  for (int phase = 1; phase <= 2; phase++) {
    Complex z_i = times(line_impedance(POSITIVE), plus(line.i[0][phase], times(line_k(), residual)));
    double ohms = CT[0] / VT * across(line.v[phase], z_i) / across(residual, z_i);
    if (ohms < 0) ohms = -ohms;
    if (ohms < nearest) nearest = ohms;
  }
  printf("The resistive reach has to be below what the loops of sound phases see of a fault beyond the line. Of a solid one of phase\n"
         "a at end 2's busbar they see %.1f ohm or more, and R is below. They may see other faults nearer: the manual says what the\n"
         "firmware has to ask then.\n\n", nearest);
  return RESISTIVE_REACH >= nearest;
}

/* ---- The cases ---- */

typedef struct {
  const char *title;
  Kind kind;
  double place;      /* of the fault */
  int reversed;      /* the end whose current transformer is connected the wrong way round, or 0 */
  int unscaled;      /* end 3's samples are handed over as its converter gave them */
  int lowest;        /* what the converters clip at; 0 for -32767 */
  int refused_at;    /* the index of the sample for which decide refuses, or 0; then no decision is expected */
  int trip, phases, quadrilaterals, loops, direction, second; /* the last one: the loops of the second zone */
  const char *why;
} Case;

enum { AG = GORSEPETAL_LOOP_AG, FORWARD = GORSEPETAL_DIRECTION_FORWARD, REVERSE = GORSEPETAL_DIRECTION_REVERSE,
       A = GORSEPETAL_PHASE_A, ABC = GORSEPETAL_PHASE_A + GORSEPETAL_PHASE_B + GORSEPETAL_PHASE_C,
       OF_A = GORSEPETAL_LOOP_AG + GORSEPETAL_LOOP_AB + GORSEPETAL_LOOP_CA,
       ALL_LOOPS = OF_A + GORSEPETAL_LOOP_BG + GORSEPETAL_LOOP_CG + GORSEPETAL_LOOP_BC };

#define GROUND(part) .kind = A_TO_GROUND, .place = part
#define AT_95 .title = "Phase a to ground on the line, 95 percent from end 1", GROUND(0.95)
#define BEYOND .title = "Phase a to ground behind end 2's busbar, 800 m out on another line", GROUND(1.02)
#define BALANCED_AT(part) .kind = BALANCED, .place = part
#define BALANCED_BEYOND .title = "Balanced three-phase fault behind end 2's busbar, 800 m out on another line", BALANCED_AT(1.02)

static const Case CASES[] = {
  {.title = "Load", .kind = LOAD, .place = 0.3,
   .why = "what flows in at end 1 flows out at ends 2 and 3; the load's impedance is far outside both zones"},
  {.title = "Phase a to ground on the line, 30 percent from end 1", GROUND(0.3), .trip = 1, .phases = A, .quadrilaterals = A, .loops = AG,
   .direction = FORWARD, .second = OF_A,
   .why = "all ends feed the fault; none feeds in between end 1 and the fault, so AG measures its true place, circle and quadrilateral"},
  {.title = "Phase a to ground on the line, 80 percent from end 1", GROUND(0.8), .trip = 1, .phases = A, .direction = FORWARD, .second = AG,
   .why = "beyond the tee end 3 feeds in, so AG sees the fault farther than it lies, in the second zone alone; the differential trips"},
  {AT_95, .trip = 1, .phases = A, .direction = FORWARD, .second = AG,
   .why = "outside zone 1, as it was meant; the differential covers the whole line, and so does the second zone"},
  {BEYOND, .direction = FORWARD, .second = AG,
   .why = "a fault ahead but not on the line: all that flows in flows out at end 2. The second zone overreaches: a lamp, and no trip"},
  {.title = "Phase a to ground behind end 2's busbar, 4 km out", GROUND(1.1), .direction = FORWARD,
   .why = "ends 2 and 3 feed it too, so it seems far beyond its true 110 percent: outside the second zone, and the lamp is dark"},
  {.title = "Phase a to ground behind the relay, 800 m out on another line of end 1", GROUND(-0.02), .direction = REVERSE,
   .why = "phase a's current leaves the line at end 1, so AG's m is negative in both zones, and Z2 is positive"},
  {.title = "Balanced three-phase fault on the line, 30 percent from end 1", BALANCED_AT(0.3),
   .trip = 1, .phases = ABC, .loops = ALL_LOOPS, .second = ALL_LOOPS,
   .why = "no negative sequence, so direction none; but AB, BC and CA all assert in zone 1, so distance trips, and the differential too"},
  {BALANCED_BEYOND, .second = ALL_LOOPS,
   .why = "no direction here either; beyond zone 1, so none of the three asserts there and nothing trips. The lamp is lit"},
  {.title = "Balanced three-phase fault behind the relay, 800 m out on another line of end 1", BALANCED_AT(-0.02),
   .why = "without a direction the loops alone tell: the current leaves the line at end 1, so every m is negative, and none asserts"},
  {.title = "Load, with the current transformer of end 2 connected the wrong way round", .kind = LOAD, .place = 0.3, .reversed = 2,
   .trip = 1, .phases = ABC,
   .why = "the line is sound; the differential is twice the current of end 2: read it under load before the trip is wired"},
  {.title = "The fault behind end 2's busbar again, but end 3's samples not scaled", GROUND(1.02), .unscaled = 1, .direction = FORWARD,
   .second = AG,
   .why = "end 3 counts double, so its current is left over in the differential; it uses up part of the slope, and does not trip yet"},
  {.title = "Phase a to ground at 1 percent, so heavy that the converter clips: at -32767", GROUND(0.01),
   .lowest = -GORSEPETAL_LARGEST_SAMPLE, .trip = 1, .phases = A, .quadrilaterals = ABC, .loops = OF_A, .direction = FORWARD, .second = OF_A,
   .why = "clipped samples still show a large current; the loops AB and CA have it too, and R lies above what sound phases see of so much"},
  {.title = "The same, but the converter clips at -32768", GROUND(0.01), .lowest = GORSEPETAL_MISSING, .refused_at = 135,
   .why = "-32768 means that a sample is missing: no decision, just when the fault is worst. Clip at -32767"},
};

static const Case WRONG_UNIT[] = {
  {AT_95, .trip = 1, .phases = A, .quadrilaterals = A, .loops = AG, .direction = FORWARD, .second = OF_A,
   .why = "all three reaches are twice what was meant: AG asserts for a fault that zone 1 should leave alone"},
  {BEYOND, .trip = 1, .quadrilaterals = A, .loops = AG, .direction = FORWARD, .second = OF_A,
   .why = "and here the relay trips the line for a fault that is not on it"},
  {BALANCED_BEYOND, .trip = 1, .loops = ALL_LOOPS, .second = ALL_LOOPS,
   .why = "so it does here: no phase operates and there is no direction, but AB, BC and CA all assert in a zone 1 that is too long"},
};

/* Sixteen frames of Va, Vb, Vc and of each end's Ia, Ib, Ic. A steady wave with the peak phasor re + j im is re cos - im sin, which is the
** real part of the phasor as it turns. Gives back how many samples were clipped. */
static int sample(const Case *c, const Line *line, uint8_t window[WINDOW]) {
  static const Complex STEP = {0.92387953251128674, 0.38268343236508977}; /* a sixteenth of a turn */
  Complex turn = {ROOT2, 0};                                              /* from the effective value to the peak */
  int clipped = 0, lowest = c->lowest ? c->lowest : -GORSEPETAL_LARGEST_SAMPLE;
  for (int n = 0; n < GORSEPETAL_FRAMES; n++, turn = times(turn, STEP))
    for (int channel = 0; channel < CHANNELS; channel++) {
      int end = channel / 3 - 1; /* -1 for the voltages */
      double counts = end < 0 ? CV / VT * times(line->v[channel], turn).re : CI / CT[end] * times(line->i[end][channel % 3], turn).re;
      int count = converted(end >= 0 && end + 1 == c->reversed ? -counts : counts, lowest);
      clipped += count == lowest || count == GORSEPETAL_LARGEST_SAMPLE;
      put(window, 2 * (CHANNELS * n + channel), end < 0 || c->unscaled ? count : to_end_1(count, end));
    }
  return clipped;
}

/* What end 1 has to measure, from the model. The mho rule compares n with r m: n over m is the part of the line. A current is printed
** with a minus sign if it is against end 1's. */
static void describe(const Line *line) {
  Complex v = line->v[0], vp = line->v_sequence[POSITIVE], i2 = line->i_sequence[0][NEGATIVE];
  Complex i = plus(line->i[0][0], times(line_k(), scaled(line->i_sequence[0][ZERO], 3))), z = secondary(over(v, i));
  double n = along(v, vp), m = along(times(line_impedance(POSITIVE), i), vp);
  printf("  phase a, primary: %.1f kV;", size(v) / 1000);
  for (int e = 0; e < ENDS; e++)
    printf(" %.0f A at end %d%s", along(line->i[e][0], line->i[0][0]) < 0 ? -size(line->i[e][0]) : size(line->i[e][0]), e + 1,
           e < ENDS - 1 ? "," : "\n");
  printf("  AG measures %.2f %c j%.2f ohm: as if at %.1f percent of the line\n", z.re, z.im < 0 ? '-' : '+', z.im < 0 ? -z.im : z.im,
         100 * n / m);
  if (size(i2) > 1)
    printf("  3I2 is %.2f A secondary; Z2, along the line angle, is %.2f ohm\n", 3 * size(i2) / CT[0],
           along(secondary(over(line->v_sequence[NEGATIVE], i2)), line_direction()));
}

static void print_bits(const char *what, int bits, const char *const names[]) {
  printf(", %s %d", what, bits);
  for (int b = 0, some = 0; bits >> b; b++)
    if (bits >> b & 1) printf("%s%s", some++ ? " " : " (", names[b]);
  if (bits) printf(")");
}

static void print_decision(int trip, int phases, int quadrilaterals, int loops, int direction, int second) {
  static const char *const PHASES[8] = {"A", "B", "C"}, *const LOOPS[8] = {"AG", "BG", "CG", "AB", "BC", "CA"};
  static const char *const DIRECTIONS[] = {"none", "forward", "reverse", "?"};
  printf("trip %d", trip);
  print_bits("phases", phases, PHASES);
  print_bits("quadrilaterals", quadrilaterals, PHASES);
  print_bits("loops", loops, LOOPS);
  printf(", direction %d (%s)", direction, DIRECTIONS[direction < 3 ? direction : 3]);
  print_bits("second zone", second, LOOPS);
}

/* Sixty-fourths of a count, 32 bits, upper byte first, as primary amperes. */
static double primary(const uint8_t *at) {
  return (16777216.0 * at[0] + 65536 * at[1] + 256 * at[2] + at[3]) / 64 / (ROOT2 * CI) * CT[0];
}

/* The differential of phase a as the model has it, with the case's mistake. */
static double differential(const Case *c, const Line *line) {
  Complex sum = {0, 0};
  for (int e = 0; e < ENDS; e++)
    sum = plus(sum, scaled(line->i[e][0], c->reversed == e + 1 ? -1 : c->unscaled ? CT[0] / CT[e] : 1));
  return size(sum);
}

/* The decision; 1 if its first five bytes are not as expected, or its differential is not the model's, give or take 2 A. */
static int compare(const Case *c, const uint8_t *out, double model, int clipped) {
  int trip = out[GORSEPETAL_DECISION_AT_TRIP], phases = out[GORSEPETAL_DECISION_AT_PHASES] & GORSEPETAL_PHASES;
  int quadrilaterals = (out[GORSEPETAL_DECISION_AT_PHASES] & GORSEPETAL_QUADRILATERALS) / GORSEPETAL_QUADRILATERAL_A;
  int loops = out[GORSEPETAL_DECISION_AT_LOOPS], direction = out[GORSEPETAL_DECISION_AT_DIRECTION];
  int second = out[GORSEPETAL_DECISION_AT_SECOND_ZONE];
  double s = primary(out + GORSEPETAL_DECISION_AT_DIFFERENTIAL_A), u = primary(out + GORSEPETAL_DECISION_AT_RESTRAINT_A);
  print_decision(trip, phases, quadrilaterals, loops, direction, second);
  printf("\n  phase a:  differential %.0f A primary (model %.0f), restraint %.0f A: %.0f percent", s, model, u, 100 * s / u);
  return c->refused_at || trip != c->trip || phases != c->phases || quadrilaterals != c->quadrilaterals || loops != c->loops ||
         direction != c->direction || second != c->second || (!clipped && (s - model > 2 || model - s > 2));
}

/* One case; 1 if the relay answers otherwise than expected. */
static int run(const uint8_t *state, const Case *c) {
  uint8_t window[WINDOW], out[GORSEPETAL_DECISION_LENGTH];
  Line line = solve_line(c->kind, c->place);
  int clipped = sample(c, &line, window), fault;
  uint64_t answer = gorsepetal_decide(state, GORSEPETAL_STATE_LENGTH, window, sizeof window, out, sizeof out);
  printf("%s\n", c->title);
  describe(&line);
  if (clipped) printf("  %d samples are clipped\n", clipped);
  printf("  expected: ");
  if (c->refused_at)
    printf("refusal %d at %d", GORSEPETAL_MISSING_SAMPLE, c->refused_at);
  else
    print_decision(c->trip, c->phases, c->quadrilaterals, c->loops, c->direction, c->second);
  printf("\n  because:  %s\n  relay:    ", c->why);
  if (answer == GORSEPETAL_DONE)
    fault = compare(c, out, differential(c, &line), clipped);
  else {
    int number = (int)GORSEPETAL_NUMBER(answer), at = (int)GORSEPETAL_PLACE(answer);
    printf("refusal %d at %d: frame %d, channel %d", number, at, at / CHANNELS, at % CHANNELS);
    fault = number != GORSEPETAL_MISSING_SAMPLE || at != c->refused_at;
  }
  printf("\n  %s\n\n", fault ? "NOT AS EXPECTED" : "as expected");
  return fault;
}

int main(void) {
  static uint8_t state[GORSEPETAL_STATE_LENGTH]; /* all zero: a fresh relay */
  const int cases = sizeof CASES / sizeof CASES[0], wrong = sizeof WRONG_UNIT / sizeof WRONG_UNIT[0];
  int faults = 0;
  printf("A line of 110 kV, 50 Hz, with three ends. The relay is at end 1. Halfway to end 2, at the tee, the way to end 3 leaves; both\n"
         "are 40 km from end 1. Currents are positive into the line. Below, a minus sign marks one that is against end 1's.\n"
         "Current transformers: 300 to 1 A at ends 1 and 2, 150 to 1 A at end 3. A count is %.2f A primary at end 1 and %.2f A at\n"
         "end 3, so the firmware multiplies end 3's samples by 150/300.\n\n", CT[0] / CI, CT[2] / CI);
  printf("The record, from secondary values. cv is %.0f counts per volt, ci %.0f counts per ampere.\n", CV, CI);
  faults += enter(state, CV / CI) + check_limits() + check_second_reach() + check_resistive_reach();
  for (int i = 0; i < cases; i++) faults += run(state, &CASES[i]);
  printf("The wrong unit. The desk entered thousandths of an ohm and forgot that cv over ci is %.1f, in both entries alike.\n"
         "Both are good records, so no call can see it.\n", CV / CI);
  faults += enter(state, 1);
  for (int i = 0; i < wrong; i++) faults += run(state, &WRONG_UNIT[i]);
  printf("%d cases: %s\n", cases + wrong, faults ? "NOT ALL AS EXPECTED" : "all as expected");
  return faults != 0;
}
