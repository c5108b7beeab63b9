/* Document 02, CR 7, in named cases: the quadrilaterals of A, B and C in bits 8, 16 and 32 of byte 1, any of which trips. */
#include <string.h>

#include "ground_faults.h"
#include "reading.h"

enum { A = GORSEPETAL_QUADRILATERAL_A, B = GORSEPETAL_QUADRILATERAL_B, C = GORSEPETAL_QUADRILATERAL_C, ALL = GORSEPETAL_QUADRILATERALS };
enum { NONE = GORSEPETAL_DIRECTION_NONE, FORWARD = GORSEPETAL_DIRECTION_FORWARD, REVERSE = GORSEPETAL_DIRECTION_REVERSE };
enum { OFF = 0, REACH = 800, LARGEST_REACH = 2000, USUAL_K = 500, USUAL = 10, MOST = 1000 };

/* ---- Records and faults ---- */

/* The good record with a reach of 800, this k, which is a real number, and this R. Its Z is j 1000. It stays until the next call. */
static uint8_t *with_k(int k, int r) {
  uint8_t *record = with_reaches(REACH, OFF);
  put(record, GORSEPETAL_AT_K_REAL, k);
  put(record, GORSEPETAL_AT_RESISTIVE_REACH, r);
  return record;
}
static uint8_t *set(int r) { return with_k(USUAL_K, r); }

/* By these limits every window below is forward, if 3I2 reaches its pickup. */
static uint8_t *ahead(uint8_t *record) {
  put(record, GORSEPETAL_AT_FORWARD_LIMIT, 19999);
  put(record, GORSEPETAL_AT_REVERSE_LIMIT, 20000);
  return record;
}

/* Phase a to ground, with this Va, and with voltages of 2000 on the two others. By the record with k = 500
**
**   Ir = Ia = (0, -1000)   E = (0, -500)   I = (0, -1500)   Z I = (1500000, 0)   q = -1000 * 1500000
**   n = 1500000 Va.im, so the sides are at 10 |Va.im| = 1000 R
**   Im[(r Z I - 1000000 V) Ir*] = 1000 (1500000 r - 1000000 Va.re), so the top is at Va.re = 1.5 r, which is 1200
**   3I2 = (0, -1000)   3V2 = (Va.re - 2000, Va.im)   T = 1000000 (Va.re - 2000), so it is forward while Va.re < 1700 */
static ground_fault to_ground(int re, int im) {
  return (ground_fault){{{re, im}, {-1000, -1732}, {-1000, 1732}}, {{0, -1000}, {0, 0}, {0, 0}}};
}

/* The same with the two others far above the top, which for them is at 400: of b and c, I is (0, -500). It takes the limits above. */
static ground_fault alone(int re, int im) { return (ground_fault){{{re, im}, {4000, 0}, {4000, 0}}, {{0, -1000}, {0, 0}, {0, 0}}}; }

/* The quadrilaterals of a fault, as worked out by hand. The rule in ground_faults.c has to say so too, and then decide and feed. */
static void sees(const char *what, const uint8_t *record, ground_fault f, int quadrilaterals) {
  check("by the rule", (uint64_t)by_the_rule(record, &f), (uint64_t)quadrilaterals);
  has(what, record, window_of_fault(&f, record[1]), quadrilaterals);
}

/* The numbers that document 02 gives the header's names. */
static void names_of_the_quadrilaterals(void) {
  check("bytes 28 and 29", GORSEPETAL_AT_RESISTIVE_REACH, 28);
  check("A", GORSEPETAL_QUADRILATERAL_A, 8);
  check("B", GORSEPETAL_QUADRILATERAL_B, 16);
  check("C", GORSEPETAL_QUADRILATERAL_C, 32);
  check("all three", GORSEPETAL_QUADRILATERALS, 8 + 16 + 32);
  check("phases", GORSEPETAL_PHASES, GORSEPETAL_PHASE_A + GORSEPETAL_PHASE_B + GORSEPETAL_PHASE_C);
}

/* ---- A fault with resistance ---- */

/* Va is 0.7 / 1.5 of Z I and 1.6 times Ir, ahead of it or behind. No circle sees it: of AG, Vp is (4700, Va.im) and
** 1000000 n = 1000000 (700 * 4700 + 1600²) is above 800 m = 800 * 1500000 * 4700. The quadrilateral sees it from R = 16 on, and trips
** alone. U of the phase is 2 * 64 * 1000 = 128000, 1F400 in hexadecimal. */
static void fault_that_no_circle_sees(void) {
  static const int reaches[][2] = {{OFF, 0}, {1, 0}, {15, 0}, {16, 1}, {17, 1}};
  for (int x = 0; x < PHASES; x++)
    for (int sign = -1; sign <= 1; sign += 2)
      for (size_t k = 0; k < sizeof reaches / sizeof *reaches; k++)
        for (int way = 0; way < WAYS; way++) {
          uint8_t wanted[DECISION] = {(uint8_t)reaches[k][1], (uint8_t)(reaches[k][1] * (A << x)), 0, FORWARD};
          const ground_fault of_a = to_ground(700, sign * 1600), f = moved(&of_a, x);
          wanted[GORSEPETAL_DECISION_AT_RESTRAINT_A + 4 * x + 1] = 0x01;
          wanted[GORSEPETAL_DECISION_AT_RESTRAINT_A + 4 * x + 2] = 0xF4;
          ways[way].decided(set(reaches[k][0]), window_of_fault(&f, 2));
          out_is(ways[way].name, wanted);
        }
}

/* Nothing picks the phase that has the fault. Of b and c, I is E alone, n / q is 1.732 and -1.732, and their voltages lie below the top. So
** from R = 18 on both operate, and with them the relay trips on a fault beyond its reach. */
static void sound_phases_at_a_large_resistive_reach(void) {
  sees("a fault within the reach, 17", set(17), to_ground(700, 0), A);
  sees("18", set(18), to_ground(700, 0), A + B + C);
  sees("a fault beyond it, 17", set(17), to_ground(1500, 0), 0);
  sees("18", set(18), to_ground(1500, 0), B + C);
  check("trip", out.all[GUARD + GORSEPETAL_DECISION_AT_TRIP], 1);
}

/* ---- The top ---- */

/* The line itself is outside. It does not move with the resistance. */
static void on_the_reactance_line(void) {
  static const int sides[] = {-1000, -999, -1, 0, 1, 999, 1000};
  for (size_t k = 0; k < sizeof sides / sizeof *sides; k++) {
    sees("one step inside", ahead(set(USUAL)), alone(1199, sides[k]), A);
    sees("on the line", ahead(set(USUAL)), alone(1200, sides[k]), 0);
    sees("one step beyond", ahead(set(USUAL)), alone(1201, sides[k]), 0);
    sees("next to the relay", ahead(set(USUAL)), alone(0, sides[k]), A);
    sees("seen as behind it", ahead(set(USUAL)), alone(-4000, sides[k]), A); /* there is no lower edge */
  }
}

/* 1.5 r is where the line lies: at 1.5 for r = 1, and at 3000 for r = 2000. */
static void every_reach_has_its_line(void) {
  static const int reaches[][2] = {{1, 2}, {2, 3}, {3, 5}, {799, 1199}, {801, 1202}, {1999, 2999}, {2000, 3000}}; /* the first one out */
  for (size_t k = 0; k < sizeof reaches / sizeof *reaches; k++) {
    uint8_t *record = ahead(set(USUAL));
    put(record, GORSEPETAL_AT_REACH, reaches[k][0]);
    sees("inside", record, alone(reaches[k][1] - 1, -500), A);
    sees("outside", record, alone(reaches[k][1], -500), 0);
  }
}

static void second_reach_has_no_part(void) {
  static const int seconds[] = {OFF, REACH, 1200, LARGEST_REACH};
  for (size_t k = 0; k < sizeof seconds / sizeof *seconds; k++) {
    uint8_t *record = ahead(set(USUAL));
    put(record, GORSEPETAL_AT_SECOND_REACH, seconds[k]);
    sees("inside", record, alone(1199, 0), A);
    sees("on the line", record, alone(1200, 0), 0);
  }
}

/* ---- The sides ---- */

/* With R = 10 they are at 1000, and belong to the quadrilateral. */
static void on_each_side(void) {
  for (int sign = -1; sign <= 1; sign += 2) {
    sees("one step inside", ahead(set(USUAL)), alone(600, sign * 999), A);
    sees("on the side", ahead(set(USUAL)), alone(600, sign * 1000), A);
    sees("one step beyond", ahead(set(USUAL)), alone(600, sign * 1001), 0);
  }
}

/* With Z = 0.001 + j 20 and k = 0 the sides hardly lean: Ir = I = (0, -4000), Z I = (80000000, -4000), n = 4000 (20000 Va.im + Va.re) and
** q = -4000 * 80000000. With R = 10 a count along the line is one part in 80000000 of n, and it counts. */
static void one_part_in_eighty_million(void) {
  uint8_t *record = ahead(with_k(0, USUAL));
  put(record, GORSEPETAL_AT_REPLICA_REAL, 1);
  put(record, GORSEPETAL_AT_REPLICA_IMAGINARY, 20000);
  for (int sign = -1; sign <= 1; sign += 2)
    for (int step = -1; step <= 1; step++) {
      ground_fault f = alone(sign * step, sign * 4000);
      f.i[0].im = -4000;
      sees("inside, on the side, beyond", record, f, step <= 0 ? A : 0);
    }
}

/* Z I behind Ir: Ib turns Ir round. Ir = (0, 1000), E = (0, 500), I of a is (0, -500), Z I = (500000, 0), and q = 1000 * 500000. The sides
** are where they were, but Im[(r Z I - 1000000 V) Ir*] = -1000 (400000000 - 1000000 Va.re): inside is above 400. */
static ground_fault turned_round(int re, int im) {
  return (ground_fault){{{re, im}, {-3000, 0}, {-3000, 0}}, {{0, -1000}, {0, 2000}, {0, 0}}};
}

static void residual_current_turned_round(void) {
  for (int sign = -1; sign <= 1; sign += 2) {
    sees("on the side", ahead(set(USUAL)), turned_round(600, sign * 1000), A);
    sees("one step beyond", ahead(set(USUAL)), turned_round(600, sign * 1001), 0);
  }
  sees("one step inside", ahead(set(USUAL)), turned_round(401, 0), A);
  sees("on the line", ahead(set(USUAL)), turned_round(400, 0), 0);
  sees("one step beyond", ahead(set(USUAL)), turned_round(399, 0), 0);
}

/* On the line of Z I, n is 0: that is between the sides at every R but 0, at which nothing is. No voltage at all is such a fault too. */
static void solid_fault(void) {
  for (int re = 0; re <= 1000; re += 500) {
    sees("off", ahead(set(OFF)), alone(re, 0), 0);
    sees("the smallest", ahead(set(1)), alone(re, 0), A);
    sees("the largest", ahead(set(MOST)), alone(re, 0), A);
  }
  sees("the smallest, on the side", ahead(set(1)), alone(500, 100), A);
  sees("one step beyond", ahead(set(1)), alone(500, 101), 0);
}

/* A larger R keeps what a smaller one has, up to the largest. With Ir = (0, -1000) a side at 4000 takes R = 40, and with Ir = (0, -40) it
** takes R = 1000. */
static void every_r(void) {
  for (int r = 0; r <= MOST; r++)
    for (int sign = -1; sign <= 1; sign += 2) {
      sees("from 40 on", ahead(set(r)), alone(0, sign * 4000), r >= 40 ? A : 0);
      sees("from 41 on", ahead(set(r)), alone(0, sign * 4001), r >= 41 ? A : 0);
    }
  for (int r = MOST - 1; r <= MOST; r++)
    for (int sign = -1; sign <= 1; sign += 2) {
      ground_fault f = alone(0, sign * 4000);
      uint8_t *record = ahead(set(r));
      f.i[0].im = -40;
      put(record, GORSEPETAL_AT_NEGATIVE_SEQUENCE_PICKUP, 40);
      sees("at the largest alone", record, f, r == MOST ? A : 0);
      f.v[0].im += sign;
      sees("beyond the largest", record, f, 0);
    }
}

/* ---- q and Ir ---- */

/* Where I is 0, so are n and q. The reactance test alone would say yes to each: Ir = (0, -1000) and Va is (-1000, 0). One count of current
** makes q -1001 * 1000, and that is inside. Then with k = 500, where E takes Ia away: Ir = (0, -2000). */
static void q_of_zero(void) {
  ground_fault f = {{{-1000, 0}, {4000, 0}, {-1000, 0}}, {{0, 0}, {0, -1000}, {0, 0}}};
  for (int r = 1; r <= MOST; r += MOST - 1) sees("no current in a and c", ahead(with_k(0, r)), f, 0);
  f.i[0].im = -1;
  for (int r = 1; r <= MOST; r += MOST - 1) sees("one count in a", ahead(with_k(0, r)), f, A);
  f = (ground_fault){{{-1000, 0}, {4000, 0}, {4000, 0}}, {{0, 1000}, {0, -3000}, {0, 0}}};
  for (int r = 1; r <= MOST; r += MOST - 1) sees("E takes it away", ahead(set(r)), f, 0);
  f.i[0].im = 999;
  sees("one count less", ahead(set(MOST)), f, A);
}

/* Ir = (1000, 0) lies along Z I = (1000000, 0), so q is 0 and n is not. */
static void residual_current_along_z_i(void) {
  for (int sign = -1; sign <= 1; sign += 2) {
    const ground_fault f = {{{0, sign * 500}, {4000, 4000}, {4000, 4000}}, {{0, -1000}, {1000, 1000}, {0, 0}}};
    sees("k = 0", ahead(with_k(0, MOST)), f, 0);
  }
}

/* What flows in on a flows out on b: a fault between phases, of which the ground loops see nothing here. */
static void no_residual_current(void) {
  for (int re = -1000; re <= 1000; re += 500)
    for (int im = -1000; im <= 1000; im += 500) {
      const ground_fault f = {{{re, im}, {im, re}, {0, 0}}, {{0, -1000}, {0, 1000}, {0, 0}}};
      sees("Ir = 0", ahead(set(MOST)), f, 0);
    }
}

/* ---- k ---- */

/* Its part in I moves the top, to 0.8 (1 + k) 1000. It has none in Ir, so the sides stay at 1000. */
static void k_in_the_current(void) {
  static const int tops[][2] = {{0, 800}, {250, 1000}, {500, 1200}, {1000, 1600}};
  for (size_t t = 0; t < sizeof tops / sizeof *tops; t++) {
    const uint8_t *record = ahead(with_k(tops[t][0], USUAL));
    sees("below the top", record, alone(tops[t][1] - 1, 0), A);
    sees("on it", record, alone(tops[t][1], 0), 0);
    for (int sign = -1; sign <= 1; sign += 2) {
      sees("on the side", record, alone(400, sign * 1000), A);
      sees("one step beyond", record, alone(400, sign * 1001), 0);
    }
  }
}

/* With k = j 0.5, Z I = (1000000, 500000), n = 500000 (2 Va.im - Va.re) and q = -1000 * 1000000. With R = 10 the sides are where
** |2 Va.im - Va.re| is 2000: they lean as Z I does. With -j 0.5 the other way. */
static void k_with_an_angle(void) {
  for (int sign = -1; sign <= 1; sign += 2) {
    uint8_t *record = ahead(with_k(0, USUAL));
    put(record, GORSEPETAL_AT_K_IMAGINARY, sign * 500);
    sees("on one side", record, alone(400, sign * 1200), A);
    sees("one step beyond", record, alone(400, sign * 1201), 0);
    sees("on the other", record, alone(400, sign * -800), A);
    sees("one step beyond", record, alone(400, sign * -801), 0);
  }
}

/* E is rounded, a tie upward. -500.5 becomes -500: I is -1501 and the top at 1200.8. 500.5 becomes 501: I is 1502 and the top at -1201.6,
** and there inside is above. */
static void k_product_is_rounded(void) {
  ground_fault f = alone(1200, 0);
  f.i[0].im = -1001;
  sees("below 1200.8", ahead(set(USUAL)), f, A);
  f.v[0].re = 1201;
  sees("above it", ahead(set(USUAL)), f, 0);
  f = (ground_fault){{{-1201, 0}, {-4000, 0}, {-4000, 0}}, {{0, 1001}, {0, 0}, {0, 0}}};
  sees("above -1201.6", ahead(set(USUAL)), f, A);
  f.v[0].re = -1202;
  sees("below it", ahead(set(USUAL)), f, 0);
}

/* ---- Direction and polarising voltage ---- */

/* 3I2 is 1000, and T is -1300000000: -1300 thousandths of its square. */
static void by_direction(void) {
  static const struct {
    int zf, zr, pickup, direction;
  } limits[] = {{-300, 300, 1000, FORWARD},   {-300, 300, 1001, NONE},     {-1299, 300, 50, FORWARD}, {-1300, 300, 50, NONE},
                {-20000, -1301, 50, REVERSE}, {-20000, -1300, 50, NONE},   {-20000, 20000, 1, NONE},  {19999, 20000, 1, FORWARD},
                {19999, 20000, 42000, NONE},  {-20000, -19999, 1, REVERSE}};
  const ground_fault f = to_ground(700, -1600);
  for (size_t k = 0; k < sizeof limits / sizeof *limits; k++) {
    uint8_t *record = set(17);
    put(record, GORSEPETAL_AT_FORWARD_LIMIT, limits[k].zf);
    put(record, GORSEPETAL_AT_REVERSE_LIMIT, limits[k].zr);
    put(record, GORSEPETAL_AT_NEGATIVE_SEQUENCE_PICKUP, limits[k].pickup);
    int is_forward = limits[k].direction == FORWARD;
    has("by direction", record, window_of_fault(&f, 2), is_forward ? A : 0);
    check("direction", out.all[GUARD + GORSEPETAL_DECISION_AT_DIRECTION], (uint64_t)limits[k].direction);
    check("trip", out.all[GUARD + GORSEPETAL_DECISION_AT_TRIP], (uint64_t)is_forward);
  }
}

/* Three voltages alike leave 3V1 = 0, so no circle asserts. The quadrilaterals do not ask for it. With no voltage all three operate: for b
** and c too, n is 0 and q is not. */
static void no_polarising_voltage(void) {
  static const int voltages[][2] = {{0, ALL}, {399, ALL}, {400, A}, {1199, A}, {1200, 0}};
  for (size_t k = 0; k < sizeof voltages / sizeof *voltages; k++) {
    const int v = voltages[k][0], quadrilaterals = voltages[k][1];
    sees("3V1 = 0", ahead(set(USUAL)), (ground_fault){{{v, 0}, {v, 0}, {v, 0}}, {{0, -1000}, {0, 0}, {0, 0}}}, quadrilaterals);
    const uint8_t wanted[] = {quadrilaterals != 0, (uint8_t)quadrilaterals, 0, FORWARD};
    check_bytes("by byte 1 alone", out.all + GUARD, wanted, sizeof wanted);
  }
}

/* ---- The largest numbers ---- */

/* A square wave of this height on a channel of two ends. Its phasor is real: 164736 * 32767 is 41182.7 times 131072, which rounds to 41183,
** and 164736 * 32000 is 40218.75 times it. */
static void square_wave(uint8_t *window, int channel, int height) {
  for (int n = 0; n < GORSEPETAL_FRAMES; n++) put(window, 2 * (CHANNELS * n + channel), n <= 4 || n >= 12 ? height : -height);
}

/* Currents of full scale in all three phases, with a little less in c so that there is a 3I2, and such voltages, all in phase or against
** it. Ir is 2 * 41183 + 40219 = 122585, V is 41183 / 122585 of it, so is n of q: between the sides from R = 4 on. Along Ir a voltage has
** no part in the reactance number, which is -r q. With Z = 20000 (1 + j) and k = 1 + j 0.5, q is about -20000 * 5.5 / 3 times Ir², which is
** -5.5E14, and r q is -1.1E18. With Z = 20000 + j and k = 1 - j 0.5, Z I is behind Ir: q is above 0, and nothing is inside. */
static void largest_numbers(void) {
  static const struct {
    int z, k, v, r, quadrilaterals; /* of Z and k the imaginary parts */
  } settings[] = {{20000, 500, 0, 1, ALL},    {20000, 500, 1, 3, 0},    {20000, 500, 1, 4, ALL},
                  {20000, 500, 1, MOST, ALL}, {20000, -500, 1, 4, ALL}, {20000, 500, 1, OFF, 0},
                  {1, -500, 0, MOST, 0},      {1, -500, 1, MOST, 0},    {20000, -500, 1, MOST, ALL}};
  for (size_t s = 0; s < sizeof settings / sizeof *settings; s++)
    for (int signs = 0; signs < 4; signs++) {
      uint8_t *record = ahead(with_k(1000, settings[s].r)), window[WINDOW] = {0};
      int v = signs % 2 ? settings[s].v : -settings[s].v, i = signs / 2 ? 1 : -1;
      const ground_fault f = {{{41183 * v, 0}, {41183 * v, 0}, {41183 * v, 0}}, {{41183 * i, 0}, {41183 * i, 0}, {40219 * i, 0}}};
      put(record, GORSEPETAL_AT_REACH, LARGEST_REACH);
      put(record, GORSEPETAL_AT_REPLICA_REAL, 20000);
      put(record, GORSEPETAL_AT_REPLICA_IMAGINARY, settings[s].z);
      put(record, GORSEPETAL_AT_K_IMAGINARY, settings[s].k);
      for (int x = 0; x < PHASES; x++) {
        int height = i * (x < 2 ? GORSEPETAL_LARGEST_SAMPLE : 32000);
        square_wave(window, x, v * GORSEPETAL_LARGEST_SAMPLE);
        square_wave(window, 3 + x, height);
        square_wave(window, 6 + x, -height);
      }
      check("by the rule", (uint64_t)by_the_rule(record, &f), (uint64_t)settings[s].quadrilaterals);
      has("full scale", record, window, settings[s].quadrilaterals);
    }
}

/* ---- Drawn ---- */

static uint32_t seed;

static int drawn(int low, int high) {
  seed = 1664525 * seed + 1013904223;
  return low + (int)((seed >> 8) % (uint32_t)(high - low + 1));
}

/* Settings from their whole ranges, with R small and large by turns, and phasors of no meaning. What the rule says is asked for where the
** direction is forward, which the older cases have to themselves. Each of the three is seen and not seen, and so is every set of them. */
static void drawn_faults(void) {
  int sets[ALL + 1] = {0}, not_forward = 0, different = 0;
  seed = 7;
  for (int n = 0; n < 3000; n++) {
    uint8_t *record = ahead(with_k(drawn(0, 1000), n % 4 == 0 ? drawn(1, MOST) : drawn(0, 30)));
    ground_fault f;
    for (int x = 0; x < PHASES; x++) {
      f.v[x] = (counts){drawn(-4000, 4000), drawn(-4000, 4000)};
      f.i[x] = (counts){drawn(-2000, 2000), drawn(-2000, 2000)};
    }
    put(record, GORSEPETAL_AT_K_IMAGINARY, drawn(-500, 500));
    put(record, GORSEPETAL_AT_REPLICA_REAL, drawn(0, 20000) / (1 << n % 8));
    put(record, GORSEPETAL_AT_REPLICA_IMAGINARY, 1 + drawn(0, 19999) / (1 << n % 8));
    put(record, GORSEPETAL_AT_REACH, drawn(1, LARGEST_REACH));
    if (n % 10 == 0) put(record, GORSEPETAL_AT_FORWARD_LIMIT, -20000);
    const uint8_t *window = window_of_fault(&f, 2);
    int is_forward = ways[BY_DECIDE].decided(record, window)[GORSEPETAL_DECISION_AT_DIRECTION] == FORWARD;
    int quadrilaterals = is_forward ? by_the_rule(record, &f) : 0;
    has("drawn", record, window, quadrilaterals);
    sets[quadrilaterals]++;
    not_forward += !is_forward && by_the_rule(record, &f) != 0;
  }
  for (int set = 0; set <= ALL; set++) different += sets[set] > 0;
  check("sets of quadrilaterals", (uint64_t)different, 8);
  check("some were inside, and not forward", not_forward > 10, 1);
}

/* ---- Beside all else ---- */

/* Byte 1 has all six bits: currents at end 1 alone operate, and without voltage all three quadrilaterals operate. */
static void beside_phases_that_operate(void) {
  const ground_fault f = {{{0, 0}}, {{0, -1000}, {0, -900}, {0, -800}}};
  uint8_t *window = window_of_fault(&f, 2);
  for (int x = 0; x < PHASES; x++) phasor(window, 6 + x, 0, 0);
  has("all six", ahead(set(USUAL)), window, ALL);
  check("byte 1", out.all[GUARD + GORSEPETAL_DECISION_AT_PHASES], 63);
  check("phases", out.all[GUARD + GORSEPETAL_DECISION_AT_PHASES] & GORSEPETAL_PHASES, GORSEPETAL_PHASES);
  phasor(window, 6, 0, 1000); /* phase a flows out again */
  has("all three, and phases b and c", ahead(set(USUAL)), window, ALL);
  check("byte 1", out.all[GUARD + GORSEPETAL_DECISION_AT_PHASES], ALL + GORSEPETAL_PHASE_B + GORSEPETAL_PHASE_C);
}

/* A fault with little resistance is in the circle too: 700 * 4700 + 500² is below 1200 * 4700. */
static void beside_a_circle(void) {
  const ground_fault f = to_ground(700, -500);
  static const uint8_t both[] = {1, A, GORSEPETAL_LOOP_AG, FORWARD}, circle[] = {1, 0, GORSEPETAL_LOOP_AG, FORWARD};
  for (int way = 0; way < WAYS; way++) {
    check_bytes("R = 5", ways[way].decided(set(5), window_of_fault(&f, 2)), both, sizeof both);
    check_bytes("R = 4", ways[way].decided(set(4), window_of_fault(&f, 2)), circle, sizeof circle);
  }
}

/* Only end 1 has a part in it: the currents leave at the last end, and the line has two to six. */
static void on_two_to_six_ends(void) {
  for (int ends = FEWEST_ENDS; ends <= MOST_ENDS; ends++)
    for (int x = 0; x < PHASES; x++)
      for (int r = 15; r <= 16; r++) {
        const ground_fault of_a = to_ground(700, -1600);
        uint8_t *record = set(r);
        record[1] = (uint8_t)ends;
        sees("from 16 on", record, moved(&of_a, x), r == 16 ? A << x : 0);
      }
}

/* From two entries on, record by record of an event file. */
static void in_an_event_file(void) {
  const ground_fault f = to_ground(700, -1600);
  const uint8_t *window = window_of_fault(&f, 2);
  static const uint8_t wanted[] = {1, A, 0, FORWARD};
  lend(&state, zeros, STATE);
  check("propose", propose(set(16), RECORD), GORSEPETAL_DONE);
  check("confirm", confirm(set(16), RECORD), GORSEPETAL_DONE);
  lend_reader(2, 0, 0);
  for (uint32_t n = 0; n < 15; n++) reads("read", n + 1, window + FRAME * n, GORSEPETAL_TOO_FEW_FRAMES);
  reads("read", 16, window + FRAME * 15, GORSEPETAL_DONE);
  check_bytes("decision", out.all + GUARD, wanted, sizeof wanted);
}

/* No decision, and nothing written. */
static void refused_with_a_quadrilateral(void) {
  const ground_fault f = to_ground(700, -1600);
  uint8_t *window = window_of_fault(&f, 2);
  lend_state(set(16), zeros);
  check("no room", decide(window, WINDOW, DECISION - 1), GORSEPETAL_NO_ROOM);
  out_untouched();
  put(window, WINDOW - 2, GORSEPETAL_MISSING);
  check("the last sample missing", decide(window, WINDOW, DECISION), refused(GORSEPETAL_MISSING_SAMPLE, WINDOW / 2 - 1));
  out_untouched();
}

/* A state of version 5, window and all: its records have zeros at 28 and 29. It reads back, decides and feeds as it did, with no
** quadrilateral. With an R in force it is a state of this version. */
static void state_of_version_5(void) {
  const ground_fault f = to_ground(700, -1600);
  uint8_t wanted[DECISION] = {0, 0, 0, FORWARD, 0, 0, 0, 0, 0, 0x01, 0xF4, 0x00};
  stored_state_serves(set(OFF), window_of_fault(&f, 2), wanted);
  wanted[GORSEPETAL_DECISION_AT_TRIP] = 1;
  wanted[GORSEPETAL_DECISION_AT_PHASES] = A;
  stored_state_serves(set(16), window_of_fault(&f, 2), wanted);
  check("length", state.length, 738);
}

const struct test_case quadrilateral_cases[] = {
    {"names of the quadrilaterals", names_of_the_quadrilaterals},
    {"fault that no circle sees", fault_that_no_circle_sees},
    {"sound phases at a large resistive reach", sound_phases_at_a_large_resistive_reach},
    {"on the reactance line", on_the_reactance_line},
    {"every reach has its line", every_reach_has_its_line},
    {"second reach has no part", second_reach_has_no_part},
    {"on each side", on_each_side},
    {"one part in eighty million", one_part_in_eighty_million},
    {"residual current turned round", residual_current_turned_round},
    {"solid fault", solid_fault},
    {"every R", every_r},
    {"q of zero", q_of_zero},
    {"residual current along Z I", residual_current_along_z_i},
    {"no residual current", no_residual_current},
    {"k in the current", k_in_the_current},
    {"k with an angle", k_with_an_angle},
    {"k product is rounded", k_product_is_rounded},
    {"quadrilateral by direction", by_direction},
    {"no polarising voltage", no_polarising_voltage},
    {"largest numbers", largest_numbers},
    {"drawn faults", drawn_faults},
    {"beside phases that operate", beside_phases_that_operate},
    {"beside a circle", beside_a_circle},
    {"quadrilaterals on two to six ends", on_two_to_six_ends},
    {"quadrilateral in an event file", in_an_event_file},
    {"refused with a quadrilateral", refused_with_a_quadrilateral},
    {"state of version 5", state_of_version_5},
    {0, 0},
};
