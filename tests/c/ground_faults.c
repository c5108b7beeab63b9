/* Ground faults by the voltages and the currents of end 1, and what the rule of the quadrilaterals makes of them, worked out in whole
** numbers. */
#include <string.h>

#include "ground_faults.h"

ground_fault moved(const ground_fault *f, int phases) {
  ground_fault on;
  for (int x = 0; x < PHASES; x++) {
    on.v[(x + phases) % PHASES] = f->v[x];
    on.i[(x + phases) % PHASES] = f->i[x];
  }
  return on;
}

uint8_t *window_of_fault(const ground_fault *f, int ends) {
  static uint8_t window[LONGEST];
  int imaginary = 4 * GORSEPETAL_CHANNELS(ends); /* the fifth frame makes the imaginary parts */
  memset(window, 0, sizeof window);
  for (int x = 0; x < PHASES; x++) {
    const counts v = f->v[x], i = f->i[x];
    put(window, 2 * x, 8 * v.re);
    put(window, 2 * (imaginary + x), -8 * v.im);
    put(window, 2 * (3 + x), 8 * i.re);
    put(window, 2 * (imaginary + 3 + x), -8 * i.im);
    put(window, 2 * (3 * ends + x), -8 * i.re);
    put(window, 2 * (imaginary + 3 * ends + x), 8 * i.im);
  }
  return window;
}

/* The rule as document 02 has it, with numbers so wide that none here is too large. Settings are thousandths: Z I carries a factor of 1000
** and r Z I one of 1000000, so V gets it too. */

__extension__ typedef __int128 wide;
typedef struct {
  wide re, im;
} number;

static number plus(number p, number q) { return (number){p.re + q.re, p.im + q.im}; }
static number times(number p, number q) { return (number){p.re * q.re - p.im * q.im, p.re * q.im + p.im * q.re}; }
static number scaled(wide by, number p) { return (number){by * p.re, by * p.im}; }
static wide im_conjugate(number p, number q) { return p.im * q.re - p.re * q.im; } /* Im(p q*) */
static wide size(wide x) { return x < 0 ? -x : x; }
static number of(counts c) { return (number){c.re, c.im}; }

static int field(const uint8_t *record, int at) { return 256 * record[at] + record[at + 1]; }
static int signed_field(const uint8_t *record, int at) { return (int16_t)field(record, at); }

/* To the nearest, a tie upward. */
static wide by_1000(wide x) {
  wide up = x + 500, rest = up % 1000;
  return (up - (rest < 0 ? rest + 1000 : rest)) / 1000;
}

int by_the_rule(const uint8_t *record, const ground_fault *f) {
  wide reach = field(record, GORSEPETAL_AT_REACH), resistive = field(record, GORSEPETAL_AT_RESISTIVE_REACH);
  number z = {field(record, GORSEPETAL_AT_REPLICA_REAL), field(record, GORSEPETAL_AT_REPLICA_IMAGINARY)};
  number k = {field(record, GORSEPETAL_AT_K_REAL), signed_field(record, GORSEPETAL_AT_K_IMAGINARY)};
  number residual = plus(plus(of(f->i[0]), of(f->i[1])), of(f->i[2])), e = times(k, residual);
  int bits = 0;
  for (int x = 0; x < PHASES; x++) {
    number v = of(f->v[x]), zi = times(z, plus(of(f->i[x]), (number){by_1000(e.re), by_1000(e.im)}));
    wide reactance = im_conjugate(plus(scaled(reach, zi), scaled(-1000000, v)), residual);
    wide n = im_conjugate(v, zi), q = im_conjugate(residual, zi);
    if (resistive != 0 && reactance > 0 && q != 0 && 10 * size(n) <= resistive * size(q)) bits |= GORSEPETAL_QUADRILATERAL_A << x;
  }
  return bits;
}

void has(const char *what, const uint8_t *record, const uint8_t *window, int quadrilaterals) {
  uint8_t off[RECORD], wanted[DECISION];
  memcpy(off, record, RECORD);
  put(off, GORSEPETAL_AT_RESISTIVE_REACH, 0);
  for (int way = 0; way < WAYS; way++) {
    memcpy(wanted, ways[way].decided(off, window), DECISION);
    check("none where R is 0", wanted[GORSEPETAL_DECISION_AT_PHASES] & ~GORSEPETAL_PHASES, 0);
    wanted[GORSEPETAL_DECISION_AT_PHASES] |= (uint8_t)quadrilaterals;
    if (quadrilaterals != 0) wanted[GORSEPETAL_DECISION_AT_TRIP] = 1;
    ways[way].decided(record, window);
    out_is(what, wanted);
  }
}
