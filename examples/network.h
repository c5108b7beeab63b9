/* What the examples of networks share: complex numbers, symmetrical components, fields of 16 bits. No library of mathematics is used. */
#ifndef NETWORK_H
#define NETWORK_H
#include "gorsepetal.h"

typedef struct { double re, im; } Complex;

static inline Complex plus(Complex p, Complex q) { return (Complex){p.re + q.re, p.im + q.im}; }
static inline Complex minus(Complex p, Complex q) { return (Complex){p.re - q.re, p.im - q.im}; }
static inline Complex times(Complex p, Complex q) { return (Complex){p.re * q.re - p.im * q.im, p.re * q.im + p.im * q.re}; }
static inline Complex scaled(Complex p, double by) { return (Complex){p.re * by, p.im * by}; }
static inline double along(Complex p, Complex q) { return p.re * q.re + p.im * q.im; }  /* the real part of p times the conjugate of q */
static inline double across(Complex p, Complex q) { return p.im * q.re - p.re * q.im; } /* and the imaginary part */
static inline Complex over(Complex p, Complex q) { return scaled(times(p, (Complex){q.re, -q.im}), 1 / along(q, q)); }
static inline Complex parallel(Complex p, Complex q) { return over(times(p, q), plus(p, q)); }

/* The square root, by Newton. */
static inline double root(double x) {
  double y = x > 1 ? x : 1;
  for (int i = 0; i < 60; i++) y = (y + x / y) / 2;
  return y;
}

static inline double size(Complex p) { return root(along(p, p)); }
static inline int rounded(double x) { return (int)(x < 0 ? x - 0.5 : x + 0.5); }

#define ROOT2 1.4142135623730950

/* The sequences, and what they make in the phases a, b and c. */
enum { POSITIVE, NEGATIVE, ZERO };
static inline void to_phases(const Complex s[3], Complex phase[3]) {
  static const Complex A = {-0.5, 0.86602540378443865}, A2 = {-0.5, -0.86602540378443865};
  phase[0] = plus(s[ZERO], plus(s[POSITIVE], s[NEGATIVE]));
  phase[1] = plus(s[ZERO], plus(times(A2, s[POSITIVE]), times(A, s[NEGATIVE])));
  phase[2] = plus(s[ZERO], plus(times(A, s[POSITIVE]), times(A2, s[NEGATIVE])));
}

/* A field or a sample: upper byte first, and two's complement. */
static inline void put(uint8_t *bytes, int at, int number) {
  bytes[at] = (uint8_t)(((unsigned)number >> 8) & 255);
  bytes[at + 1] = (uint8_t)((unsigned)number & 255);
}

#endif
