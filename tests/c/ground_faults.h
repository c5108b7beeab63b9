/* Ground faults by the voltages and the currents of end 1, and what the rule of the quadrilaterals makes of them, worked out in whole
** numbers. */
#ifndef TESTS_GROUND_FAULTS_H
#define TESTS_GROUND_FAULTS_H
#include "lent.h"

/* Phasors in counts, of phases a, b and c. */
typedef struct {
  int re, im;
} counts;
typedef struct {
  counts v[PHASES], i[PHASES];
} ground_fault;

/* The same fault so many phases on: with 1, what was phase a's is phase b's. */
ground_fault moved(const ground_fault *f, int phases);

/* Its window on a line with so many ends, which stays until the next call. The currents flow in at end 1 and out at the last end, so that
** no phase operates. Parts up to 4095 come out exactly. */
uint8_t *window_of_fault(const ground_fault *f, int ends);

/* The quadrilaterals that operate by the settings of a record, as the bits of byte 1, for a fault ahead. */
int by_the_rule(const uint8_t *record, const ground_fault *f);

/* By decide and by feed byte 1 has these quadrilaterals, and the relay trips if there is one. All else is as by the same record with an R
** of 0. */
void has(const char *what, const uint8_t *record, const uint8_t *window, int quadrilaterals);

#endif
