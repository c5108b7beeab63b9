/* Lines by their currents alone, and what the rules of the differential make of them, worked out in whole numbers. */
#ifndef TESTS_LINES_H
#define TESTS_LINES_H
#include "lent.h"

enum { CHANGE = GORSEPETAL_DECISION_AT_CHANGE_A, LARGEST_SLOPE = 100, LARGEST_PICKUP = 42000 };

/* A current into the line, in counts; and a line by the currents of each end and phase. It has no voltage, so no loop asserts and there is
** no direction: a phase that operates trips, and nothing else does. */
typedef struct {
  int re, im;
} current;
typedef struct {
  int ends;
  current of[MOST_ENDS][PHASES];
} line;

/* In one phase so much flows in at end 1 and out at end 2. */
void outfeed(line *l, int phase, int in, int out);

/* Its window; parts up to 4095 come out exactly. And the good record with so many ends, this slope and this pickup. Each stays until the
** next call. */
const uint8_t *window_of(const line *l);
const uint8_t *record_of(int ends, int slope, int pickup);

/* The 32 bytes that the rules make of a line. For c every slope is tried. */
void work_out(const line *l, int slope, int pickup, uint8_t wanted[DECISION]);

/* By decide and by feed all 32 bytes are those of the rules. */
void by_the_rules(const char *what, const line *l, const uint8_t *window, int slope, int pickup);

/* And c of each phase is what was worked out by hand, whatever the slope in force is. A phase operates exactly if that is not above c. The
** window is the line's own, or one that is given. */
void changes(const char *what, const line *l, int pickup, int a, int b, int c);
void changes_at(const char *what, const line *l, const uint8_t *window, int pickup, int a, int b, int c);

#endif
