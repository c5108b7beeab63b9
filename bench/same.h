/* Whether the library and every version of plain C do the same. */
#ifndef SAME_H
#define SAME_H
#include "lent.h"

/* Makes the call by every version on slices like these. All must give the same answer and leave the same bytes, in every slice and after
** it; else the program ends with a message. */
void same(which_call call, const lent *slices);

/* The same for a window: for decide, and for feed of its newest frame. */
void same_decided(const lent *window);

/* The same for every refusal of the calls, at every place, and for calls with several things wrong at once. */
void same_refusals(void);

/* The same about the edges of both zones. */
void same_zones(void);

/* The same for balanced faults, with a 3I2 about its pickup. */
void same_balanced(void);

/* The same for every slope at which a phase can change, with slopes and pickups about it. */
void same_changes(void);

/* The same about the edges of the quadrilaterals, in every direction, and for every set of them. */
void same_quadrilaterals(void);

/* The same for event files: every refusal, readers of all kinds, damaged ones too, and records cut at each place. */
void same_events(void);

/* The same for so many runs of calls: each goes on with the state that the one before left. */
void same_runs(long runs);

/* Prints how many calls were compared, and how many of them were refused with each number; and what they showed, as seen.h has it. */
void print_compared(void);

#endif
