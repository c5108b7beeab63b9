/* What the compared calls showed of the second zone, of balanced faults, of the slopes at which the phases change, of the quadrilaterals
** and of event files: a comparison in which a loop never asserted, or a rule never decided, would say nothing of it. */
#ifndef SEEN_H
#define SEEN_H
#include "lent.h"

/* Notes what a call showed, by its answer and the slices that it left. */
void see(which_call call, uint64_t answer, const lent *left);

/* Prints how often each thing was seen that must be. If one never was, the program ends with a message. */
void print_seen(void);

#endif
