/* How long a call takes. */
#ifndef CLOCK_H
#define CLOCK_H

/* Nanoseconds of one call, on average over a round of some hundred. What else the machine does lengthens a round: of many the shortest
** tells most. What it takes to make the call is in it, a few instructions. */
long nanoseconds(void (*call)(void));

#endif
