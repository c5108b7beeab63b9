/* A call that is made again and again to be counted or measured, and how its figures are printed. */
#ifndef MEASURE_H
#define MEASURE_H
#include "count.h"
#include "lent.h"

/* The call, by the version and on the slices that are set here. */
extern const struct version *version;
extern which_call call;
extern lent slices;

/* Makes it on a copy of the slices, so that it can be made again. */
void make_it(void);

/* What it takes by one version. */
steps counted(int version, which_call call);
long all(steps s);

/* Lends decide each window that a line sees, for each number of ends. */
void for_each_window(void (*what)(const char *name, int ends));

void print_count(steps s);

/* The archive's part of another number, rounded up to hundredths: it is never said to be smaller than it is. */
void print_ratio(long mine, long theirs);

/* The archive, plain -O3 and their ratios, inside and all, for the call that is lent. And a table of that, with a line for each number of
** ends. */
void print_beside_plain(which_call which);
void table_by_ends(const char *what, which_call which, void (*lend)(int ends));

/* How many instructions the calls take, in tables; what the second zone, the slopes at which the phases change, the quadrilaterals and
** event files cost; the most over so many windows. */
void instruction_tables(void);
void second_zone_tables(void);
void change_tables(void);
void quadrilateral_tables(void);
void event_tables(void);
void extent_tables(long windows);

#endif
