/* The calls that are compared and counted, ready to be made: windows that a line sees, and a sequence of calls of all kinds. */
#ifndef WINDOWS_H
#define WINDOWS_H
#include "lent.h"

/* A fresh relay, nothing to read, and room for 32 bytes. */
void lend_fresh(lent *to);

/* The record of document 01, "Window program", with so many ends. Its second zone and its quadrilaterals are off. */
void good_record(uint8_t *record, int ends);

/* Decide, by that record. Quiet: a balanced load flows in at end 1 and out at the others, and nothing trips. Fault: phase a has a fault to
** ground on the line, with large currents into it from all ends, and the relay trips. Dead: every sample is 0. */
void lend_quiet(lent *to, int ends);
void lend_fault(lent *to, int ends);
void lend_dead(lent *to, int ends);

/* Decide, by that record: a fault of all three phases on the line, with currents into it from all ends. Every phase reaches the record's
** pickup, and none would reach the largest that there is. */
void lend_three(lent *to, int ends);

/* Decide, by that record: each phase has 2000 counts in U, flowing in at end 1 and partly out at the last end, and changes at slope c, 0 to
** 99. The differential is half a percent of U above c in phase a, c + 1 percent exactly in b, and a tenth of a percent above c in c. */
void lend_change(lent *to, int ends, int c);

/* Decide, by that record: loops that have their edge at a whole reach. With phase 0, AG asserts from a reach of 250 on, CA from 500 on and
** AB from 1000 on; with 1 and 2 by turn. Here the direction is reverse, and it is forward by limits above 500. No phase operates. */
void lend_edge(lent *to, int ends, int phase);

/* Decide, by that record: faults of all three phases, their currents flowing in at end 1 and out at end 2, so that no phase operates. 3I2
** is exactly so many counts, all of them in Ia. Which loops assert is said for 0 counts. */
typedef enum {
  HALFWAY,           /* all six loops from a reach of 500 on; T is 0, so there is never a direction */
  LOWER_VA,          /* much the same, but forward where 3I2 reaches its pickup */
  HIGHER_VA,         /* and here reverse */
  PHASE_LOOPS_ALONE, /* from 500 on: a zero sequence hides the fault from the ground loops */
  ALL_BUT_AB,        /* at the record's reach all loops but this one; from 924 on it too */
  ALL_BUT_BC,
  ALL_BUT_CA,
  BEHIND,         /* behind the relay: no loop, at any reach */
  ONE_COUNT_LEFT, /* of the voltages: all six loops, though this may be noise and the current a load */
  BALANCED_FAULTS
} balanced_fault;
void lend_balanced(lent *to, int ends, balanced_fault fault, int i2);

/* Decide, by that record with a reach of 800, k = 500, a resistive reach of 10, and limits by which all of these are forward: faults of a
** phase to ground, with exact edges. Their currents flow in at end 1 and out at end 2, so that no phase operates. Ir is (0, -1000) if
** nothing else is said. The quadrilateral of the phase operates, or none. */
typedef enum {
  BELOW_TOP, /* one count below the reactance line; n is 0 */
  ON_TOP,    /* none: the line is outside */
  ON_SIDE,   /* the sides are inside; at a resistive reach of 9 none */
  ON_OTHER_SIDE,
  BEYOND_SIDE, /* by one count: none; at 11 it operates */
  BEYOND_OTHER_SIDE,
  NO_LOOP_CURRENT,  /* I and q are 0: none, though the reactance number is above 0 */
  TURNED_ROUND,     /* Ir is (0, 1000) and q above 0: one count above the line is inside */
  TURNED_ROUND_TOP, /* the same, on the line: none */
  NO_RESIDUAL,      /* Ir is 0: none */
  NO_POLARISING,    /* 3V1 is 0, so no circle asserts; it operates */
  RESISTIVE_FAULTS
} resistive_fault;
void lend_resistive(lent *to, int ends, resistive_fault fault, int phase);

/* Decide, by the same record: a fault of all three phases to ground, each with another current, of which the quadrilaterals of this set
** operate at every resistive reach but 0: A is 1, B 2, C 4. */
enum { SETS = 8 };
void lend_quadrilaterals(lent *to, int ends, int set);

/* Decide, by the same record: square waves of full scale on every channel, but a little less in the currents of c, so that there is a 3I2.
** The roots are as long as they can be, every phase operates, and all three quadrilaterals do at a resistive reach of 4 and more. */
void lend_full_scale(lent *to, int ends);

/* What document 02 added to the settings, the second zone and the quadrilaterals: both off, as in every record from before them, or both
** on. */
typedef enum { OFF, ON, ZONES } added_zones;
extern const char *const zone_names[ZONES];

/* Turns one of them on in the record in force: the second zone at 1200 thousandths of the replica, the quadrilaterals at 20 tenths. */
void turn_on_second_zone(lent *window);
void turn_on_quadrilaterals(lent *window);

/* Of a window that is lent: the ends by the record in force, the index of the last sample, and how a sample is marked as missing. */
int ends_of(const lent *window);
int last_sample(const lent *window);
void miss(lent *window, int index);

/* Makes feed of decide: the newest frame of the window that is lent is to be fed, and the fifteen before it have been. */
void feed_newest(lent *window);

/* A number from low to high, drawn; the same in every run. */
int drawn(int low, int high);

/* The nth call of a sequence that is the same in every run, every one accepted: extreme windows by extreme records first, then drawn ones;
** 2 to 6 ends by turns. Entries and read-back have the nth record. If the added zones are on, the reach of each is by turns as small as it
** may be, as large, and between; all else is as if they were off. */
void lend_nth(lent *to, which_call call, long n, added_zones zone);

/* Changes one thing in the call that was lent last, so that it is mostly refused: a sample is missing, or a byte of a record is another.
** The event calls are in event_calls.h. */
void spoil(lent *slices, which_call call);

#endif
