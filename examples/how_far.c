/*
** The commissioning desk's question: how far off can the slope be? The paper mill's slope was said as 15, heard as 50, and in this story
** entered twice. Each decision has the answer, whatever slope is in force: c, the slope up to which a phase operates. What is expected of
** each fault is worked out below; the program ends with 1 if the relay answers otherwise. Run it with: sh examples/run_how_far
*/
#include <stdio.h>

#include "mill.h"

enum { SAID = 15, HEARD = 50 };

static int faults;

static void expect(int as_expected) {
  if (as_expected) return;
  printf("  NOT AS EXPECTED\n");
  faults++;
}

/* ---- Two relays: one with the slope as it was heard, one as it was said ---- */

static uint8_t as_heard[GORSEPETAL_STATE_LENGTH], as_said[GORSEPETAL_STATE_LENGTH]; /* all zero: fresh relays */

static void report(const char *step, uint64_t answer) {
  uint64_t number = GORSEPETAL_NUMBER(answer);
  printf("  %s: %s\n", step, number == GORSEPETAL_DONE ? "done" : meaning(number));
  expect(answer == GORSEPETAL_DONE);
}

static int field(const uint8_t *record, int at) { return 256 * record[at] + record[at + 1]; }

/* Two entries, each in a buffer filled anew. What is in force is read back. */
static void enter(uint8_t *relay, int slope) {
  uint8_t first[GORSEPETAL_RECORD_LENGTH], second[GORSEPETAL_RECORD_LENGTH], in_force[GORSEPETAL_RECORD_LENGTH] = {0};
  fill(first, slope);
  fill(second, slope);
  report("propose", gorsepetal_propose(relay, GORSEPETAL_STATE_LENGTH, first, sizeof first));
  report("confirm", gorsepetal_confirm(relay, GORSEPETAL_STATE_LENGTH, second, sizeof second));
  report("read back", gorsepetal_read_back(relay, GORSEPETAL_STATE_LENGTH, in_force, sizeof in_force));
  printf("  in force: slope %d percent, pickup %d counts\n", field(in_force, GORSEPETAL_AT_SLOPE), field(in_force, GORSEPETAL_AT_PICKUP));
  expect(field(in_force, GORSEPETAL_AT_SLOPE) == slope);
}

/* A fault on phase a, with so many counts into the line at end 1 and so many out of it at end 2. A sample of 8 in frame 0, and 0 in the
** others, is one count. */
typedef struct {
  int in, out, c; /* c is what is expected */
} Fault;

static const uint8_t *decide(const uint8_t *relay, const Fault *fault) {
  static uint8_t decision[GORSEPETAL_DECISION_LENGTH]; /* stays until the next call */
  uint8_t window[WINDOW] = {0};
  put(window, 2 * 3, 8 * fault->in);
  put(window, 2 * 6, 8 * -fault->out);
  uint64_t answer = gorsepetal_decide(relay, GORSEPETAL_STATE_LENGTH, window, sizeof window, decision, sizeof decision);
  expect(answer == GORSEPETAL_DONE && decision[GORSEPETAL_DECISION_AT_CHANGE_A] == fault->c);
  return decision;
}

/* ---- What the desk is told ---- */

/* By one decision: what the relay does at its own slope, and up to which it would operate. */
static void print_decision(int slope, const uint8_t *decision) {
  int trip = decision[GORSEPETAL_DECISION_AT_TRIP], c = decision[GORSEPETAL_DECISION_AT_CHANGE_A];
  printf("  slope %d: %s; c %d\n", slope, trip ? "trips" : "does not trip", c);
  expect(trip == (slope <= c));
}

/* How far off the slope can be, by c alone. */
static void print_answer(int c) {
  printf("  said %d, heard %d; this fault operates up to %d\n", SAID, HEARD, c);
  if (c < SAID)
    printf("  The slope is %d off. At the slope that was said the fault would not have operated either.\n", HEARD - SAID);
  else
    printf("  The slope is %d off. With up to %d off the fault would still have operated.\n", HEARD - SAID, c - SAID);
}

/* The same of one fault among many; and both relays have to do what is told. */
static void print_fault(const Fault *fault) {
  const uint8_t *decision = decide(as_heard, fault);
  int c = decision[GORSEPETAL_DECISION_AT_CHANGE_A], trip = decision[GORSEPETAL_DECISION_AT_TRIP];
  printf("  %4d in, %3d out: c %2d, ", fault->in, fault->out, c);
  if (c >= HEARD)
    printf("trips at %d and at %d\n", SAID, HEARD);
  else if (c >= SAID)
    printf("trips at %d, missed at %d\n", SAID, HEARD);
  else
    printf(c > 0 ? "trips at neither\n" : "operates at no slope\n");
  expect(trip == (c >= HEARD) && decide(as_said, fault)[GORSEPETAL_DECISION_AT_TRIP] == (c >= SAID));
}

/* c is the largest whole number below 100 (in - out) / (in + out): 60 of 140 counts are 42.9 percent. The last two faults are at the pickup
** and one count below it, where c is 0. */
static const Fault MILL = {100, 40, 42};
static const Fault OTHERS[] = {{1000, 100, 81}, {1000, 200, 66}, {1000, 300, 53}, {1000, 400, 42}, {1000, 500, 33}, {1000, 600, 24},
                               {1000, 700, 17}, {1000, 800, 11}, {1000, 900, 5},  {100, 40, 42},   {100, 41, 0}};

int main(void) {
  printf("The desk says slope %d. It is heard as %d, and entered twice.\n", SAID, HEARD);
  enter(as_heard, HEARD);

  printf("\nThe paper mill's fault: %d counts flow into the line at end 1, and %d out of it at end 2.\n", MILL.in, MILL.out);
  const uint8_t *decision = decide(as_heard, &MILL);
  print_decision(HEARD, decision);
  print_answer(decision[GORSEPETAL_DECISION_AT_CHANGE_A]);

  printf("\nThe same fault at a relay that is set to %d.\n", SAID);
  enter(as_said, SAID);
  print_decision(SAID, decide(as_said, &MILL));

  printf("\nWhich faults does slope %d miss in place of %d? Each decision at slope %d tells, by c.\n", HEARD, SAID, HEARD);
  for (size_t k = 0; k < sizeof OTHERS / sizeof OTHERS[0]; k++) print_fault(&OTHERS[k]);

  printf("\n%s\n", faults ? "NOT ALL AS EXPECTED" : "All as expected.");
  return faults != 0;
}
