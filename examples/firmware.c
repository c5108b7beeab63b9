/*
** How firmware calls the library. The commissioning desk proposes a record, mistypes it once, then enters it twice alike. Then the
** line is watched: a quiet window, one with a sample missing, and one with a fault; and the same fault with slope 50 in force. Run
** it with: sh examples/run_firmware
*/
#include <stdio.h>

#include "mill.h"

static void report(const char *step, uint64_t answer) {
  uint64_t number = GORSEPETAL_NUMBER(answer);
  if (number == GORSEPETAL_DONE)
    printf("%s: done\n", step);
  else
    printf("%s: refused %d at %d, %s\n", step, (int)number, (int)GORSEPETAL_PLACE(answer), meaning(number));
}

static void read_back(const uint8_t *state) {
  uint8_t out[GORSEPETAL_RECORD_LENGTH];
  uint64_t answer = gorsepetal_read_back(state, GORSEPETAL_STATE_LENGTH, out, sizeof out);
  report("read back", answer);
  if (answer != GORSEPETAL_DONE) return; /* then nothing was written to out */
  printf("  in force:");
  for (int i = 0; i < GORSEPETAL_RECORD_LENGTH; i++) printf("%s%02X", i % 2 ? "" : " ", out[i]);
  printf("\n  slope in force: %d percent\n", 256 * out[GORSEPETAL_AT_SLOPE] + out[GORSEPETAL_AT_SLOPE + 1]);
}

/* The sample of a channel in a frame: Va, Vb, Vc are channels 0 to 2, the currents of end 1 are 3 to 5, of end 2 6 to 8. */
static void sample(uint8_t *window, int frame, int channel, int number) { put(window, 2 * (CHANNELS * frame + channel), number); }

/* The fault of examples/run: Ia of end 1 is 100 counts, and Ia of end 2 is 40 the other way. What flows in at end 1 and not out at
** end 2 is the fault's. A sample of 8 in frame 0, and 0 in the others, is one count. */
static void outfeed(uint8_t window[WINDOW]) {
  sample(window, 0, 3, 8 * 100);
  sample(window, 0, 6, 8 * -40);
}

/* A field of the decision with 32 bits, upper byte first. */
static int word(const uint8_t *at) { return 16777216 * at[0] + 65536 * at[1] + 256 * at[2] + at[3]; }

/* Why the relay has tripped; more than one reason may hold at a time. */
static void print_reasons(int phases, int quadrilaterals, int loops, int direction) {
  if (phases != 0) printf("  because: a phase operates\n");
  if (quadrilaterals != 0) printf("  because: a fault to ground ahead, in a quadrilateral\n");
  if (direction == GORSEPETAL_DIRECTION_FORWARD && loops != 0) printf("  because: a fault ahead, in the circle of a loop\n");
  if (direction == GORSEPETAL_DIRECTION_NONE && phases == 0) printf("  because: a balanced fault, in the circles of AB, BC and CA\n");
}

static void decide(const char *step, const uint8_t *state, const uint8_t *window) {
  uint8_t out[GORSEPETAL_DECISION_LENGTH];
  uint64_t answer = gorsepetal_decide(state, GORSEPETAL_STATE_LENGTH, window, WINDOW, out, sizeof out);
  report(step, answer);
  if (answer != GORSEPETAL_DONE) return; /* then nothing was written to out, and the relay has no decision */
  int trip = out[GORSEPETAL_DECISION_AT_TRIP], loops = out[GORSEPETAL_DECISION_AT_LOOPS];
  int phases = out[GORSEPETAL_DECISION_AT_PHASES] & GORSEPETAL_PHASES, direction = out[GORSEPETAL_DECISION_AT_DIRECTION];
  int quadrilaterals = out[GORSEPETAL_DECISION_AT_PHASES] & GORSEPETAL_QUADRILATERALS;
  printf("  trip %d, phases %d, quadrilaterals %d, loops %d, direction %d\n", trip, phases, quadrilaterals, loops, direction);
  if (trip) print_reasons(phases, quadrilaterals, loops, direction);
  printf("  phase a: differential %d and restraint %d sixty-fourths of a count\n", word(out + GORSEPETAL_DECISION_AT_DIFFERENTIAL_A),
         word(out + GORSEPETAL_DECISION_AT_RESTRAINT_A));
  if (out[GORSEPETAL_DECISION_AT_CHANGE_A] == 0)
    printf("  phase a operates at no slope\n");
  else
    printf("  phase a operates up to slope %d\n", out[GORSEPETAL_DECISION_AT_CHANGE_A]);
}

int main(void) {
  static uint8_t quiet[WINDOW], fault[WINDOW], broken[WINDOW];
  static uint8_t state[GORSEPETAL_STATE_LENGTH]; /* all zero: a fresh relay */
  uint8_t wanted[GORSEPETAL_RECORD_LENGTH], mistyped[GORSEPETAL_RECORD_LENGTH];
  fill(wanted, 15);
  fill(mistyped, 50);

  report("propose slope 15", gorsepetal_propose(state, sizeof state, wanted, sizeof wanted));
  report("confirm slope 50", gorsepetal_confirm(state, sizeof state, mistyped, sizeof mistyped));
  read_back(state);
  /* The mismatch left nothing pending, so a third entry does not slip in: both are made again. */
  report("confirm slope 15", gorsepetal_confirm(state, sizeof state, wanted, sizeof wanted));
  report("propose slope 15", gorsepetal_propose(state, sizeof state, wanted, sizeof wanted));
  report("confirm slope 15", gorsepetal_confirm(state, sizeof state, wanted, sizeof wanted));
  read_back(state);

  outfeed(fault);
  sample(broken, 3, 7, GORSEPETAL_MISSING); /* Ib of end 2 did not come */
  decide("decide, quiet", state, quiet);
  decide("decide, a sample missing", state, broken);
  decide("decide, outfeed fault", state, fault);

  /* Had the desk entered fifty both times, the same fault would stay on the line. */
  report("propose slope 50", gorsepetal_propose(state, sizeof state, mistyped, sizeof mistyped));
  report("confirm slope 50", gorsepetal_confirm(state, sizeof state, mistyped, sizeof mistyped));
  decide("decide, outfeed fault", state, fault);
  return 0;
}
