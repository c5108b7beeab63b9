/*
** How firmware feeds the library: a frame every sample time, and each time the decision on the newest 16. The paper mill's line starts up,
** loses a sample, has its fault, and gets its settings entered anew while the fault is there. What is expected of each frame is worked out
** below; the program ends with 1 if the relay answers otherwise. Run it with: sh examples/run_feed
*/
#include <stdio.h>

#include "mill_fault.h"

/* ---- The firmware: the part to copy, with enter_settings of mill_fault.h ---- */

static uint8_t relay[GORSEPETAL_STATE_LENGTH];       /* records and window; all zero: a fresh relay */
static uint8_t decision[GORSEPETAL_DECISION_LENGTH]; /* the last one that was made */

/* A field of the decision in sixty-fourths of a count, 32 bits, upper byte first. */
static int counts(int at) {
  const uint8_t *word = decision + at;
  return (16777216 * word[0] + 65536 * word[1] + 256 * word[2] + word[3]) / 64;
}

/* A decision was made on the frame just fed and the 15 before. How many in a row to trust is the firmware's matter. */
static void decided(void) {
  printf("trip %d diff %d mho %d dir %d   phase a: %d of %d counts\n", decision[GORSEPETAL_DECISION_AT_TRIP],
         decision[GORSEPETAL_DECISION_AT_PHASES], decision[GORSEPETAL_DECISION_AT_LOOPS], decision[GORSEPETAL_DECISION_AT_DIRECTION],
         counts(GORSEPETAL_DECISION_AT_DIFFERENTIAL_A), counts(GORSEPETAL_DECISION_AT_RESTRAINT_A));
}

/* Every sample time, with the newest sample of each channel. */
static uint64_t at_sample_time(const uint8_t frame[FRAME]) {
  uint64_t answer = gorsepetal_feed(relay, sizeof relay, frame, FRAME, decision, sizeof decision), number = GORSEPETAL_NUMBER(answer);
  switch (number) {
  case GORSEPETAL_DONE:
    decided();
    break;
  case GORSEPETAL_TOO_FEW_FRAMES: /* the frame is kept; there is no decision until 16 have come */
  case GORSEPETAL_MISSING_SAMPLE: /* the frame is kept; there is no decision until the one with the missing sample has gone */
    printf("no decision: %d at %d, %s\n", (int)number, (int)GORSEPETAL_PLACE(answer), meaning(number));
    break;
  default: /* the frame is not kept: no settings are in force (1), or the firmware lends a wrong length (3, 9, 17) */
    printf("ALARM: %d, %s\n", (int)number, meaning(number));
  }
  return answer;
}

/* ---- What happens, and what is expected ---- */

enum { IB_OF_END_2 = 7 };

/* The differential of the fault is a wave of 600 counts that begins at a zero: 0, 230, 424, 554 .. From its first 3 frames the transform
** makes 80 counts beside a restraint of 759, which is 11 percent; from 4 frames 144 beside 856, 17 percent. So with slope 15 the fourth
** trips. Until the 16th, loops and direction see part load and part fault, and are left open. Then 600 counts stand beside 1044 + 500,
** AG asserts and the direction is forward, as docs/HAND-CHECKS.md has it for this fault: the load is balanced and in phase with the
** voltage, so that it adds nothing to 3I2 and nothing to m. */
static const Stretch STRETCHES[] = {
  {"The relay starts: no decision before 16 frames have come.", 15, LOAD, .entered = 1, .number = GORSEPETAL_TOO_FEW_FRAMES},
  {"Load: what flows in flows out.", 20, LOAD, .number = GORSEPETAL_DONE},
  {"A sample is missing in frame 21. The frame moves through the window, and its place falls by 9, until it has gone.", 36, LOAD,
   .missing = 1, .number = GORSEPETAL_MISSING_SAMPLE},
  {"Decided again.", 40, LOAD, .number = GORSEPETAL_DONE},
  {"The fault begins with frame 41. Three frames of it are below the slope of 15 percent.", 43, FAULT, .number = GORSEPETAL_DONE,
   .mho = LEFT_OPEN, .dir = LEFT_OPEN},
  {"The fourth trips. Loops and direction follow as the fault fills the window.", 55, FAULT, .number = GORSEPETAL_DONE, .trip = 1,
   .diff = GORSEPETAL_PHASE_A, .mho = LEFT_OPEN, .dir = LEFT_OPEN},
  {"All 16 frames are the fault's.", 58, FAULT, .number = GORSEPETAL_DONE, .trip = 1, .diff = GORSEPETAL_PHASE_A,
   .mho = GORSEPETAL_LOOP_AG, .dir = GORSEPETAL_DIRECTION_FORWARD},
  {"The desk enters the same settings anew. The window is empty, so for 15 frames the fault goes unseen.", 73, FAULT, .entered = 1,
   .number = GORSEPETAL_TOO_FEW_FRAMES},
  {"And it is seen again.", 75, FAULT, .number = GORSEPETAL_DONE, .trip = 1, .diff = GORSEPETAL_PHASE_A, .mho = GORSEPETAL_LOOP_AG,
   .dir = GORSEPETAL_DIRECTION_FORWARD},
};

int main(void) {
  int n = 0, faults = 0;
  for (size_t k = 0; k < sizeof STRETCHES / sizeof STRETCHES[0]; k++) {
    const Stretch *s = &STRETCHES[k];
    printf("%s\n", s->what);
    if (s->entered && enter_settings(relay) != GORSEPETAL_DONE) return 1;
    for (int since = 0; n < s->last; since++) {
      uint8_t frame[FRAME];
      sample(s->line, n++, frame);
      if (s->missing && since == 0) put(frame, 2 * IB_OF_END_2, GORSEPETAL_MISSING);
      printf("  frame %2d  ", n);
      int place = s->missing ? CHANNELS * (15 - since) + IB_OF_END_2 : 0;
      if (as_expected(s, place, at_sample_time(frame), decision)) continue;
      printf("  NOT AS EXPECTED\n");
      faults++;
    }
  }
  printf("%d frames: %s\n", n, faults ? "NOT ALL AS EXPECTED" : "all as expected");
  return faults != 0;
}
