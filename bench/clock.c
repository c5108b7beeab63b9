/* How long a call takes, by the system's clock that only goes forward. */
#include "clock.h"

enum { MONOTONIC = 1, CALLS_A_ROUND = 500, BILLION = 1000000000 };
typedef struct {
  long seconds, nanoseconds;
} instant;
extern int clock_gettime(int clock, instant *now);

long nanoseconds(void (*call)(void)) {
  instant begun, ended;
  clock_gettime(MONOTONIC, &begun);
  for (int n = 0; n < CALLS_A_ROUND; n++) call();
  clock_gettime(MONOTONIC, &ended);
  return ((ended.seconds - begun.seconds) * BILLION + ended.nanoseconds - begun.nanoseconds) / CALLS_A_ROUND;
}
