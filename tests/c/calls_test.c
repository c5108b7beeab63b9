/* The calls from C, in named cases: every answer, every buffer, and the bytes around each lent slice. */
#include <stdio.h>

#include "lent.h"

int main(void) {
  set_up();
  const struct test_case *const tables[] = {entry_cases,           decide_cases,       feed_cases,  second_zone_cases, root_cases,
                                            balanced_cases,        events_cases,       ended_cases, written_cases,     change_cases,
                                            resistive_reach_cases, quadrilateral_cases};
  int count = 0;
  for (size_t k = 0; k < sizeof tables / sizeof *tables; k++) count += run_cases(tables[k]);
  printf("C test: %d cases, %d checks, %d failed\n", count, checks, faults);
  return faults != 0;
}
