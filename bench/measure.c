/* A call that is made again and again to be counted or measured, and how its figures are printed. */
#include <stdio.h>

#include "measure.h"
#include "windows.h"

const struct version *version;
which_call call;
lent slices;

void make_it(void) {
  lent copy = slices;
  turn_window(version, &copy);
  make(version, call, &copy);
}

steps counted(int v, which_call which) {
  version = &versions[v];
  call = which;
  return count(make_it, code_of(version, which));
}

long all(steps s) { return s.own + s.outside; }

void for_each_window(void (*what)(const char *name, int ends)) {
  static const struct {
    const char *name;
    void (*lend)(lent *to, int ends);
  } windows[] = {{"quiet", lend_quiet}, {"fault", lend_fault}, {"dead", lend_dead}};
  for (int ends = FEWEST_ENDS; ends <= MOST_ENDS; ends++)
    for (size_t k = 0; k < sizeof windows / sizeof *windows; k++) {
      windows[k].lend(&slices, ends);
      what(windows[k].name, ends);
    }
}

void print_count(steps s) { printf("%9ld +%3ld", s.own, s.outside); }

void print_ratio(long mine, long theirs) {
  long hundredths = (100 * mine + theirs - 1) / theirs;
  printf("%11ld.%02ld", hundredths / 100, hundredths % 100);
}
