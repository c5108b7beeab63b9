/* How many instructions a function executes in one call. */
#ifndef COUNT_H
#define COUNT_H
#include <stdint.h>

/* `own` are the instructions in this program: the function, what it calls, and the linker's stubs that lead out of the program. `outside`
** are those beyond the stubs, which are memcpy and memset of the C library: it picks their code by the processor, so they may be more or
** fewer on another machine. `calls` is how often the function begins: once, unless it calls itself. `argument` is the first argument of
** its first call. `stack` is the stack pointer at its first instruction: the return address lies there. `deepest` is the lowest that the
** stack pointer was. */
typedef struct {
  long own, outside, calls;
  uint64_t argument;
  const uint8_t *stack, *deepest;
} steps;

/* `call` makes a call of the function whose code begins at `function`. What comes back is what the first such call executes, from the
** function's first instruction to its return. Ends the program with a message if that cannot be counted. */
steps count(void (*call)(void), uintptr_t function);

#endif
