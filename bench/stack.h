/* A stack of its own for a call: what is counted on it does not depend on where the system put the program's stack. */
#ifndef STACK_H
#define STACK_H
#include <stdint.h>

/* Makes the call with its stack in a fixed place, which is aligned to a page. */
void on_own_stack(void (*call)(void));

/* Makes the call so, and gives back the deepest byte of the stack that it wrote. */
const uint8_t *deepest_written(void (*call)(void));

#endif
