/*
** Counts the instructions that a function executes, by the processor's trap flag: while it is set, each instruction raises a signal, whose
** handler sees where the program stands. The count is the same in every run; each turn of a repeated string instruction is one. It needs
** Linux on x86-64. Nothing is timed.
*/
#include <stdio.h>
#include <stdlib.h>

#include "count.h"
#include "stack.h"

/* The C library's sigaction on x86-64, and where a handler finds the registers in its third argument. */
typedef struct {
  void (*handler)(int signal, void *information, void *context);
  unsigned long mask[16];
  int flags;
  void (*restorer)(void);
} action;
enum { SIGTRAP = 5, SA_SIGINFO = 4, REGISTERS = 40, RDI = 8, RSP = 15, RIP = 16 };
extern int sigaction(int signal, const action *taken, action *before);

extern const uint8_t __executable_start[], etext[]; /* the linker's: this program's code lies between them */

static uintptr_t first_instruction;
static volatile int returned;
static volatile steps so_far;

/* The function has returned when what its call pushed is popped; nothing before its return does that. */
static void before_instruction(int signal, void *information, void *context) {
  const uint64_t *registers = (const uint64_t *)((const uint8_t *)context + REGISTERS);
  const uint8_t *stack = (const uint8_t *)registers[RSP], *next = (const uint8_t *)registers[RIP];
  (void)signal;
  (void)information;
  if (returned) return;
  if ((uintptr_t)next == first_instruction && so_far.calls++ == 0) {
    so_far.argument = registers[RDI];
    so_far.stack = so_far.deepest = stack;
  }
  if (so_far.calls == 0) return;
  if (stack > so_far.stack) {
    returned = 1;
    return;
  }
  if (stack < so_far.deepest) so_far.deepest = stack;
  if (next >= __executable_start && next < etext)
    so_far.own++;
  else
    so_far.outside++;
}

/* The trap flag is bit 8 of the flags. They are pushed beyond the 128 bytes below the stack pointer, which may be in use. */
static void set_trap_flag(void) {
  __asm__ volatile("lea -128(%%rsp), %%rsp\n\tpushfq\n\torq $0x100, (%%rsp)\n\tpopfq\n\tlea 128(%%rsp), %%rsp" ::: "memory", "cc");
}

static void clear_trap_flag(void) {
  __asm__ volatile("lea -128(%%rsp), %%rsp\n\tpushfq\n\tandq $~0x100, (%%rsp)\n\tpopfq\n\tlea 128(%%rsp), %%rsp" ::: "memory", "cc");
}

steps count(void (*call)(void), uintptr_t function) {
  action handling = {before_instruction, {0}, SA_SIGINFO, 0};
  first_instruction = function;
  returned = 0;
  so_far.own = so_far.outside = so_far.calls = 0;
  if (sigaction(SIGTRAP, &handling, 0) == 0) {
    set_trap_flag();
    on_own_stack(call);
    clear_trap_flag();
  }
  if (!returned) {
    printf("instructions cannot be counted here\n");
    exit(1);
  }
  return so_far;
}
