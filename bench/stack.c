/*
** A stack of its own for a call, and how deep the call writes on it: it is filled with a pattern first, and looked at afterwards. Code for
** x86-64 may write 128 bytes below the stack pointer, the red zone, without moving the pointer; those are seen like all others.
*/
#include <string.h>

#include "stack.h"

enum { ROOM = 32768 }; /* for the call and, while it is counted, for the frame of the signal that each instruction raises */
static uint8_t own_stack[ROOM] __attribute__((aligned(4096)));

void on_own_stack(void (*call)(void)) {
  __asm__ volatile(
      "mov %%rsp, %%rbx\n\t"
      "mov %0, %%rsp\n\t"
      "call *%1\n\t"
      "mov %%rbx, %%rsp"
      :
      : "r"(own_stack + ROOM), "r"(call)
      : "rax", "rbx", "rcx", "rdx", "rsi", "rdi", "r8", "r9", "r10", "r11", "xmm0", "xmm1", "xmm2", "xmm3", "xmm4", "xmm5", "xmm6", "xmm7",
        "xmm8", "xmm9", "xmm10", "xmm11", "xmm12", "xmm13", "xmm14", "xmm15", "cc", "memory");
}

static const uint8_t *deepest_over(uint8_t pattern, void (*call)(void)) {
  const uint8_t *byte = own_stack;
  memset(own_stack, pattern, ROOM);
  on_own_stack(call);
  while (*byte == pattern) byte++; /* ends at the return address of the call at the latest */
  return byte;
}

/* A byte that the call writes may be the pattern's own, so it is done with two patterns. */
const uint8_t *deepest_written(void (*call)(void)) {
  const uint8_t *one = deepest_over(0x5A, call), *other = deepest_over(0xA5, call);
  return one < other ? one : other;
}
