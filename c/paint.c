#define _XOPEN_SOURCE 700
#include "paint.h"

#include <stdint.h>
#include <string.h>
#include <ucontext.h>

enum { PAINT = 0xa5 };

static uint8_t stack[8388608];
static ucontext_t here, there;

size_t suit_painted(void (*call)(void)) {
  memset(stack, PAINT, sizeof stack);
  getcontext(&there);
  there.uc_stack.ss_sp = stack;
  there.uc_stack.ss_size = sizeof stack;
  there.uc_link = &here;
  makecontext(&there, call, 0);
  swapcontext(&here, &there);
  size_t left = 0;
  while (left < sizeof stack && stack[left] == PAINT)
    left++;
  return sizeof stack - left;
}
