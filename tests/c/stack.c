// How much stack a sum of many rows takes, as the call for a repair packet of a block uses it: by lists, and in buckets of short and of long rows. The call
// runs on a stack of its own, painted beforehand; what an empty function writes there is taken off. A second array of buckets (2 KB) is more than the
// limit allows; a second frame need not be, so `tests/c/frames` looks at the frames.
#include "rlc8681.h"
#include <stdio.h>
#include <stdlib.h>
#include <string.h>
#include <ucontext.h>

#define LIMIT 4608
#define STACK 262144
#define PAINT 0xa5

static uint8_t *stack, *memory, adu[1397], packet[1500];
static size_t memory_length;
static uint32_t size, symbols;
static int64_t said;
static ucontext_t here, there;

static void nothing(void) {}
static void make_repair(void) { said = rlc_block_make_repair(memory, memory_length, symbols, packet, sizeof packet); }

// How many bytes of the stack the function wrote.
static size_t depth(void (*run)(void)) {
  memset(stack, PAINT, STACK);
  getcontext(&there);
  there.uc_stack.ss_sp = stack;
  there.uc_stack.ss_size = STACK;
  there.uc_link = &here;
  makecontext(&there, run, 0);
  swapcontext(&here, &there);
  size_t left = 0;
  while (left < STACK && stack[left] == PAINT) left++;
  return STACK - left;
}

int main(void) {
  int passed = 0, failed = 0;
  const uint32_t cases[][2] = {{1400, 20}, {64, 254}, {1400, 254}};
  stack = malloc(STACK);
  for (size_t c = 0; c < sizeof cases / sizeof *cases; c++) {
    size = cases[c][0], symbols = cases[c][1];
    memory_length = (size_t)rlc_receiver_memory(size, symbols);
    memory = malloc(memory_length);
    int good = rlc_block_open_encoder(memory, memory_length, size, symbols, 255, 7) == 0;
    for (uint32_t i = 0; i < symbols; i++) {
      memset(adu, (int)i, sizeof adu);
      good = good && rlc_block_add_adu(memory, memory_length, 0, adu, size - 3, packet, sizeof packet) == size + 3;
    }
    size_t empty = depth(nothing), full = depth(make_repair);
    good = good && said == size + 6 && empty < full && full - empty <= LIMIT;
    printf("stack of a repair packet of %u symbols of %u bytes: %zu bytes\n", symbols, size, full - empty);
    good ? passed++ : failed++;
    free(memory);
  }
  if (failed) printf("failed: a call answers as it is to, on a stack of %d bytes\n", LIMIT);
  printf("%d passed, %d failed\n", passed, failed);
  return failed != 0;
}
