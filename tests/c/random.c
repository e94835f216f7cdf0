/* A counter, mixed: each number is the counter's next value, multiplied and folded until its bits are spread. */
#include "random.h"

static uint64_t counter;

void random_seed(uint64_t seed) { counter = seed; }

uint64_t random_bits(void) {
  uint64_t x;
  counter += 0x9e3779b97f4a7c15u;
  x = counter;
  x = (x ^ (x >> 32)) * 0xd6e8feb86659fd93u;
  x = (x ^ (x >> 32)) * 0xd6e8feb86659fd93u;
  return x ^ (x >> 32);
}

uint32_t below(uint32_t n) { return n == 0 ? 0 : (uint32_t)(((random_bits() >> 32) * n) >> 32); }

int one_in(uint32_t n) { return below(n) == 0; }
