/* The archive against the model: every part in turn, then the verdict.
 *   check [CALLS [SEED]]    about CALLS random calls, besides the fixed parts (default 1000000)
 * The last line is 'check-c: N calls, M checks, D differences (seed S)'; the exit status is 0 only if D is 0. */
#include <inttypes.h>
#include <stdio.h>
#include <stdlib.h>
#include <time.h>

#include "judge.h"
#include "parts.h"
#include "random.h"

int main(int argc, char **argv) {
  uint64_t calls = argc > 1 ? strtoull(argv[1], NULL, 10) : 1000000;
  uint64_t seed = argc > 2 ? strtoull(argv[2], NULL, 10) : (uint64_t)time(NULL);
  printf("check-c: seed %" PRIu64 "\n", seed);
  random_seed(seed);
  worked_heaps();
  worked_texts();
  each_refusal();
  struct_begin();
  limits();
  bit_flips();
  checking((uint32_t)(calls / 10000) + 1);
  writing();
  reading((uint32_t)(calls / 500) + 100);
  sessions((uint32_t)(calls / 20000) + 2);
  settling((uint32_t)(calls / 125));
  random_trials(calls);
  long_sessions(calls / 10);
  showing((uint32_t)(calls / 500) + 100);
  printing((uint32_t)(calls / 200));
  largest_heaps((uint32_t)(calls / 50000) + 1);
  return judge_verdict(seed, calls / 1000);
}
