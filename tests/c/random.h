/* Random numbers from a seed: the same seed gives the same run on every machine. */
#ifndef RANDOM_H
#define RANDOM_H

#include <stdint.h>

void random_seed(uint64_t seed);
uint64_t random_bits(void);
uint32_t below(uint32_t n); /* 0 to n - 1; 0 if n is 0 */
int one_in(uint32_t n);

#endif
