/* Heaps that one part of the tests makes and another shows. */
#ifndef SAMPLES_H
#define SAMPLES_H

#include <stdint.h>

#define P5_BITS (21 * 32) /* 17 words, 2 roots, the record's 2 entries */

void flipped_p5(uint32_t bit); /* flips.c: P5, lent 17 words and 2 roots, but for one bit; settled */
void lend_some_heap(void);     /* trials.c: of some lengths; sound, damaged, noise, or of bad shape; not settled yet */

#endif
