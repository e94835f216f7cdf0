/* Words at random about the code words of document 02's Q-1, for roots, fields and set_code. */
#ifndef CODES_H
#define CODES_H

#include <stdint.h>

uint32_t code_word(void);    /* the lowest, one above that has an address in its low bits, the largest, any */
uint32_t asked_code(void);   /* what set_code is asked for: a third is no code word */
uint32_t around_floor(void); /* the two lowest code words, and the two even words below them */

#endif
