/* Texts at random: by the grammar of document 02's Q-2, and broken ones. */
#ifndef GRAMMAR_H
#define GRAMMAR_H

#include <stddef.h>
#include <stdint.h>

/* What texts are made of, what a mistaken reader might take besides, and bytes that are neither. */
#define TEXT_BYTES "(){}1=,~0293- \n+x\xb1\xa8"

/* Each answers how many bytes it wrote. At most so many bytes and tuples; one integer if `most` is below 65. */
size_t random_text(char *text, size_t most, uint32_t tuples);
size_t nested_text(char *text, uint32_t deep); /* so many tuples, up to 80, of up to 8 bytes, around 5 or () */
size_t flat_text(char *text, uint32_t fields); /* one tuple of integers of one digit */
size_t broken_text(char *text, size_t bytes);  /* changed somewhere: a byte, two, a cut; at most one byte longer */

#endif
