/* The parts of the test, in the order of the run. */
#ifndef PARTS_H
#define PARTS_H

#include <stdint.h>

void worked_heaps(void);                  /* worked.c: P1 to P10, the Fresh cases, code words */
void worked_texts(void);                  /* worked_texts.c: document 02's texts, P5 among them */
void each_refusal(void);                  /* refusals.c: each by name, by each call that can give it */
void struct_begin(void);                  /* begin.c: the header's struct, lent and cleared */
void limits(void);                        /* limits.c: each at its value, one below, one above */
void bit_flips(void);                     /* flips.c: every single bit of P5 */
void checking(uint32_t words);            /* checking.c: one word changed, anywhere; all heaps of S = 1 and 2 */
void writing(void);                       /* writing.c: texts of every shape, in every number of bytes */
void reading(uint32_t texts);             /* reading.c: texts of every shape, broken in every way, and round trips */
void sessions(uint32_t lists);            /* sessions.c: two sizes, the graph, a collection between any two calls */
void settling(uint32_t heaps);            /* settling.c: three collections, and two heaps of one graph */
void random_trials(uint64_t calls);       /* trials.c: sound and damaged heaps, all calls */
void long_sessions(uint64_t calls);       /* trials.c: one heap for thousands of calls */
void showing(uint32_t heaps);             /* showing.c: phachunoi_show.h, exactly, and on heaps of every sort */
void printing(uint32_t heaps);            /* printing.c: the images of examples/image.c, exactly, and read back */
void largest_heaps(uint32_t trials);      /* trials.c: S = 1,048,576 */

#endif
