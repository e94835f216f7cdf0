/* What the archive is held against: collectors, checks and an allocation in C, written from documents 01
   and 02 alone. */
#ifndef BASELINE_H
#define BASELINE_H

#include "../tests/c/model.h"

/* (a) Cheney's copying and nothing else, of a heap taken to be sound. Answers document 02's three numbers.
   The first clears the whole old half; the second only its used words, which is enough if the rest was 0. */
struct counts bare_collect(struct state *s);
struct counts bare_collect_used(struct state *s);

/* (b) All the duties of document 01's collect: SHAPE, the tests for 0, the tiling with its marks, roots, fields, copy,
   clear, and the three numbers. Answers 0, SHAPE (1) or DAMAGED (8); a refusal leaves the numbers as they were. */
uint32_t full_collect(struct state *s, struct counts *counts);

/* The check that this begins with, in full_check.c: 1 if the heap is sound, else 0. No word differs afterwards. The
   second is for a heap whose shape has been tested. */
int full_check(struct state *s);
int full_check_shaped(struct state *s);

/* (c) Allocation by moving the free index, after its tests: 0, or the number of the refusal. If there is no room, the
   first collects with all duties, the second with none. */
uint32_t full_allocate(struct state *s, size_t fields, size_t to, int untraced);
uint32_t bare_allocate(struct state *s, size_t fields, size_t to, int untraced);

#endif
