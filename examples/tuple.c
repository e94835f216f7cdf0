/* The smallest embedding: builds the tuple (23, 42), drops some garbage, collects and reads the tuple back. */
#include <stdio.h>
#include <stdlib.h>

#include "phachunoi.h"

#define HALF 32

enum { TUPLE, WORK, ROOTS }; /* root numbers: the tuple stays in root 0, root 1 is for work */

static uint32_t words[PHACHUNOI_WORDS(HALF)];
static uint32_t roots[ROOTS];

/* Every refusal ends this program; an interpreter would tell its user. */
static void must(enum phachunoi_refusal refusal) {
  if (refusal == PHACHUNOI_DONE) return;
  fprintf(stderr, "tuple: %s\n", phachunoi_refusal_text(refusal));
  exit(1);
}

/* A field of the tuple, through the root for work. */
static int read_field(phachunoi_heap *heap, size_t field) {
  must(phachunoi_heap_load(heap, TUPLE, field, WORK));
  return phachunoi_heap_inspect(heap, WORK).integer;
}

int main(void) {
  phachunoi_heap heap;
  phachunoi_counts counts;
  must(phachunoi_heap_begin(&heap, words, HALF, roots, ROOTS));
  must(phachunoi_heap_allocate_untraced(&heap, 5, WORK)); /* garbage, as soon as WORK holds something else */
  must(phachunoi_heap_allocate_traced(&heap, 2, TUPLE));
  must(phachunoi_heap_set_integer(&heap, WORK, 23));
  must(phachunoi_heap_store(&heap, TUPLE, 0, WORK));
  must(phachunoi_heap_set_integer(&heap, WORK, 42));
  must(phachunoi_heap_store(&heap, TUPLE, 1, WORK));
  printf("before: address %u\n", (unsigned)roots[TUPLE]);
  must(phachunoi_heap_collect(&heap, &counts));
  printf("after:  address %u, %u words live\n", (unsigned)roots[TUPLE], (unsigned)counts.live);
  printf("(%d, %d)\n", read_field(&heap, 0), read_field(&heap, 1));
  return 0;
}
