/* Code words: closures that keep an integer, and are called after a collection has moved them. A word is too short for
   the address of a function of C, so a code word says which one of a table it is. */
#include <stdio.h>
#include <stdlib.h>

#include "phachunoi.h"

enum { PLUS, TIMES, WORK, ROOTS }; /* root numbers: two closures, and one for work */
enum { FUNCTION, KEPT, FIELDS };   /* fields of a closure: a code word and an integer */

static uint32_t words[PHACHUNOI_WORDS(32)], roots[ROOTS];

static int add(int kept, int argument) { return kept + argument; }
static int multiply(int kept, int argument) { return kept * argument; }
static int (*const functions[])(int kept, int argument) = {add, multiply};

/* An interpreter would tell its user. */
static void stop(const char *why) {
  fprintf(stderr, "closure: %s\n", why);
  exit(1);
}

static void must(enum phachunoi_refusal refusal) {
  if (refusal != PHACHUNOI_DONE) stop(phachunoi_refusal_text(refusal));
}

static void make(phachunoi_heap *heap, uint32_t function, int kept, size_t to) {
  must(phachunoi_heap_allocate_traced(heap, FIELDS, to));
  must(phachunoi_heap_set_code(heap, WORK, PHACHUNOI_CODE_FLOOR + 2 * function));
  must(phachunoi_heap_store(heap, to, FUNCTION, WORK));
  must(phachunoi_heap_set_integer(heap, WORK, kept));
  must(phachunoi_heap_store(heap, to, KEPT, WORK));
}

static phachunoi_seen look(phachunoi_heap *heap, size_t closure, size_t field, enum phachunoi_kind kind) {
  phachunoi_seen seen;
  must(phachunoi_heap_load(heap, closure, field, WORK));
  seen = phachunoi_heap_inspect(heap, WORK);
  must((enum phachunoi_refusal)seen.refusal);
  if (seen.kind != kind) stop("this is no closure");
  return seen;
}

static int call(phachunoi_heap *heap, size_t closure, int argument) {
  uint32_t code = look(heap, closure, FUNCTION, PHACHUNOI_CODE).code;
  return functions[(code - PHACHUNOI_CODE_FLOOR) / 2](look(heap, closure, KEPT, PHACHUNOI_INTEGER).integer, argument);
}

int main(void) {
  phachunoi_heap heap;
  phachunoi_counts counts;
  must(phachunoi_heap_begin(&heap, words, 32, roots, ROOTS));
  make(&heap, 0, 100, PLUS);
  make(&heap, 1, 3, TIMES);
  printf("before: address %u, 3 * 13 is %d\n", (unsigned)roots[TIMES], call(&heap, TIMES, 13));
  must(phachunoi_heap_collect(&heap, &counts));
  printf("after:  address %u, 3 * 14 is %d\n", (unsigned)roots[TIMES], call(&heap, TIMES, 14));
  printf("100 + 5 is %d\n", call(&heap, PLUS, 5));
}
