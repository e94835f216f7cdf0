/* Allocations that fit: a half is filled with objects of n fields, by the baseline, by the twin of the exported call
   and by that call. */
#include <stdio.h>
#include <stdlib.h>

#include "baseline.h"
#include "contenders.h"
#include "twins.h"
#include "workloads.h"

#define HALF 65536
#define ROOTS 64

static size_t fields; /* of each object */

static void expect(uint32_t refusal) {
  if (refusal == 0) return;
  fprintf(stderr, "bench: an allocation that fits is refused\n");
  exit(2);
}

/* Root after root gets an object. Each side keeps its record in a struct, as a host does. */
static void run_baseline(struct state *s, size_t times) {
  size_t i, fill = HALF / (fields + 1);
  for (; times > 0; times--, s->free = 1)
    for (i = 0; i < fill; i++) expect(full_allocate(s, fields, i % ROOTS, 0));
}

static void run_twin(struct state *s, size_t times) {
  size_t i, fill = HALF / (fields + 1);
  phachunoi_heap h = heap_of(s);
  for (; times > 0; times--, h.record.free = 1)
    for (i = 0; i < fill; i++)
      expect(phachunoi_heap_keep(&h, twin_allocate_traced(PHACHUNOI_LENT(&h), fields, i % ROOTS)));
}

static void run_archive(struct state *s, size_t times) {
  size_t i, fill = HALF / (fields + 1);
  phachunoi_heap h = heap_of(s);
  for (; times > 0; times--, h.record.free = 1)
    for (i = 0; i < fill; i++) expect(phachunoi_heap_allocate_traced(&h, fields, i % ROOTS));
}

static const struct contender allocators[] = {
    {"baseline", run_baseline}, {"twin", run_twin}, {"archive", run_archive}};

int main(int argc, char **argv) {
  static const size_t counts[] = {0, 1, 2, 3, 4, 5, 6, 8, 9, 12, 16, 30, 64, 100, 300, 1000};
  struct state start;
  char name[20];
  size_t i;
  rounds_begin(argc, argv);
  empty_heap(&start, HALF, ROOTS);
  for (i = 0; i < sizeof counts / sizeof *counts; i++) {
    fields = counts[i];
    snprintf(name, sizeof name, "%zu", fields);
    measure("allocating", name, &start, allocators, 3, rounds_counting() ? 1 : 10);
  }
  return 0;
}
