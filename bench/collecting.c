/* Collections and checks of the heaps, after each collector has been held against the model on each. */
#include <stdio.h>
#include <stdlib.h>
#include <string.h>

#include "contenders.h"
#include "workloads.h"

static int equal(const struct state *one, const struct state *other) {
  return one->half == other->half && one->free == other->free &&
         memcmp(one->heap, other->heap, one->words * sizeof *one->heap) == 0 &&
         memcmp(one->roots, other->roots, one->root_count * sizeof *one->roots) == 0;
}

/* A check answers no numbers: it leaves those that were there. */
static void hold(const struct state *expected, const struct counts *counts, const struct state *start,
                 const struct contender *c, const char *workload) {
  struct state *s = copy_of(start);
  memset(&counted, 0, sizeof counted);
  c->run(s, 1);
  if (equal(s, expected) && memcmp(&counted, counts, sizeof counted) == 0) return;
  fprintf(stderr, "bench: %s leaves or counts something else than the model on %s\n", c->name, workload);
  exit(1);
}

/* What the model leaves of a heap, and each contender against it: a check must leave the heap as it was. */
static void hold_all(const struct state *start, const char *workload) {
  struct state collected = *start;
  struct call call = {COLLECT, 0, 0, 0, 0, 0, {0, 0, 0}, NULL};
  struct counts counts, none = {0, 0, 0};
  size_t i;
  collected.heap = malloc(start->words * sizeof *start->heap);
  collected.roots = malloc((start->root_count + 1) * sizeof *start->roots);
  if (collected.heap == NULL || collected.roots == NULL) exit(2);
  memcpy(collected.heap, start->heap, start->words * sizeof *start->heap);
  memcpy(collected.roots, start->roots, start->root_count * sizeof *start->roots);
  counts = model_call(&collected, &call).counts;
  for (i = 0; i < COLLECTORS; i++) hold(&collected, &counts, start, &contenders[i], workload);
  for (; i < COLLECTORS + CHECKERS; i++) hold(start, &none, start, &contenders[i], workload);
  printf("heap %s half %zu used %u live %u objects %u addresses %u\n", workload, (start->words - 1) / 2,
         start->free - 1, counts.live, counts.objects, counts.addresses);
  free(collected.heap);
  free(collected.roots);
}

int main(int argc, char **argv) {
  struct state start;
  size_t i;
  rounds_begin(argc, argv);
  for (i = 0; i < workload_count; i++) {
    const struct workload *w = &workloads[i];
    w->make(&start);
    hold_all(&start, w->name);
    measure("collecting", w->name, &start, contenders, COLLECTORS + CHECKERS,
            rounds_counting() && w->times > 1000 ? 1000 : w->times);
  }
  return 0;
}
