/* The heap P5 of document 01, built by calls, before and after its collection: as text and as a graph, in four files.
 *   picture FOLDER    writes FOLDER/p5-before.txt, p5-before.dot, p5-after.txt and p5-after.dot */
#include <stdio.h>
#include <stdlib.h>

#include "phachunoi_show.h"

#define HALF 8

static uint32_t words[PHACHUNOI_WORDS(HALF)];
static uint32_t roots[2];
static uint32_t notes[HALF]; /* so that garbage is told */

static void must(enum phachunoi_refusal refusal) {
  if (refusal == PHACHUNOI_DONE) return;
  fprintf(stderr, "picture: %s\n", phachunoi_refusal_text(refusal));
  exit(1);
}

/* A one-field object that is garbage in the end, an object that holds itself and 10, and one of no fields. */
static void build(phachunoi_heap *heap) {
  must(phachunoi_heap_begin(heap, words, HALF, roots, 2));
  must(phachunoi_heap_allocate_traced(heap, 1, 0));
  must(phachunoi_heap_set_integer(heap, 1, 0));
  must(phachunoi_heap_store(heap, 0, 0, 1));
  must(phachunoi_heap_allocate_traced(heap, 2, 1));
  must(phachunoi_heap_store(heap, 1, 0, 1));
  must(phachunoi_heap_set_integer(heap, 0, 10));
  must(phachunoi_heap_store(heap, 1, 1, 0));
  must(phachunoi_heap_allocate_traced(heap, 0, 0));
}

typedef void shower(FILE *out, const phachunoi_heap *heap, uint32_t *notes);

static void show_in(const char *folder, const char *name, shower *show, const phachunoi_heap *heap) {
  char path[4096];
  FILE *out;
  snprintf(path, sizeof path, "%s/%s", folder, name);
  out = fopen(path, "w");
  if (out != NULL) show(out, heap, notes);
  if (out != NULL && fclose(out) == 0) return;
  fprintf(stderr, "picture: cannot write %s\n", path);
  exit(1);
}

int main(int argc, char **argv) {
  phachunoi_heap heap;
  phachunoi_counts counts;
  if (argc != 2) return fputs("usage: picture FOLDER\n", stderr), 2;
  build(&heap);
  show_in(argv[1], "p5-before.txt", phachunoi_show_text, &heap);
  show_in(argv[1], "p5-before.dot", phachunoi_show_graph, &heap);
  must(phachunoi_heap_collect(&heap, &counts));
  show_in(argv[1], "p5-after.txt", phachunoi_show_text, &heap);
  show_in(argv[1], "p5-after.dot", phachunoi_show_graph, &heap);
  return 0;
}
