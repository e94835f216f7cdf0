/* Texts read, by the archive and by its twin in C: those that bench/writing.c writes. A workload is named with the
   bytes of its text. */
#include <stdio.h>
#include <stdlib.h>
#include <string.h>

#include "contenders.h"
#include "twins.h"
#include "workloads.h"

#define HALF 524288
#define MOST_BYTES 2000000

static char text[MOST_BYTES];
static size_t length;

static void expect(size_t refusal) {
  if (refusal == 0) return;
  fprintf(stderr, "bench: a text that fits is refused\n");
  exit(2);
}

/* Each time into an empty half: the words that the last one left are not looked at. */
static void run_twin(struct state *s, size_t times) {
  phachunoi_heap h = heap_of(s);
  for (; times > 0; times--, h.record.free = 1)
    expect(phachunoi_heap_keep(&h, twin_read(PHACHUNOI_LENT(&h), 0, text, length)));
}

static void run_archive(struct state *s, size_t times) {
  phachunoi_heap h = heap_of(s);
  for (; times > 0; times--, h.record.free = 1) expect(phachunoi_heap_read(&h, 0, text, length));
}

static const struct contender readers[] = {{"twin", run_twin}, {"archive", run_archive}};

/* Both leave the same words. */
static void hold(const struct state *start) {
  uint32_t *words = malloc(start->words * sizeof *words);
  struct state *s = copy_of(start);
  if (words == NULL) exit(2);
  run_twin(s, 1);
  memcpy(words, s->heap, s->words * sizeof *words);
  s = copy_of(start);
  run_archive(s, 1);
  if (memcmp(words, s->heap, s->words * sizeof *words) != 0) {
    fprintf(stderr, "bench: the reader and its twin differ\n");
    exit(2);
  }
  free(words);
}

/* Reads the text of root 0 of a heap. */
static void read_root(struct state *written, const char *shape) {
  phachunoi_heap h = heap_of(written);
  struct state start;
  char name[40];
  expect(phachunoi_heap_write(&h, 0, text, MOST_BYTES, &length));
  empty_heap(&start, HALF, 4);
  hold(&start);
  snprintf(name, sizeof name, "%s/%zu", shape, length);
  measure("reading", name, &start, readers, 2, rounds_counting() ? 1 : 1 + 2000000 / length);
}

int main(int argc, char **argv) {
  struct state written;
  char name[20];
  unsigned depth;
  uint32_t fields;
  rounds_begin(argc, argv);
  for (depth = 4; depth <= 16; depth += 4) {
    snprintf(name, sizeof name, "tree%u", depth);
    text_tree_heap(&written, HALF, depth);
    read_root(&written, name);
  }
  for (fields = 1; fields <= 4; fields++) {
    snprintf(name, sizeof name, "list60of%u", fields);
    text_list_heap(&written, HALF, 60, fields);
    read_root(&written, name);
  }
  return 0;
}
