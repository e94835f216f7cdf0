/* Texts written, by the archive and by its twin in C: trees of pairs, of depths whose texts differ a thousandfold, and
   lists as deep as texts go. A workload is named with the bytes of its text. */
#include <stdio.h>
#include <stdlib.h>
#include <string.h>

#include "contenders.h"
#include "twins.h"
#include "workloads.h"

#define MOST_BYTES 2000000

static char text[MOST_BYTES], other[MOST_BYTES];

static void stop(const char *why) {
  fprintf(stderr, "bench: %s\n", why);
  exit(2);
}

static void expect(size_t refusal) {
  if (refusal != 0) stop("a value that has a text is refused");
}

static void run_twin(struct state *s, size_t times) {
  phachunoi_heap h = heap_of(s);
  for (; times > 0; times--) expect(twin_write(PHACHUNOI_LENT(&h), 0, text, MOST_BYTES).refusal);
}

static void run_archive(struct state *s, size_t times) {
  phachunoi_heap h = heap_of(s);
  for (; times > 0; times--) expect(phachunoi_write(PHACHUNOI_LENT(&h), 0, text, MOST_BYTES).refusal);
}

static const struct contender writers[] = {{"twin", run_twin}, {"archive", run_archive}};

/* Both write the same. Answers the length. */
static size_t hold(const struct state *start) {
  phachunoi_heap h = heap_of(start);
  size_t length, twin_length = twin_write(PHACHUNOI_LENT(&h), 0, other, MOST_BYTES).length;
  expect(phachunoi_heap_write(&h, 0, text, MOST_BYTES, &length));
  if (length != twin_length || memcmp(text, other, length) != 0) stop("the writer and its twin differ");
  return length;
}

static void write_root(const struct state *start, const char *shape) {
  size_t length = hold(start), times = rounds_counting() ? 1 : 1 + 2000000 / length;
  char name[40];
  snprintf(name, sizeof name, "%s/%zu", shape, length);
  measure("writing", name, start, writers, 2, times);
}

int main(int argc, char **argv) {
  struct state start;
  char name[20];
  unsigned depth;
  uint32_t fields;
  rounds_begin(argc, argv);
  for (depth = 4; depth <= 16; depth += 4) {
    snprintf(name, sizeof name, "tree%u", depth);
    text_tree_heap(&start, 524288, depth);
    write_root(&start, name);
  }
  for (fields = 1; fields <= 4; fields++) {
    snprintf(name, sizeof name, "list60of%u", fields);
    text_list_heap(&start, 524288, 60, fields);
    write_root(&start, name);
  }
  return 0;
}
