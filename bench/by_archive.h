/* What contenders do by the archive's calls. Included after before.h, by those of the archive before. */
#ifndef BY_ARCHIVE_H
#define BY_ARCHIVE_H

#include <stdio.h>
#include <stdlib.h>

#include "../tests/c/model.h"
#include "phachunoi.h"

static inline void expect_done(uint32_t refusal) {
  if (refusal == 0) return;
  fprintf(stderr, "bench: a contender refuses what can be done\n");
  exit(2);
}

static inline phachunoi_heap lent_by(const struct state *s) {
  phachunoi_heap h;
  h.words = s->heap;
  h.word_count = s->words;
  h.roots = s->roots;
  h.root_count = s->root_count;
  h.record.half = s->half;
  h.record.free = s->free;
  return h;
}

static inline uint32_t collect_by_archive(struct state *s, struct counts *counts) {
  phachunoi_heap h = lent_by(s);
  phachunoi_collected c = phachunoi_collect(PHACHUNOI_LENT(&h));
  s->half = c.record.half;
  s->free = c.record.free;
  counts->live = c.live;
  counts->objects = c.objects;
  counts->addresses = c.addresses;
  return c.refusal;
}

static inline int check_by_archive(struct state *s) {
  phachunoi_heap h = lent_by(s);
  return (int)phachunoi_check(PHACHUNOI_LENT(&h)).value;
}

/* ---- binary trees: root `to` gets one, the roots above it are its builder's ---- */

enum { LIVE_DEPTH = 14, DEPTH = 12 };

static inline void grow_by_archive(phachunoi_heap *heap, unsigned depth, size_t to) {
  size_t field;
  expect_done(phachunoi_heap_allocate_traced(heap, 2, to));
  for (field = 0; field < 2 && depth > 0; field++) {
    grow_by_archive(heap, depth - 1, to + 1);
    expect_done(phachunoi_heap_store(heap, to, field, to + 1));
  }
}

static inline void trees_by_archive(struct state *s, size_t times) {
  phachunoi_heap heap = lent_by(s);
  size_t i;
  grow_by_archive(&heap, LIVE_DEPTH, 0);
  for (i = 0; i < times; i++) grow_by_archive(&heap, DEPTH, 1);
}

#endif
