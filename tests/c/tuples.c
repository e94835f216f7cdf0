/* Heaps of tuples: chains about as deep as a text may be, trees, and values shared level after level. Here and there
   stands a word that has no text. */
#include "tuples.h"

#include <string.h>

#include "codes.h"
#include "random.h"

static uint32_t tops[64]; /* what was made, for roots */
static uint32_t top_count;

static uint32_t small_integer(void) {
  static const uint32_t edges[] = {1, 3, 0xffffffffu, 0x7fffffffu, 0x80000001u, 19, 21, 0xffffffedu, 0xffffffebu};
  if (one_in(3)) return edges[below(sizeof edges / sizeof edges[0])];
  return one_in(3) ? (uint32_t)random_bits() | 1 : 2 * below(1000) + 1;
}

/* A new object, or an integer if there is no room. Its fields are integers. */
static uint32_t object(struct state *s, uint32_t fields, uint32_t untraced) {
  uint32_t end = (s->half + 1) * (uint32_t)((s->words - 1) / 2), at = s->free, k;
  if (at + fields > end) return small_integer();
  s->heap[at] = untraced << 31 | 2 * fields;
  for (k = 1; k <= fields; k++) s->heap[at + k] = small_integer();
  s->free += fields + 1;
  return 4 * at;
}

static void set_field(struct state *s, uint32_t object, uint32_t field, uint32_t word) {
  if (object % 2 == 0) s->heap[object / 4 + 1 + field] = word;
}

/* What cannot be written: null, a code word, an untraced object, a word of no kind. */
static uint32_t no_text(struct state *s) {
  switch (below(6)) {
  case 0: return 0;
  case 1: return code_word();
  case 2: return object(s, below(3), 1);
  case 3: return 4 * below((uint32_t)s->words + 4) + 2;
  case 4: return 4 * (uint32_t)s->words + 4 * below(9);
  default: return around_floor();
  }
}

/* Each link holds the next one in some field. The last is any value, or the first link again. */
static void chain(struct state *s, uint32_t links) {
  uint32_t next = one_in(3) ? no_text(s) : one_in(2) ? object(s, 0, 0) : small_integer();
  uint32_t last = 1, fields, link, i;
  for (i = 0; i < links; i++, next = link) {
    fields = 1 + below(3);
    link = object(s, fields, 0);
    set_field(s, link, below(fields), next);
    if (i == 0) last = link;
    if (one_in(200)) set_field(s, link, below(fields), no_text(s));
    if (top_count < 64 && (one_in(16) || i + 1 == links)) tops[top_count++] = link;
  }
  if (!one_in(3)) set_field(s, last, 0, next);
}

/* Every field of a level is the level below: the text doubles, or trebles, from level to level. */
static void shared(struct state *s, uint32_t levels) {
  uint32_t next = one_in(8) ? no_text(s) : small_integer(), fields, level, i, k;
  for (i = 0; i < levels; i++, next = level) {
    fields = 2 + one_in(4);
    level = object(s, fields, 0);
    for (k = 0; k < fields; k++) set_field(s, level, k, next);
    if (top_count < 64 && (i < 5 || i + 1 == levels)) tops[top_count++] = level;
  }
}

static uint32_t tree(struct state *s, uint32_t depth) {
  uint32_t fields = below(4), k, top;
  if (one_in(50)) return no_text(s);
  if (depth == 0 || one_in(3)) return small_integer();
  top = object(s, fields, 0);
  for (k = 0; k < fields; k++) set_field(s, top, k, tree(s, depth - 1));
  return top;
}

void tuple_heap(struct state *s) {
  uint32_t i, parts = 1 + below(4);
  size_t r;
  memset(s->heap, 0, s->words * sizeof s->heap[0]);
  s->half = below(2);
  s->free = s->half == 0 ? 1 : (uint32_t)((s->words - 1) / 2) + 1;
  top_count = 0;
  for (i = 0; i < parts; i++) {
    if (one_in(2))
      chain(s, one_in(4) ? 1 + below(8) : 62 + below(8));
    else if (one_in(3))
      shared(s, one_in(2) ? below(5) : 60 + below(8));
    else if (top_count < 64)
      tops[top_count++] = tree(s, 1 + below(6));
  }
  for (r = 0; r < s->root_count; r++)
    s->roots[r] = one_in(20) ? no_text(s) : one_in(10) || top_count == 0 ? small_integer() : tops[below(top_count)];
}
