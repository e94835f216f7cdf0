/* Collectors and an allocation in C, as fast as plain C makes them: no call and no test in a loop that can be left out.
   In this order: words, (a), (b), (c). The check of (b) stands in full_check.c. */
#include "baseline.h"

#include "rules.h"

enum { SHAPE = 1, ROOT = 2, COUNT = 3, DAMAGED = 8, ROOM = 9 };

/* ---- words ---- */

static inline uint32_t *at_address(uint32_t *heap, uint32_t address) { return (uint32_t *)((char *)heap + address); }

static inline uint32_t address_of(const uint32_t *heap, const uint32_t *word) {
  return (uint32_t)((const char *)word - (const char *)heap);
}

/* ---- (a) the copying ---- */

/* Up to four words straight, up to twelve by a plain loop, more by the C library. */
static inline uint32_t *copy_words(uint32_t *to, const uint32_t *from, uint32_t n) {
  uint32_t *end = to + n;
  if (n > 4) {
    if (n > 12) {
      memcpy(to, from, n * sizeof *to);
      return end;
    }
#pragma clang loop vectorize(disable) unroll(disable)
    while (to < end) *to++ = *from++;
    return end;
  }
  if (n == 0) return end;
  to[0] = from[0];
  if (n == 1) return end;
  to[1] = from[1];
  if (n == 2) return end;
  to[2] = from[2];
  if (n == 3) return end;
  to[3] = from[3];
  return end;
}

/* Where the next copy goes; and how many addresses led to an object that was copied then, and to one copied before. One
   of the two rises at each address: their sum is the addresses met, which need no count of their own. */
struct copying {
  uint32_t *free;
  uint32_t copied, found;
};

/* The new address of the object at an address; it is copied to the free words when it is met first. */
static inline uint32_t forward(uint32_t *heap, uint32_t address, struct copying *c) {
  uint32_t *object = at_address(heap, address), *copy = c->free;
  uint32_t header = *object, to;
  if (header & 1) {
    c->found++;
    return header - 1;
  }
  c->copied++;
  to = address_of(heap, copy);
  *object = to + 1;
  *copy = header;
  c->free = copy_words(copy + 1, object + 1, count_of(header));
  return to;
}

/* Roots, then the copies in their order. Answers the word past the copies, and what was met. */
static inline struct copying copy_reachable(uint32_t *heap, uint32_t *root, size_t root_count, uint32_t *scan) {
  struct copying c = {scan, 0, 0};
  uint32_t *end;
  for (end = root + root_count; root < end; root++)
    if (is_address(*root)) *root = forward(heap, *root, &c);
  while (scan < c.free) {
    uint32_t header = *scan++;
    end = scan + count_of(header);
    if (RARELY(header >> 31)) { /* a jump, not a move that the next load would wait for */
      scan = end;
      continue;
    }
    for (; scan < end; scan++)
      if (is_address(*scan)) *scan = forward(heap, *scan, &c);
  }
  return c;
}

/* Copies to the other half and clears `words` words of this one. */
static inline struct counts collect_sound(struct state *s, uint32_t words) {
  uint32_t *heap = s->heap, old = first_word(s->words, s->half), new = first_word(s->words, !s->half);
  struct copying c = copy_reachable(heap, s->roots, s->root_count, heap + new);
  struct counts counts = {(uint32_t)(c.free - heap) - new, c.copied, c.copied + c.found};
  memset(heap + old, 0, words * sizeof *heap);
  s->half = !s->half;
  s->free = new + counts.live;
  return counts;
}

struct counts bare_collect(struct state *s) { return collect_sound(s, half_size(s->words)); }

struct counts bare_collect_used(struct state *s) {
  return collect_sound(s, s->free - first_word(s->words, s->half));
}

/* ---- (b) the collection with all duties ---- */

static inline int misshapen(const struct state *s) { return bad_shape(s->words, s->root_count, s->half, s->free); }

uint32_t full_collect(struct state *s, struct counts *counts) {
  if (misshapen(s)) return SHAPE;
  if (!full_check_shaped(s)) return DAMAGED;
  *counts = bare_collect_used(s);
  return 0;
}

/* ---- (c) allocation ---- */

static inline uint32_t place_in(struct state *s, uint32_t n, size_t to, int untraced) {
  uint32_t free = s->free;
  s->free = free + n + 1;
  s->roots[to] = 4 * free;
  place(s->heap, free, n, untraced);
  return 0;
}

static inline int fits(const struct state *s, size_t n) { return n < spare(s->words, s->half, s->free); }

static __attribute__((noinline, cold)) uint32_t collect_and_place(struct state *s, size_t n, size_t to, int untraced,
                                                                  int bare) {
  struct counts untold; /* an allocation says "done" and nothing more */
  if (bare) bare_collect(s);
  else if (full_collect(s, &untold)) return DAMAGED;
  return fits(s, n) ? place_in(s, (uint32_t)n, to, untraced) : ROOM;
}

static inline uint32_t allocate_with(struct state *s, size_t n, size_t to, int untraced, int bare) {
  if (RARELY(misshapen(s))) return SHAPE;
  if (RARELY(to >= s->root_count)) return ROOT;
  if (RARELY(n > 1073741823)) return COUNT;
  if (RARELY(!fits(s, n))) return collect_and_place(s, n, to, untraced, bare);
  return place_in(s, (uint32_t)n, to, untraced);
}

uint32_t full_allocate(struct state *s, size_t n, size_t to, int untraced) {
  return allocate_with(s, n, to, untraced, 0);
}

uint32_t bare_allocate(struct state *s, size_t n, size_t to, int untraced) {
  return allocate_with(s, n, to, untraced, 1);
}
