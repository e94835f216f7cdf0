/* Heaps at random. Objects are small, so that a small heap has many; fields and roots often name objects. */
#include "heaps.h"

#include <string.h>

#include "codes.h"
#include "random.h"

static uint32_t objects[1048576]; /* indexes of the headers written so far */
static uint32_t object_count;

static uint32_t half_of(const struct state *s) { return (uint32_t)((s->words - 1) / 2); }

static void write_objects(struct state *s, uint32_t end) {
  uint32_t n, large_one = one_in(2) ? 20 : 100000; /* some heaps are all small objects */
  object_count = 0;
  while (s->free < end) {
    n = one_in(large_one) ? below(end - s->free) : below(5);
    if (n + 1 > end - s->free) n = end - s->free - 1;
    s->heap[s->free] = (one_in(4) ? 0x80000000u : 0) | 2 * n;
    objects[object_count++] = s->free;
    s->free += n + 1;
  }
}

static uint32_t value(void) {
  if (object_count > 0 && !one_in(3)) return 4 * objects[below(object_count)];
  if (one_in(3)) return code_word();
  return one_in(4) ? 0 : (uint32_t)random_bits() | 1;
}

/* Raw words are noise, and now and then the address of an object. */
static uint32_t raw(void) { return one_in(4) ? value() : (uint32_t)random_bits(); }

static void write_fields(struct state *s, uint32_t at) {
  uint32_t header = s->heap[at], k;
  for (k = 1; k <= (header & 0x7fffffffu) / 2; k++) s->heap[at + k] = header >> 31 ? raw() : value();
}

void sound_heap(struct state *s) {
  uint32_t size = half_of(s), used = one_in(3) ? size : below(size + 1), i;
  size_t r;
  memset(s->heap, 0, s->words * sizeof s->heap[0]);
  s->half = below(2);
  s->free = s->half == 0 ? 1 : size + 1;
  write_objects(s, s->free + used);
  for (i = 0; i < object_count; i++) write_fields(s, objects[i]);
  for (r = 0; r < s->root_count; r++) s->roots[r] = value();
}

static void write_object(struct state *s, uint32_t end, uint32_t n, uint32_t kind) {
  if (s->free >= end) return;
  if (n + 1 > end - s->free) n = end - s->free - 1;
  s->heap[s->free] = kind << 31 | 2 * n;
  objects[object_count++] = s->free;
  s->free += n + 1;
}

/* Some objects of one sort: pairs; all alike; of any size, with and without raw ones; raw words between pairs; long. */
static void write_stretch(struct state *s, uint32_t end) {
  uint32_t i, sort = below(6), count = 1 + below(one_in(4) ? 200 : 12), n = below(9), kind = one_in(4);
  for (i = 0; i < count && s->free < end; i++) switch (sort) {
    case 0: write_object(s, end, 2, 0); break;
    case 1: write_object(s, end, n, kind); break;
    case 2: write_object(s, end, below(7), 0); break;
    case 3: write_object(s, end, below(10), one_in(4)); break;
    case 4:
      write_object(s, end, 5 + below(36), 1);
      write_object(s, end, 2, 0);
      break;
    default:
      write_object(s, end, 50 + below(300), kind);
      i += 20;
    }
}

/* A long object may hold numbers and nulls only: no word of it is looked up then. */
static void write_long_fields(struct state *s, uint32_t at) {
  uint32_t header = s->heap[at], k, n = (header & 0x7fffffffu) / 2;
  write_fields(s, at);
  if (n < 50 || header >> 31 || one_in(2)) return;
  for (k = 1; k <= n; k++) s->heap[at + k] = one_in(2) ? 0 : (uint32_t)random_bits() | 1;
}

void stretched_heap(struct state *s) {
  uint32_t size = half_of(s), used = one_in(3) ? size : below(size + 1), i;
  size_t r;
  memset(s->heap, 0, s->words * sizeof s->heap[0]);
  s->free = s->half == 0 ? 1 : size + 1;
  object_count = 0;
  for (i = s->free + used; s->free < i;) write_stretch(s, i);
  for (i = 0; i < object_count; i++) write_long_fields(s, objects[i]);
  for (r = 0; r < s->root_count; r++) s->roots[r] = value();
}

/* A bit of a word, or all of it, mostly of the used part. */
static void spoil(struct state *s) {
  uint32_t at = one_in(3) || s->free >= s->words ? below((uint32_t)s->words) : below(s->free + 1);
  if (s->words > 0 && at < s->words) s->heap[at] = one_in(4) ? around_floor() : s->heap[at] ^ 1u << below(32);
}

/* A word that is almost an address, or almost a code word. */
static uint32_t near_value(const struct state *s) {
  uint32_t word = 4 * below((uint32_t)s->words + 2);
  if (one_in(6)) return around_floor();
  return one_in(4) ? word + 2 : word;
}

void damage(struct state *s) {
  switch (below(8)) {
  case 0: s->free += below(5) - 2; break;
  case 1: s->half = one_in(4) ? below(5) : 1 - s->half; break;
  case 2:
    if (s->root_count > 0) s->roots[below((uint32_t)s->root_count)] = near_value(s);
    break;
  case 3:
    if (s->words > 0) s->heap[below((uint32_t)s->words)] = near_value(s);
    break;
  case 4:
    if (s->words > 0) s->heap[below((uint32_t)s->words)] = 2 * below(8);
    break;
  default: spoil(s);
  }
}

void noise(struct state *s) {
  size_t i;
  for (i = 0; i < s->words; i++) s->heap[i] = one_in(2) ? below(16) : near_value(s);
  for (i = 0; i < s->root_count; i++) s->roots[i] = near_value(s);
  s->half = below(2);
  s->free = below((uint32_t)s->words + 2);
}

void p5_heap(struct state *s) {
  static const uint32_t words[17] = {0, 2, 1, 4, 12, 21, 0};
  memcpy(s->heap, words, sizeof words);
  memset(s->roots, 0, s->root_count * sizeof s->roots[0]);
  s->roots[0] = 24;
  s->roots[1] = 12;
  s->half = 0;
  s->free = 7;
}
