/* The heaps that are collected, written word by word, the same on every machine. */
#include "workloads.h"

#include <stdio.h>
#include <stdlib.h>
#include <string.h>

#include "../tests/c/random.h"

static uint32_t *objects; /* indexes of the headers of the heap that is made */
static uint32_t object_count;

void empty_heap(struct state *s, size_t half, size_t root_count) {
  static uint32_t *words, *roots;
  if (words == NULL) {
    words = malloc(2097153 * sizeof *words);
    roots = malloc(65536 * sizeof *roots);
    objects = malloc(1048576 * sizeof *objects);
    if (words == NULL || roots == NULL || objects == NULL) exit(2);
  }
  s->heap = words;
  s->words = 2 * half + 1;
  s->roots = roots;
  s->root_count = root_count;
  s->half = 0;
  s->free = 1;
  memset(words, 0, s->words * sizeof *words);
  memset(roots, 0, root_count * sizeof *roots);
  object_count = 0;
}

/* A new object; answers its index. */
static uint32_t object(struct state *s, uint32_t fields, uint32_t untraced) {
  uint32_t at = s->free;
  if (at + fields > (s->words - 1) / 2) {
    fprintf(stderr, "bench: a workload does not fit its heap\n");
    exit(2);
  }
  s->heap[at] = untraced << 31 | fields << 1;
  s->free += fields + 1;
  objects[object_count++] = at;
  return at;
}

static uint32_t some_object(void) { return 4 * objects[below(object_count)]; }

static uint32_t fields_of(const struct state *s, uint32_t at) { return (s->heap[at] & 0x7fffffffu) >> 1; }

/* ---- regular heaps ---- */

static uint32_t tree(struct state *s, unsigned depth) {
  uint32_t left = depth ? tree(s, depth - 1) : 0, right = depth ? tree(s, depth - 1) : 0, at = object(s, 2, 0);
  s->heap[at + 1] = left;
  s->heap[at + 2] = right;
  return 4 * at;
}

void tree_heap(struct state *s, size_t half, unsigned depth) {
  empty_heap(s, half, 4);
  s->roots[0] = tree(s, depth);
}

void list_heap(struct state *s, size_t half, uint32_t cells, uint32_t fields) {
  uint32_t i, k, at, rest = 0;
  empty_heap(s, half, 4);
  for (i = 0; i < cells; i++, rest = 4 * at) {
    at = object(s, fields, 0);
    for (k = 1; k < fields; k++) s->heap[at + k] = 2 * i + 1;
    s->heap[at + fields] = rest;
  }
  s->roots[0] = rest;
}

/* Every null field of the objects made. */
static void number_nulls(struct state *s) {
  uint32_t i, k, next = 0;
  for (i = 0; i < object_count; i++)
    for (k = 1; k <= fields_of(s, objects[i]); k++)
      if (s->heap[objects[i] + k] == 0) s->heap[objects[i] + k] = 2 * next++ + 1;
}

void text_tree_heap(struct state *s, size_t half, unsigned depth) {
  tree_heap(s, half, depth);
  number_nulls(s);
}

void text_list_heap(struct state *s, size_t half, uint32_t cells, uint32_t fields) {
  list_heap(s, half, cells, fields);
  s->heap[objects[0] + fields] = 4 * object(s, 0, 0);
}

static void tree16(struct state *s) { tree_heap(s, 524288, 16); }

static void list200k(struct state *s) { list_heap(s, 1048576, 200000, 2); }

/* ---- irregular heaps ---- */

/* Objects of up to six fields until the half is full; a sixteenth of them is untraced. */
static void graph(struct state *s) {
  uint32_t i, k;
  empty_heap(s, 1048576, 64);
  random_seed(1);
  while (s->free + 6 <= 1048576) object(s, below(7), one_in(16));
  for (i = 0; i < object_count; i++)
    for (k = 1; k <= fields_of(s, objects[i]); k++)
      s->heap[objects[i] + k] = s->heap[objects[i]] >> 31 ? (uint32_t)random_bits()
                                : !one_in(4)              ? some_object()
                                : one_in(2)               ? 0
                                                          : (uint32_t)random_bits() | 1;
  for (i = 0; i < 64; i++) s->roots[i] = some_object();
}

/* The first two fields of the i-th of n objects become its children in a binary tree, the others any of them. */
static void join(struct state *s, const uint32_t *kept, uint32_t n, uint32_t i) {
  uint32_t k;
  for (k = 1; k <= 2; k++) s->heap[kept[i] + k] = 2 * i + k < n ? 4 * kept[2 * i + k] : 0;
  for (; k <= fields_of(s, kept[i]); k++) s->heap[kept[i] + k] = 4 * kept[below(n)];
}

/* One object in ten is reachable; the others name each other and those. */
static void garbage(struct state *s) {
  uint32_t *kept = malloc(1048576 * sizeof *kept), n = 0, i, k;
  if (kept == NULL) exit(2);
  empty_heap(s, 1048576, 16);
  random_seed(2);
  while (s->free + 4 <= 1048576) {
    uint32_t at = object(s, 2 + below(3), 0);
    if (one_in(10)) kept[n++] = at;
  }
  for (i = 0; i < object_count; i++)
    for (k = 1; k <= fields_of(s, objects[i]); k++) s->heap[objects[i] + k] = one_in(2) ? some_object() : 2 * k + 1;
  for (i = 0; i < n; i++) join(s, kept, n, i);
  s->roots[0] = 4 * kept[0];
  free(kept);
}

/* 900 untraced objects of 1,000 words, named by one table. */
static void blocks(struct state *s) {
  uint32_t table, i, k;
  empty_heap(s, 1048576, 4);
  random_seed(3);
  table = object(s, 900, 0);
  for (i = 0; i < 900; i++) {
    uint32_t at = object(s, 1000, 1);
    for (k = 1; k <= 1000; k++) s->heap[at + k] = (uint32_t)random_bits();
    s->heap[table + 1 + (i * 7) % 900] = 4 * at;
  }
  s->roots[3] = 4 * table;
}

/* A list of strings: untraced objects of 5 to 40 words, each named by a pair. */
static void strings(struct state *s) {
  uint32_t pair, string, rest = 0, k, n;
  empty_heap(s, 1048576, 4);
  random_seed(4);
  while (s->free + 44 <= 1048576) {
    n = 5 + below(36);
    string = object(s, n, 1);
    for (k = 1; k <= n; k++) s->heap[string + k] = (uint32_t)random_bits();
    pair = object(s, 2, 0);
    s->heap[pair + 1] = 4 * string;
    s->heap[pair + 2] = rest;
    rest = 4 * pair;
  }
  s->roots[0] = rest;
}

/* ---- code words among the values ---- */

static uint32_t some_code(void) { return 16777216 + 2 * below(1000); }

/* Closures until the half is full: a code word and up to five values that were captured. */
static void closures(struct state *s) {
  uint32_t i, k;
  empty_heap(s, 1048576, 64);
  random_seed(5);
  while (s->free + 6 <= 1048576) s->heap[object(s, 1 + below(6), 0) + 1] = some_code();
  for (i = 0; i < object_count; i++)
    for (k = 2; k <= fields_of(s, objects[i]); k++)
      s->heap[objects[i] + k] = !one_in(4) ? some_object() : one_in(2) ? 0 : (uint32_t)random_bits() | 1;
  for (i = 0; i < 64; i++) s->roots[i] = some_object();
}

/* Half of them addresses, a quarter integers, the rest null and code words. */
static uint32_t some_value(void) {
  if (one_in(2)) return some_object();
  if (one_in(2)) return (uint32_t)random_bits() | 1;
  return one_in(2) ? 0 : some_code();
}

/* As many roots as there can be, and as many words: objects of up to four fields. */
static void roots(struct state *s) {
  uint32_t i, k;
  empty_heap(s, 65536, 65536);
  random_seed(6);
  while (s->free + 4 <= 65536) object(s, below(5), 0);
  for (i = 0; i < object_count; i++)
    for (k = 1; k <= fields_of(s, objects[i]); k++) s->heap[objects[i] + k] = some_value();
  for (i = 0; i < 65536; i++) s->roots[i] = some_value();
}

/* ---- heaps at the limits ---- */

/* S = 64: a list of eight objects of two to four fields, a block of raw words and four words of garbage. */
static void small(struct state *s) {
  uint32_t i, at, rest = 0;
  empty_heap(s, 64, 4);
  for (i = 0; i < 8; i++, rest = 4 * at) {
    at = object(s, 2 + i % 3, 0);
    s->heap[at + 1] = rest;
    s->heap[at + 2] = 2 * i + 1;
  }
  s->roots[0] = s->roots[1] = rest;
  s->roots[2] = 4 * object(s, 3, 1);
  s->heap[s->free - 1] = 8;
  object(s, 3, 0);
}

static void empty(struct state *s) { empty_heap(s, 1048576, 0); }

static void nulls(struct state *s) {
  empty_heap(s, 1048576, 1);
  s->roots[0] = 4 * object(s, 1000000, 0);
}

const struct workload workloads[] = {
    {"tree", tree16, 1},         {"list", list200k, 1},   {"graph", graph, 1}, {"garbage", garbage, 1},
    {"blocks", blocks, 1},       {"strings", strings, 1}, {"closures", closures, 1},
    {"roots", roots, 10},        {"small", small, 100000}, {"empty", empty, 1}, {"nulls", nulls, 1},
};
const size_t workload_count = sizeof workloads / sizeof *workloads;
