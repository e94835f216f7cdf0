/* The heaps that are collected. */
#ifndef WORKLOADS_H
#define WORKLOADS_H

#include "../tests/c/model.h"

struct workload {
  const char *name;
  void (*make)(struct state *s);
  size_t times; /* how often the heap is collected in one measurement */
};

extern const struct workload workloads[];
extern const size_t workload_count;

/* An empty heap of halves of S words, in half A, with null roots. The words are kept from call to call. */
void empty_heap(struct state *s, size_t half, size_t root_count);

/* A list of cells, each a number and the rest of the list, with `fields` fields; root 0 names it. */
void list_heap(struct state *s, size_t half, uint32_t cells, uint32_t fields);

/* A full binary tree of two-field nodes in root 0, 2^(depth + 1) - 1 of them. */
void tree_heap(struct state *s, size_t half, unsigned depth);

/* The same for texts, where null has none: a tree whose leaves hold integers in its place, from 0 up, and a list that
   ends with an object of no fields. */
void text_tree_heap(struct state *s, size_t half, unsigned depth);
void text_list_heap(struct state *s, size_t half, uint32_t cells, uint32_t fields);

#endif
