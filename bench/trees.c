/* Binary trees, built and dropped beside a live one, and one full collection: the archive, the baselines, malloc and,
   where it is installed, Boehm's libgc. These are unlike things: docs/PERFORMANCE.md says how. */
#include <stdio.h>
#include <stdlib.h>

#include "baseline.h"
#include "by_archive.h"
#include "contenders.h"
#include "workloads.h"

#ifdef WITH_LIBGC
#include <gc.h>
#endif

enum { TREES = 40, FULL_DEPTH = 16, ROOTS = 32 };

/* ---- in a heap of two halves: root `to` gets a tree, the roots above it are its builder's ---- */

typedef uint32_t allocate_function(struct state *s, size_t fields, size_t to, int untraced);

static void grow(struct state *s, allocate_function *allocate, unsigned depth, size_t to) {
  uint32_t field;
  expect_done(allocate(s, 2, to, 0));
  for (field = 1; field <= 2 && depth > 0; field++) {
    grow(s, allocate, depth - 1, to + 1);
    s->heap[s->roots[to] / 4 + field] = s->roots[to + 1];
  }
}

static void grow_and_drop(struct state *s, allocate_function *allocate, size_t times) {
  size_t i;
  grow(s, allocate, LIVE_DEPTH, 0);
  for (i = 0; i < times; i++) grow(s, allocate, DEPTH, 1);
}

static void run_bare(struct state *s, size_t times) { grow_and_drop(s, bare_allocate, times); }

static void run_full(struct state *s, size_t times) { grow_and_drop(s, full_allocate, times); }

static void run_archive(struct state *s, size_t times) { trees_by_archive(s, times); }

/* ---- in nodes of their own ---- */

struct node {
  struct node *left, *right;
};

static struct node *grow_by_malloc(unsigned depth) {
  struct node *node = malloc(sizeof *node);
  if (node == NULL) exit(2);
  node->left = depth > 0 ? grow_by_malloc(depth - 1) : NULL;
  node->right = depth > 0 ? grow_by_malloc(depth - 1) : NULL;
  return node;
}

static void drop(struct node *node) {
  if (node == NULL) return;
  drop(node->left);
  drop(node->right);
  free(node);
}

static void run_malloc(struct state *s, size_t times) {
  struct node *live = grow_by_malloc(LIVE_DEPTH);
  (void)s;
  while (times-- > 0) drop(grow_by_malloc(DEPTH));
  drop(live);
}

#ifdef WITH_LIBGC
static struct node *kept;

static struct node *grow_in_libgc(unsigned depth) {
  struct node *node = GC_MALLOC(sizeof *node);
  if (node == NULL) exit(2);
  if (depth == 0) return node;
  node->left = grow_in_libgc(depth - 1);
  node->right = grow_in_libgc(depth - 1);
  return node;
}

static void run_libgc(struct state *s, size_t times) {
  (void)s;
  kept = grow_in_libgc(LIVE_DEPTH);
  while (times-- > 0) grow_in_libgc(DEPTH);
}

static void collect_libgc(struct state *s, size_t times) {
  (void)s;
  while (times-- > 0) GC_gcollect();
}
#endif

/* ---- measured ---- */

static const struct contender builders[] = {
    {"bare", run_bare},
    {"full", run_full},
    {"archive", run_archive},
    {"malloc", run_malloc},
#ifdef WITH_LIBGC
    {"libgc", run_libgc},
#endif
#ifdef WITH_BEFORE
    {"before", run_before_trees},
#endif
};

/* The tree of the full collection lies in the heap's words, and a like one in libgc's. */
static void measure_full_collection(void) {
  struct contender collectors[5];
  struct state start;
  size_t i;
  for (i = 0; i < GROWING; i++) collectors[i] = contenders[i];
  tree_heap(&start, 524288, FULL_DEPTH);
#ifdef WITH_LIBGC
  GC_INIT();
  kept = grow_in_libgc(FULL_DEPTH);
  collectors[i].name = "libgc";
  collectors[i++].run = collect_libgc;
#endif
  measure("full-collection", "tree", &start, collectors, i, 1);
}

int main(int argc, char **argv) {
  static const size_t halves[] = {262144, 393216, 524288, 1048576};
  struct state start;
  size_t half, i;
  char name[20];
  rounds_begin(argc, argv);
  measure_full_collection();
  for (i = 0; i < sizeof halves / sizeof *halves; i++) {
    half = halves[i];
    empty_heap(&start, half, ROOTS);
    snprintf(name, sizeof name, "%zu", half);
    measure("trees", name, &start, builders, sizeof builders / sizeof *builders, TREES);
  }
  return 0;
}
