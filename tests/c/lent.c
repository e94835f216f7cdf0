/* Lent runs and their guards. */
#include "lent.h"

#include <string.h>

/* Even, a multiple of 4 and in range of some heaps: a guard read by mistake looks like an address. */
#define GUARD 0x00000024u

static void set_guards(uint32_t *run, size_t n) {
  size_t i;
  for (i = 1; i <= GUARDS; i++) run[-(ptrdiff_t)i] = GUARD;
  for (i = 0; i < GUARDS; i++) run[n + i] = GUARD;
}

static int guards_of(const uint32_t *run, size_t n) {
  size_t i;
  uint32_t differ = 0;
  for (i = 1; i <= GUARDS; i++) differ |= run[-(ptrdiff_t)i] ^ GUARD;
  for (i = 0; i < GUARDS; i++) differ |= run[n + i] ^ GUARD;
  return differ == 0;
}

void lend(struct lent *l, size_t words, size_t root_count) {
  l->s.heap = l->heap_block + GUARDS;
  l->s.words = words;
  l->s.roots = l->roots_block + GUARDS;
  l->s.root_count = root_count;
  l->s.half = 0;
  l->s.free = 1;
  memset(l->s.heap, 0, words * sizeof l->s.heap[0]);
  memset(l->s.roots, 0, root_count * sizeof l->s.roots[0]);
  set_guards(l->s.heap, words);
  set_guards(l->s.roots, root_count);
}

static void copy_state(struct state *to, const struct state *from) {
  memcpy(to->heap, from->heap, from->words * sizeof from->heap[0]);
  memcpy(to->roots, from->roots, from->root_count * sizeof from->roots[0]);
  to->half = from->half;
  to->free = from->free;
}

void lend_copy(struct lent *l, const struct state *s) {
  lend(l, s->words, s->root_count);
  copy_state(&l->s, s);
}

void copy_lent(struct lent *to, const struct lent *from) { copy_state(&to->s, &from->s); }

int guards_hold(const struct lent *l) {
  return guards_of(l->s.heap, l->s.words) && guards_of(l->s.roots, l->s.root_count);
}

void fill_bytes(char *text, size_t bytes) {
  size_t i;
  for (i = 0; i < bytes; i++) text[i] = (char)(0x80 | (i * 37 & 0x7f));
}

void lend_bytes(struct lent *l, const struct call *c) {
  l->s.bytes = c->op == WRITE || c->op == READ ? c->b : 0;
  l->s.text = l->text_block + GUARDS;
  memset(l->text_block, '(', GUARDS);
  if (c->op == READ) memcpy(l->s.text, c->text, c->b);
  else fill_bytes(l->s.text, l->s.bytes);
  memset(l->s.text + l->s.bytes, '(', GUARDS);
}

int bytes_equal(const struct lent *a, const struct lent *b) {
  return a->s.bytes == b->s.bytes && memcmp(a->text_block, b->text_block, a->s.bytes + 2 * GUARDS) == 0;
}

int states_equal(const struct state *a, const struct state *b) {
  return a->half == b->half && a->free == b->free && memcmp(a->heap, b->heap, a->words * sizeof a->heap[0]) == 0 &&
         memcmp(a->roots, b->roots, a->root_count * sizeof a->roots[0]) == 0;
}
