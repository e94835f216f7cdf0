/* The archive's calls with their arguments in the header's order; then the same through the header's struct. */
#include "archive.h"

#define LENT(s) (s)->heap, (s)->words, (s)->roots, (s)->root_count, record

static struct said kept(struct state *s, phachunoi_result r) {
  struct said said = {.refusal = r.refusal, .value = r.value};
  s->half = r.record.half;
  s->free = r.record.free;
  return said;
}

static struct said collected(struct state *s, phachunoi_collected r) {
  struct said said = {.refusal = r.refusal, .counts = {r.live, r.objects, r.addresses}};
  s->half = r.record.half;
  s->free = r.record.free;
  return said;
}

static struct said answered(phachunoi_answer a) {
  struct said said = {.refusal = a.refusal, .value = a.value};
  return said;
}

static struct said seen(phachunoi_seen a) {
  struct said said = {
      .refusal = a.refusal, .kind = a.kind, .integer = a.integer, .count = a.count, .code = a.code};
  return said;
}

static struct said opened(phachunoi_window a) {
  struct said said = {.refusal = a.refusal, .count = a.count, .first = a.first};
  return said;
}

static struct said written(phachunoi_written a) {
  struct said said = {.refusal = (uint32_t)a.refusal, .length = a.length};
  if (a.refusal > 12) said.refusal = 77; /* one that is no refusal shows, in its upper half too */
  return said;
}

static phachunoi_window window_of(const struct call *c) {
  phachunoi_window window = {c->window[0], c->window[1], c->window[2]};
  return window;
}

static struct said plain_call(struct state *s, const struct call *c) {
  struct said nothing = {0};
  phachunoi_record record = {s->half, s->free};
  switch (c->op) {
  case FRESH: return kept(s, phachunoi_fresh(s->heap, s->words, record));
  case CHECK: return answered(phachunoi_check(LENT(s)));
  case COLLECT: return collected(s, phachunoi_collect(LENT(s)));
  case NEW_TRACED: return kept(s, phachunoi_allocate_traced(LENT(s), c->b, c->a));
  case NEW_UNTRACED: return kept(s, phachunoi_allocate_untraced(LENT(s), c->b, c->a));
  case SET_INTEGER: return answered(phachunoi_set_integer(LENT(s), c->a, c->integer));
  case SET_NULL: return answered(phachunoi_set_null(LENT(s), c->a));
  case SET_CODE: return answered(phachunoi_set_code(LENT(s), c->a, c->number));
  case COPY: return answered(phachunoi_copy(LENT(s), c->a, c->c));
  case LOAD: return answered(phachunoi_load(LENT(s), c->a, c->b, c->c));
  case STORE: return answered(phachunoi_store(LENT(s), c->a, c->b, c->c));
  case RAW_READ: return answered(phachunoi_raw_read(LENT(s), c->a, c->b));
  case RAW_WRITE: return answered(phachunoi_raw_write(LENT(s), c->a, c->b, c->number));
  case SAME: return answered(phachunoi_same(LENT(s), c->a, c->c));
  case INSPECT: return seen(phachunoi_inspect(LENT(s), c->a));
  case OPEN: return opened(phachunoi_open(LENT(s), c->a));
  case WORD: return answered(phachunoi_word(s->heap, s->words, window_of(c), c->b));
  case WRITE: return written(phachunoi_write(LENT(s), c->a, s->text, s->bytes));
  case READ: return kept(s, phachunoi_read(LENT(s), c->a, s->text, s->bytes));
  case OPS: break;
  }
  return nothing;
}

/* ---- through the struct; 77 stands where an answer is due, so that one that is not written shows ---- */

/* The calls that only answer a refusal. */
static uint32_t struct_refusal(phachunoi_heap *h, const struct state *s, const struct call *c) {
  switch (c->op) {
  case NEW_TRACED: return phachunoi_heap_allocate_traced(h, c->b, c->a);
  case NEW_UNTRACED: return phachunoi_heap_allocate_untraced(h, c->b, c->a);
  case SET_INTEGER: return phachunoi_heap_set_integer(h, c->a, c->integer);
  case SET_NULL: return phachunoi_heap_set_null(h, c->a);
  case SET_CODE: return phachunoi_heap_set_code(h, c->a, c->number);
  case COPY: return phachunoi_heap_copy(h, c->a, c->c);
  case LOAD: return phachunoi_heap_load(h, c->a, c->b, c->c);
  case STORE: return phachunoi_heap_store(h, c->a, c->b, c->c);
  case READ: return phachunoi_heap_read(h, c->a, s->text, s->bytes);
  default: return phachunoi_heap_raw_write(h, c->a, c->b, c->number);
  }
}

static struct said struct_write(const phachunoi_heap *h, const struct state *s, size_t root) {
  struct said said = {.length = 77};
  said.refusal = phachunoi_heap_write(h, root, s->text, s->bytes, &said.length);
  return said;
}

static struct said struct_collect(phachunoi_heap *h) {
  phachunoi_counts counts = {77, 77, 77};
  struct said said = {.refusal = phachunoi_heap_collect(h, &counts)};
  said.counts.live = counts.live;
  said.counts.objects = counts.objects;
  said.counts.addresses = counts.addresses;
  return said;
}

static struct said struct_answer(phachunoi_heap *h, const struct state *s, const struct call *c) {
  struct said said = {.value = 77};
  int yes = 77;
  switch (c->op) {
  case CHECK: said.refusal = phachunoi_heap_check(h, &yes); break;
  case SAME: said.refusal = phachunoi_heap_same(h, c->a, c->c, &yes); break;
  case COLLECT: return struct_collect(h);
  case RAW_READ: return said.refusal = phachunoi_heap_raw_read(h, c->a, c->b, &said.value), said;
  case WORD: return said.refusal = phachunoi_heap_word(h, window_of(c), c->b, &said.value), said;
  case INSPECT: return seen(phachunoi_heap_inspect(h, c->a));
  case OPEN: return opened(phachunoi_heap_open(h, c->a));
  case WRITE: return struct_write(h, s, c->a);
  default: return said.refusal = struct_refusal(h, s, c), said.value = 0, said;
  }
  said.value = (uint32_t)yes;
  return said;
}

phachunoi_heap heap_of(const struct state *s) {
  phachunoi_heap h;
  h.words = s->heap;
  h.word_count = s->words;
  h.roots = s->roots;
  h.root_count = s->root_count;
  h.record.half = s->half;
  h.record.free = s->free;
  return h;
}

struct said archive_call(struct state *s, const struct call *c, int through_struct) {
  struct said said;
  phachunoi_heap h;
  if (!through_struct || c->op == FRESH) return plain_call(s, c); /* the struct's `begin` clears the roots too */
  h = heap_of(s);
  said = struct_answer(&h, s, c);
  s->half = h.record.half;
  s->free = h.record.free;
  return said;
}
