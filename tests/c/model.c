/* The model of documents 01 and 02: soundness, collection, then the calls one by one. */
#include "model.h"

#include <string.h>

#include "texts.h"
#include "words.h"

/* "Every even word from 16,777,216 up is a code word." */
int model_is_code(uint32_t word) { return word % 2 == 0 && word >= 16777216; }

/* ---- soundness ---- */

static uint8_t starts[LONGEST + 1]; /* 1 at the header of each object of the tiling */

static int all_zero(const struct state *s, uint32_t from, uint32_t to) {
  uint32_t i;
  for (i = from; i < to; i++)
    if (s->heap[i] != 0) return 0;
  return 1;
}

/* Objects with bit 0 clear fill the used part exactly; notes where they start. */
static int tiles(const struct state *s) {
  uint64_t at = first_word(s, s->half);
  memset(starts, 0, s->words);
  while (at < s->free) {
    uint32_t header = s->heap[at];
    if (header & 1) return 0;
    starts[at] = 1;
    at += (uint64_t)fields_of(header) + 1;
  }
  return at == s->free;
}

static int good_value(const struct state *s, uint32_t word) {
  if (plain(word)) return 1;
  return word % 4 == 0 && word / 4 < s->words && starts[word / 4];
}

static int good_fields(const struct state *s, uint32_t at) {
  uint32_t k, n = fields_of(s->heap[at]);
  if (untraced(s->heap[at])) return 1;
  for (k = 1; k <= n; k++)
    if (!good_value(s, s->heap[at + k])) return 0;
  return 1;
}

int model_sound(const struct state *s) {
  uint32_t first, other, i;
  if (bad_shape(s) || s->heap[0] != 0) return 0;
  first = first_word(s, s->half);
  other = first_word(s, 1 - s->half);
  if (!all_zero(s, other, other + half_size(s)) || !all_zero(s, s->free, first + half_size(s))) return 0;
  if (!tiles(s)) return 0;
  for (i = 0; i < s->root_count; i++)
    if (!good_value(s, s->roots[i])) return 0;
  for (i = first; i < s->free; i++)
    if (starts[i] && !good_fields(s, i)) return 0;
  return 1;
}

/* ---- collection of a sound heap ---- */

static uint32_t order[LONGEST]; /* indexes of the reachable objects, as they are met */
static uint32_t copy_at[LONGEST]; /* where the copy of the object at an index will stand; 0: not met */
static uint32_t new_half[LONGEST];
static size_t met;
static uint32_t next_copy;

static void meet(const struct state *s, uint32_t word) {
  if (plain(word) || copy_at[word / 4] != 0) return;
  order[met++] = word / 4;
  copy_at[word / 4] = next_copy;
  next_copy += fields_of(s->heap[word / 4]) + 1;
}

static void meet_fields(const struct state *s, uint32_t at) {
  uint32_t k;
  if (untraced(s->heap[at])) return;
  for (k = 1; k <= fields_of(s->heap[at]); k++) meet(s, s->heap[at + k]);
}

static void find_order(const struct state *s, uint32_t first_copy) {
  size_t i;
  memset(copy_at, 0, s->words * sizeof copy_at[0]);
  met = 0;
  next_copy = first_copy;
  for (i = 0; i < s->root_count; i++) meet(s, s->roots[i]);
  for (i = 0; i < met; i++) meet_fields(s, order[i]);
}

static uint32_t renamed(uint32_t word) { return plain(word) ? word : 4 * copy_at[word / 4]; }

/* The copy of one object, into new_half, which starts at index first_copy. */
static void write_copy(const struct state *s, uint32_t at, uint32_t first_copy) {
  uint32_t header = s->heap[at], k;
  uint32_t *to = new_half + (copy_at[at] - first_copy);
  to[0] = header;
  for (k = 1; k <= fields_of(header); k++) to[k] = untraced(header) ? s->heap[at + k] : renamed(s->heap[at + k]);
}

static uint32_t addresses_among(const uint32_t *words, size_t n) {
  uint32_t addresses = 0;
  size_t i;
  for (i = 0; i < n; i++) addresses += !plain(words[i]);
  return addresses;
}

/* Over the roots and the reachable objects as they lie before anything moves, and not while they are searched for. */
static struct counts count_reachable(const struct state *s) {
  struct counts c = {0, 0, 0};
  size_t i;
  c.addresses = addresses_among(s->roots, s->root_count);
  for (i = 0; i < met; i++) {
    const uint32_t *object = s->heap + order[i];
    c.live += fields_of(*object) + 1;
    c.objects++;
    if (!untraced(*object)) c.addresses += addresses_among(object + 1, fields_of(*object));
  }
  return c;
}

static struct counts collect_sound(struct state *s) {
  uint32_t first_copy = first_word(s, 1 - s->half);
  struct counts counts;
  size_t i;
  find_order(s, first_copy);
  counts = count_reachable(s);
  for (i = 0; i < met; i++) write_copy(s, order[i], first_copy);
  memset(s->heap, 0, s->words * sizeof s->heap[0]);
  memcpy(s->heap + first_copy, new_half, (next_copy - first_copy) * sizeof new_half[0]);
  for (i = 0; i < s->root_count; i++) s->roots[i] = renamed(s->roots[i]);
  s->half = 1 - s->half;
  s->free = next_copy;
  return counts;
}

/* ---- the calls ---- */

static uint32_t fresh(struct state *s) {
  if (bad_length(s->words)) return SHAPE;
  memset(s->heap, 0, s->words * sizeof s->heap[0]);
  s->half = 0;
  s->free = 1;
  return 0;
}

static uint32_t collect(struct state *s, struct counts *counts) {
  if (bad_shape(s)) return SHAPE;
  if (!model_sound(s)) return DAMAGED;
  *counts = collect_sound(s);
  return 0;
}

static int fits(const struct state *s, uint64_t words) {
  return s->free + words <= (uint64_t)first_word(s, s->half) + half_size(s);
}

/* Words are free, or a collection makes them so. All roots count as live in it. */
static uint32_t make_room(struct state *s, uint64_t words) {
  if (fits(s, words)) return 0;
  if (!model_sound(s)) return DAMAGED;
  collect_sound(s);
  return fits(s, words) ? 0 : ROOM;
}

static uint32_t allocate(struct state *s, size_t n, size_t to, uint32_t kind_bit) {
  uint32_t refusal;
  if (bad_shape(s)) return SHAPE;
  if (to >= s->root_count) return ROOT;
  if (n > MOST_FIELDS) return COUNT;
  refusal = make_room(s, (uint64_t)n + 1);
  if (refusal != 0) return refusal;
  s->heap[s->free] = (kind_bit << 31) | (uint32_t)(2 * n);
  memset(s->heap + s->free + 1, 0, n * sizeof s->heap[0]);
  s->roots[to] = 4 * s->free;
  s->free += (uint32_t)n + 1;
  return 0;
}

/* "objects in the order their texts begin": all words of one, then its fields in turn, each with all below it. */
static uint32_t place_value(struct state *s, const struct looked_at **next) {
  const struct looked_at *v = (*next)++;
  uint32_t at = s->free, k;
  if (v->sort == WHOLE_NUMBER) return (uint32_t)(2 * v->number + 1);
  s->heap[at] = 2 * v->fields;
  s->free += v->fields + 1;
  for (k = 1; k <= v->fields; k++) s->heap[at + k] = place_value(s, next);
  return 4 * at;
}

static uint32_t read_root(struct state *s, size_t to) {
  struct text_read text;
  uint32_t refusal;
  if (bad_shape(s)) return SHAPE;
  if (to >= s->root_count) return ROOT;
  text = read_text(s->text, s->bytes);
  if (text.refusal != 0) return text.refusal;
  refusal = make_room(s, text.words);
  if (refusal != 0) return refusal;
  s->roots[to] = place_value(s, &text.values);
  return 0;
}

static uint32_t set_integer(struct state *s, size_t to, int64_t v) {
  if (bad_shape(s)) return SHAPE;
  if (to >= s->root_count) return ROOT;
  if (v < -1073741824 || v > 1073741823) return RANGE;
  s->roots[to] = (uint32_t)(2 * v + 1);
  return 0;
}

static uint32_t set_null(struct state *s, size_t to) {
  if (bad_shape(s)) return SHAPE;
  if (to >= s->root_count) return ROOT;
  s->roots[to] = 0;
  return 0;
}

static uint32_t set_code(struct state *s, size_t to, uint32_t word) {
  if (bad_shape(s)) return SHAPE;
  if (to >= s->root_count) return ROOT;
  if (!model_is_code(word)) return RANGE; /* odd, or below the floor */
  s->roots[to] = word;
  return 0;
}

static uint32_t copy(struct state *s, size_t from, size_t to) {
  if (bad_shape(s)) return SHAPE;
  if (from >= s->root_count || to >= s->root_count) return ROOT;
  s->roots[to] = s->roots[from];
  return 0;
}

/* The refusals that every field call shares; else where the field stands. `other` is a second root, or `object`. */
static uint32_t find_field(const struct state *s, size_t object, size_t other, size_t field, int raw, uint32_t *at) {
  uint32_t header;
  if (bad_shape(s)) return SHAPE;
  if (object >= s->root_count || other >= s->root_count) return ROOT;
  if (!names(s, s->roots[object])) return OBJECT;
  header = s->heap[s->roots[object] / 4];
  if (untraced(header) != raw) return KIND;
  if (field >= fields_of(header)) return FIELD;
  *at = s->roots[object] / 4 + 1 + (uint32_t)field;
  return 0;
}

static uint32_t same(const struct state *s, size_t one, size_t other, uint32_t *yes) {
  if (bad_shape(s)) return SHAPE;
  if (one >= s->root_count || other >= s->root_count) return ROOT;
  *yes = s->roots[one] == s->roots[other];
  return 0;
}

static struct said inspect(const struct state *s, size_t root) {
  struct said r = {0};
  uint32_t word;
  if (bad_shape(s)) return r.refusal = SHAPE, r;
  if (root >= s->root_count) return r.refusal = ROOT, r;
  word = s->roots[root];
  if (word == 0) return r;
  if (word % 2 == 1) return r.kind = 1, r.integer = integer_of(word), r;
  if (model_is_code(word)) return r.kind = 4, r.code = word, r;
  if (!names(s, word)) return r.refusal = OBJECT, r;
  r.kind = untraced(s->heap[word / 4]) ? 3 : 2;
  r.count = fields_of(s->heap[word / 4]);
  return r;
}

static struct said open_window(const struct state *s, size_t object) {
  struct said r = {0};
  if (bad_shape(s)) return r.refusal = SHAPE, r;
  if (object >= s->root_count) return r.refusal = ROOT, r;
  if (!names(s, s->roots[object])) return r.refusal = OBJECT, r;
  r.first = s->roots[object] / 4 + 1;
  r.count = fields_of(s->heap[s->roots[object] / 4]);
  return r;
}

/* By first and count alone, which are 0 in a refused window; a word outside the heap is no field. */
static uint32_t word_of(const struct state *s, const uint32_t *window, size_t field, uint32_t *word) {
  if (field >= window[2] || window[1] + field >= s->words) return FIELD;
  *word = s->heap[window[1] + field];
  return 0;
}

static uint32_t field_call(struct state *s, const struct call *c, uint32_t *value) {
  int raw = c->op == RAW_READ || c->op == RAW_WRITE;
  size_t other = raw ? c->a : c->c;
  uint32_t at = 0, refusal = find_field(s, c->a, other, c->b, raw, &at);
  if (refusal) return refusal;
  if (c->op == LOAD) s->roots[c->c] = s->heap[at];
  if (c->op == STORE) s->heap[at] = s->roots[c->c];
  if (c->op == RAW_READ) *value = s->heap[at];
  if (c->op == RAW_WRITE) s->heap[at] = c->number;
  return 0;
}

struct said model_call(struct state *s, const struct call *c) {
  struct said r = {0};
  switch (c->op) {
  case FRESH: r.refusal = fresh(s); break;
  case CHECK:
    if (bad_shape(s)) r.refusal = SHAPE;
    else r.value = (uint32_t)model_sound(s);
    break;
  case COLLECT: r.refusal = collect(s, &r.counts); break;
  case NEW_TRACED: r.refusal = allocate(s, c->b, c->a, 0); break;
  case NEW_UNTRACED: r.refusal = allocate(s, c->b, c->a, 1); break;
  case SET_INTEGER: r.refusal = set_integer(s, c->a, c->integer); break;
  case SET_NULL: r.refusal = set_null(s, c->a); break;
  case SET_CODE: r.refusal = set_code(s, c->a, c->number); break;
  case COPY: r.refusal = copy(s, c->a, c->c); break;
  case LOAD:
  case STORE:
  case RAW_READ:
  case RAW_WRITE: r.refusal = field_call(s, c, &r.value); break;
  case SAME: r.refusal = same(s, c->a, c->c, &r.value); break;
  case INSPECT: return inspect(s, c->a);
  case OPEN: return open_window(s, c->a);
  case WORD: r.refusal = word_of(s, c->window, c->b, &r.value); break;
  case WRITE: r.refusal = model_write(s, c->a, &r.length); break;
  case READ: r.refusal = read_root(s, c->a); break;
  case OPS: break;
  }
  return r;
}
