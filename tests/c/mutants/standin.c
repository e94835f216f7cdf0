/* A stand-in for the archive: the header's calls in plain C, with an in-place collector. It judges the tests.
 *
 * With MUTANT 0 it is right, and the tests must find no difference. Each other number is one deliberate mistake, told
 * where it is made; the tests must find it. MUTANTS in standin.h is how many there are. The collector stands in
 * standin_collect.c, the check in standin_check.c, the calls on texts in standin_texts.c and standin_reader.c.
 */
#include "standin.h"

size_t half_of(const struct view *v) { return v->words / 2; }
size_t first_of(const struct view *v, uint32_t half) { return half ? half_of(v) + 1 : 1; }
size_t end_of(const struct view *v) { return first_of(v, v->record.half) + half_of(v); }

static int length_ok(size_t words) {
  size_t longest = BUG(1) ? 2097151 : 2097153; /* the largest heap is refused */
  return words % 2 == 1 && words >= 3 && words <= longest;
}

int shape_ok(const struct view *v) {
  size_t most = BUG(2) ? 65535 : 65536;                     /* the last root is one too many */
  size_t end = end_of(v) - (BUG(3) && v->record.half == 1); /* an exactly full half B is refused */
  return length_ok(v->words) && v->root_count <= most && v->record.half <= 1 &&
         v->record.free >= first_of(v, v->record.half) && v->record.free <= end;
}

int is_code(uint32_t word) {
  uint32_t floor = PHACHUNOI_CODE_FLOOR + 2u * BUG(27) - 2u * BUG(28); /* the floor is one word too high; too low */
  if (BUG(29) && word % 4 != 0) return 0;                              /* only multiples of 4 are code words */
  if (BUG(30) && word >> 31) return 0;                                 /* words are compared as signed numbers */
  return word % 2 == 0 && word >= floor;
}

int plain(uint32_t word) {
  if (BUG(31) && word >= PHACHUNOI_CODE_FLOOR - 4) return 1; /* words just below the floor are let through and kept */
  return word % 2 == 1 || word == 0 || is_code(word);
}

int names(const struct view *v, uint32_t word) {
  size_t at = word / 4;
  if (word == 0 || word % 4 != 0 || at < first_of(v, v->record.half) || at >= v->record.free) return 0;
  if (BUG(4)) return 1; /* any multiple of 4 in range is an object */
  return v->heap[at] % 2 == 0 && at + HEADER_COUNT(v->heap[at]) + 1 <= v->record.free;
}

/* ---- the calls ---- */

static phachunoi_result result(uint32_t refusal, record_t record) {
  phachunoi_result r = {refusal, 0, {0, 0}};
  r.record = record;
  return r;
}

static phachunoi_answer answer(uint32_t refusal, uint32_t value) {
  phachunoi_answer a = {refusal, value};
  return a;
}

uint32_t phachunoi_version(void) { return PHACHUNOI_VERSION_NUMBER; }

phachunoi_result phachunoi_fresh(uint32_t *heap, size_t words, record_t record) {
  size_t i;
  if (!length_ok(words)) return result(1, record);
  for (i = BUG(15); i < words; i++) heap[i] = 0; /* word 0 is kept */
  record.half = 0;
  record.free = 1;
  return result(0, record);
}

phachunoi_answer phachunoi_check(uint32_t *heap, size_t words, const uint32_t *roots, size_t root_count,
                                 record_t record) {
  VIEW;
  if (!shape_ok(&v)) return answer(1, 0);
  return answer(0, (uint32_t)sound(&v));
}

phachunoi_collected phachunoi_collect(uint32_t *heap, size_t words, uint32_t *roots, size_t root_count,
                                      record_t record) {
  VIEW;
  phachunoi_collected c = {0, 0, 0, 0, {0, 0}};
  phachunoi_counts counts;
  c.record = record;
  if (!shape_ok(&v)) return c.refusal = 1, c.objects = BUG(136), c; /* SHAPE leaves a number */
  if (!sound(&v)) return c.refusal = 8, c.addresses = BUG(135), c;  /* DAMAGED does */
  counts = collect(&v, (size_t)-1);
  c.live = counts.live;
  c.objects = counts.objects;
  c.addresses = counts.addresses;
  c.record = v.record;
  return c;
}

static phachunoi_result allocate(struct view *v, size_t n, size_t to, uint32_t kind) {
  size_t k;
  if (!shape_ok(v)) return result(1, v->record);
  if (BUG(16)) to = (uint32_t)to; /* a root number is narrowed */
  if (BUG(17)) n = (uint32_t)n;   /* so is a count */
  if (to >= v->root_count) return result(2, v->record);
  if (n > PHACHUNOI_MAX_FIELDS) return result(3, v->record);
  if (BUG(18) && n + 1 > half_of(v)) return result(9, v->record); /* a hopeless count does not collect */
  if (BUG(19) && !sound(v)) return result(8, v->record);          /* soundness is asked for with room to spare */
  if (v->record.free + n + 1 > end_of(v)) {
    if (!sound(v)) return result(8, v->record);
    collect(v, BUG(20) ? to : (size_t)-1); /* the root that is written counts as dead */
  }
  if (v->record.free + n + 1 > end_of(v)) return result(9, v->record);
  v->heap[v->record.free] = kind << 31 | (uint32_t)(2 * n);
  for (k = 1; k <= n && !BUG(21); k++) v->heap[v->record.free + k] = 0; /* fields are taken to be 0 already */
  v->roots[to] = 4 * v->record.free;
  v->record.free += (uint32_t)n + 1;
  if (BUG(22)) v->heap[v->words] = 0; /* a word past the heap is written */
  return result(0, v->record);
}

phachunoi_result phachunoi_allocate_traced(uint32_t *heap, size_t words, uint32_t *roots, size_t root_count,
                                           record_t record, size_t fields, size_t to) {
  VIEW;
  return allocate(&v, fields, to, 0);
}

phachunoi_result phachunoi_allocate_untraced(uint32_t *heap, size_t words, uint32_t *roots, size_t root_count,
                                             record_t record, size_t fields, size_t to) {
  VIEW;
  return allocate(&v, fields, to, 1);
}

phachunoi_answer phachunoi_set_integer(const uint32_t *heap, size_t words, uint32_t *roots, size_t root_count,
                                       record_t record, size_t to, int64_t value) {
  VIEW;
  if (!shape_ok(&v)) return answer(1, 0);
  if (to >= root_count) return answer(2, 0);
  if (value < PHACHUNOI_INTEGER_MIN + BUG(23) || value > PHACHUNOI_INTEGER_MAX) return answer(4, 0);
  roots[to] = (uint32_t)value * 2 + 1; /* mistake 23: the least integer is refused */
  return answer(0, 0);
}

phachunoi_answer phachunoi_set_null(const uint32_t *heap, size_t words, uint32_t *roots, size_t root_count,
                                    record_t record, size_t to) {
  VIEW;
  if (!shape_ok(&v)) return answer(1, 0);
  if (to >= root_count) return answer(2, 0);
  roots[to] = 0;
  return answer(0, 0);
}

phachunoi_answer phachunoi_set_code(const uint32_t *heap, size_t words, uint32_t *roots, size_t root_count,
                                    record_t record, size_t to, uint32_t word) {
  VIEW;
  int accepted = is_code(BUG(37) ? word & ~1u : word) || (BUG(38) && word == 0); /* an odd word is accepted; so is 0 */
  if (!shape_ok(&v) && !BUG(39)) return answer(1, 0);                            /* SHAPE is not asked for */
  if (BUG(40) && !sound(&v)) return answer(8, 0);                                /* the heap's words are looked at */
  if (BUG(41)) to = (uint32_t)to;                                                /* a root number is narrowed */
  if (BUG(42) && !accepted) return answer(4, 0);                                 /* RANGE before ROOT */
  if (to >= root_count) return answer(2, 0);
  if (accepted || BUG(43)) roots[to] = BUG(44) ? word & ~3u : BUG(45) ? 0 : word;
  return answer(accepted ? 0 : 4, 0); /* mistakes 43: a refused word is written; 44: another word; 45: null */
}

phachunoi_answer phachunoi_copy(const uint32_t *heap, size_t words, uint32_t *roots, size_t root_count,
                                record_t record, size_t from, size_t to) {
  VIEW;
  if (!shape_ok(&v)) return answer(1, 0);
  if (from >= root_count || to >= root_count) return answer(2, 0);
  roots[to] = roots[from];
  return answer(0, 0);
}

static uint32_t field_of(const struct view *v, size_t object, size_t other, size_t field, uint32_t kind, size_t *at) {
  uint32_t header;
  if (!shape_ok(v)) return 1;
  if (object >= v->root_count || other >= v->root_count) return 2;
  if (BUG(46) && is_code(v->roots[object])) return 6; /* a code word is an object of another kind */
  if (!names(v, v->roots[object])) return 5;
  header = v->heap[v->roots[object] / 4];
  if (BUG(24) && field >= HEADER_COUNT(header)) return 7; /* FIELD before KIND */
  if (header >> 31 != kind) return 6;
  if (field >= HEADER_COUNT(header)) return 7;
  *at = v->roots[object] / 4 + 1 + field;
  return 0;
}

phachunoi_answer phachunoi_load(const uint32_t *heap, size_t words, uint32_t *roots, size_t root_count,
                                record_t record, size_t object, size_t field, size_t to) {
  VIEW;
  size_t at;
  uint32_t refusal = field_of(&v, object, to, field, 0, &at);
  if (refusal == 0) roots[to] = heap[at];
  return answer(refusal, 0);
}

phachunoi_answer phachunoi_store(uint32_t *heap, size_t words, const uint32_t *roots, size_t root_count,
                                 record_t record, size_t object, size_t field, size_t from) {
  VIEW;
  size_t at;
  uint32_t refusal = field_of(&v, object, from, field, 0, &at);
  if (refusal == 0) heap[at] = roots[from];
  return answer(refusal, 0);
}

phachunoi_answer phachunoi_raw_read(const uint32_t *heap, size_t words, const uint32_t *roots, size_t root_count,
                                    record_t record, size_t object, size_t field) {
  VIEW;
  size_t at;
  phachunoi_answer a = {0, 0};
  a.refusal = field_of(&v, object, object, field, 1, &at);
  if (a.refusal == 0) a.value = heap[at];
  return a;
}

phachunoi_answer phachunoi_raw_write(uint32_t *heap, size_t words, const uint32_t *roots, size_t root_count,
                                     record_t record, size_t object, size_t field, uint32_t number) {
  VIEW;
  size_t at;
  uint32_t refusal = field_of(&v, object, object, field, 1, &at);
  if (refusal == 0) heap[at] = number;
  return answer(refusal, 0);
}

phachunoi_answer phachunoi_same(const uint32_t *heap, size_t words, const uint32_t *roots, size_t root_count,
                                record_t record, size_t one, size_t other) {
  VIEW;
  phachunoi_answer a = {0, 0};
  if (!shape_ok(&v)) return a.refusal = 1, a;
  if (one >= root_count || other >= root_count) return a.refusal = 2, a;
  a.value = roots[one] == roots[other];
  return a;
}

phachunoi_seen phachunoi_inspect(const uint32_t *heap, size_t words, const uint32_t *roots, size_t root_count,
                                 record_t record, size_t root) {
  VIEW;
  phachunoi_seen a = {0, 0, 0, 0, 0};
  if (!shape_ok(&v)) return a.refusal = 1, a;
  if (root >= root_count) return a.refusal = 2, a;
  if (roots[root] == 0) return a;
  if (roots[root] % 2 == 1) {
    a.kind = PHACHUNOI_INTEGER;
    a.integer = (int32_t)(roots[root] >> 1 | (BUG(25) ? 0 : roots[root] & 0x80000000u)); /* the sign is lost */
    return a;
  }
  if (is_code(roots[root]) && !BUG(47)) { /* a code word is OBJECT */
    a.kind = PHACHUNOI_CODE;
    *(BUG(48) ? &a.count : &a.code) = roots[root]; /* its word is told as a count */
    return a;
  }
  if (!names(&v, roots[root])) return a.refusal = 5, a;
  a.kind = PHACHUNOI_TRACED + (heap[roots[root] / 4] >> 31);
  a.count = HEADER_COUNT(heap[roots[root] / 4]);
  return a;
}

phachunoi_window phachunoi_open(const uint32_t *heap, size_t words, const uint32_t *roots, size_t root_count,
                                record_t record, size_t object) {
  VIEW;
  phachunoi_window w = {0, 0, 0};
  if (!shape_ok(&v)) return w.refusal = 1, w;
  if (object >= root_count) return w.refusal = 2, w;
  if (BUG(49) && is_code(roots[object])) return w; /* a window on a code word has no words, and is not refused */
  if (!names(&v, roots[object])) return w.refusal = 5, w;
  w.first = roots[object] / 4 + 1;
  w.count = HEADER_COUNT(heap[roots[object] / 4]);
  return w;
}

phachunoi_answer phachunoi_word(const uint32_t *heap, size_t words, phachunoi_window window, size_t field) {
  phachunoi_answer a = {0, 0};
  if (BUG(26)) field = (uint32_t)field; /* a field number is narrowed */
  if (field >= window.count || window.first + field >= words) return a.refusal = 7, a;
  a.value = heap[window.first + field];
  return a;
}
