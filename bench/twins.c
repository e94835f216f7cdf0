/* The twins: plain C, as fast as it goes with every test of documents 01 and 02. */
#include "twins.h"

#include "baseline.h"
#include "rules.h"

static inline phachunoi_answer answered(uint32_t refusal, uint32_t value) {
  phachunoi_answer a = {refusal, value};
  return a;
}

static inline phachunoi_result resulted(uint32_t refusal, phachunoi_record record) {
  phachunoi_result r = {refusal, 0, record};
  return r;
}

static inline struct state state_of(uint32_t *heap, size_t word_count, const uint32_t *roots, size_t root_count,
                                    phachunoi_record record) {
  struct state s = {heap, word_count, (uint32_t *)roots, root_count, record.half, record.free, NULL, 0};
  return s;
}

/* SHAPE, and ROOT of two root numbers. */
static inline uint32_t refusal_of_roots(size_t word_count, size_t root_count, phachunoi_record record, size_t one,
                                        size_t other) {
  if (RARELY(bad_shape(word_count, root_count, record.half, record.free))) return PHACHUNOI_SHAPE;
  if (RARELY(one >= root_count || other >= root_count)) return PHACHUNOI_ROOT;
  return PHACHUNOI_DONE;
}

/* ---- on a whole heap ---- */

uint32_t twin_version(void) { return PHACHUNOI_VERSION_NUMBER; }

phachunoi_result twin_fresh(uint32_t *heap, size_t word_count, phachunoi_record record) {
  phachunoi_record begun = {PHACHUNOI_A, 1};
  if (RARELY(bad_length(word_count))) return resulted(PHACHUNOI_SHAPE, record);
  memset(heap, 0, word_count * sizeof *heap);
  return resulted(PHACHUNOI_DONE, begun);
}

phachunoi_answer twin_check(uint32_t *heap, size_t word_count, const uint32_t *roots, size_t root_count,
                            phachunoi_record record) {
  struct state s = state_of(heap, word_count, roots, root_count, record);
  if (RARELY(bad_shape(word_count, root_count, record.half, record.free))) return answered(PHACHUNOI_SHAPE, 0);
  return answered(PHACHUNOI_DONE, (uint32_t)full_check_shaped(&s));
}

phachunoi_collected twin_collect(uint32_t *heap, size_t word_count, uint32_t *roots, size_t root_count,
                                 phachunoi_record record) {
  struct state s = state_of(heap, word_count, roots, root_count, record);
  phachunoi_collected c = {0, 0, 0, 0, record};
  struct counts counts;
  c.refusal = full_collect(&s, &counts);
  if (c.refusal != 0) return c;
  c.live = counts.live;
  c.objects = counts.objects;
  c.addresses = counts.addresses;
  c.record.half = s.half;
  c.record.free = s.free;
  return c;
}

static __attribute__((noinline, cold)) phachunoi_result allocate_slowly(uint32_t *heap, size_t word_count,
                                                                        uint32_t *roots, size_t root_count,
                                                                        phachunoi_record record, size_t fields,
                                                                        size_t to, int untraced) {
  struct state s = state_of(heap, word_count, roots, root_count, record);
  uint32_t refusal = full_allocate(&s, fields, to, untraced);
  record.half = s.half;
  record.free = s.free;
  return resulted(refusal, record);
}

static inline phachunoi_result allocate(uint32_t *heap, size_t word_count, uint32_t *roots, size_t root_count,
                                        phachunoi_record record, size_t fields, size_t to, int untraced) {
  if (RARELY(bad_shape(word_count, root_count, record.half, record.free))) return resulted(PHACHUNOI_SHAPE, record);
  if (RARELY(to >= root_count)) return resulted(PHACHUNOI_ROOT, record);
  if (RARELY(fields > PHACHUNOI_MAX_FIELDS)) return resulted(PHACHUNOI_COUNT, record);
  if (RARELY(fields >= spare(word_count, record.half, record.free)))
    return allocate_slowly(heap, word_count, roots, root_count, record, fields, to, untraced);
  roots[to] = 4 * record.free;
  record.free = place(heap, record.free, (uint32_t)fields, untraced);
  return resulted(PHACHUNOI_DONE, record);
}

phachunoi_result twin_allocate_traced(uint32_t *heap, size_t word_count, uint32_t *roots, size_t root_count,
                                      phachunoi_record record, size_t fields, size_t to) {
  return allocate(heap, word_count, roots, root_count, record, fields, to, 0);
}

phachunoi_result twin_allocate_untraced(uint32_t *heap, size_t word_count, uint32_t *roots, size_t root_count,
                                        phachunoi_record record, size_t fields, size_t to) {
  return allocate(heap, word_count, roots, root_count, record, fields, to, 1);
}

/* ---- on roots ---- */

phachunoi_answer twin_set_integer(const uint32_t *heap, size_t word_count, uint32_t *roots, size_t root_count,
                                  phachunoi_record record, size_t to, int64_t value) {
  uint32_t refusal = refusal_of_roots(word_count, root_count, record, to, to);
  (void)heap;
  if (RARELY(refusal)) return answered(refusal, 0);
  if (RARELY(value < PHACHUNOI_INTEGER_MIN || value > PHACHUNOI_INTEGER_MAX)) return answered(PHACHUNOI_RANGE, 0);
  roots[to] = (uint32_t)value << 1 | 1;
  return answered(PHACHUNOI_DONE, 0);
}

phachunoi_answer twin_set_null(const uint32_t *heap, size_t word_count, uint32_t *roots, size_t root_count,
                               phachunoi_record record, size_t to) {
  uint32_t refusal = refusal_of_roots(word_count, root_count, record, to, to);
  (void)heap;
  if (RARELY(refusal)) return answered(refusal, 0);
  roots[to] = 0;
  return answered(PHACHUNOI_DONE, 0);
}

phachunoi_answer twin_set_code(const uint32_t *heap, size_t word_count, uint32_t *roots, size_t root_count,
                               phachunoi_record record, size_t to, uint32_t word) {
  uint32_t refusal = refusal_of_roots(word_count, root_count, record, to, to);
  (void)heap;
  if (RARELY(refusal)) return answered(refusal, 0);
  if (RARELY(!is_code(word))) return answered(PHACHUNOI_RANGE, 0);
  roots[to] = word;
  return answered(PHACHUNOI_DONE, 0);
}

phachunoi_answer twin_copy(const uint32_t *heap, size_t word_count, uint32_t *roots, size_t root_count,
                           phachunoi_record record, size_t from, size_t to) {
  uint32_t refusal = refusal_of_roots(word_count, root_count, record, from, to);
  (void)heap;
  if (RARELY(refusal)) return answered(refusal, 0);
  roots[to] = roots[from];
  return answered(PHACHUNOI_DONE, 0);
}

phachunoi_answer twin_same(const uint32_t *heap, size_t word_count, const uint32_t *roots, size_t root_count,
                           phachunoi_record record, size_t one, size_t other) {
  uint32_t refusal = refusal_of_roots(word_count, root_count, record, one, other);
  (void)heap;
  if (RARELY(refusal)) return answered(refusal, 0);
  return answered(PHACHUNOI_DONE, roots[one] == roots[other]);
}

/* ---- on the object that a root names ---- */

/* The index of a field's word, or why there is none. */
struct field {
  uint32_t refusal, at;
};

static inline struct field field_of(const uint32_t *heap, size_t word_count, const uint32_t *roots, size_t root_count,
                                    phachunoi_record record, size_t object, size_t field, size_t other,
                                    uint32_t untraced) {
  struct field f = {refusal_of_roots(word_count, root_count, record, object, other), 0};
  uint32_t header;
  if (RARELY(f.refusal)) return f;
  f.at = roots[object] / 4;
  f.refusal = PHACHUNOI_OBJECT;
  if (RARELY(!names(heap, first_word(word_count, record.half), record.free, roots[object]))) return f;
  header = heap[f.at];
  f.refusal = PHACHUNOI_KIND;
  if (RARELY(header >> 31 != untraced)) return f;
  f.refusal = PHACHUNOI_FIELD;
  if (RARELY(field >= count_of(header))) return f;
  f.refusal = PHACHUNOI_DONE;
  f.at += 1 + (uint32_t)field;
  return f;
}

phachunoi_answer twin_load(const uint32_t *heap, size_t word_count, uint32_t *roots, size_t root_count,
                           phachunoi_record record, size_t object, size_t field, size_t to) {
  struct field f = field_of(heap, word_count, roots, root_count, record, object, field, to, 0);
  if (RARELY(f.refusal)) return answered(f.refusal, 0);
  roots[to] = heap[f.at];
  return answered(PHACHUNOI_DONE, 0);
}

phachunoi_answer twin_store(uint32_t *heap, size_t word_count, const uint32_t *roots, size_t root_count,
                            phachunoi_record record, size_t object, size_t field, size_t from) {
  struct field f = field_of(heap, word_count, roots, root_count, record, object, field, from, 0);
  if (RARELY(f.refusal)) return answered(f.refusal, 0);
  heap[f.at] = roots[from];
  return answered(PHACHUNOI_DONE, 0);
}

phachunoi_answer twin_raw_read(const uint32_t *heap, size_t word_count, const uint32_t *roots, size_t root_count,
                               phachunoi_record record, size_t object, size_t field) {
  struct field f = field_of(heap, word_count, roots, root_count, record, object, field, object, 1);
  if (RARELY(f.refusal)) return answered(f.refusal, 0);
  return answered(PHACHUNOI_DONE, heap[f.at]);
}

phachunoi_answer twin_raw_write(uint32_t *heap, size_t word_count, const uint32_t *roots, size_t root_count,
                                phachunoi_record record, size_t object, size_t field, uint32_t number) {
  struct field f = field_of(heap, word_count, roots, root_count, record, object, field, object, 1);
  if (RARELY(f.refusal)) return answered(f.refusal, 0);
  heap[f.at] = number;
  return answered(PHACHUNOI_DONE, 0);
}

phachunoi_seen twin_inspect(const uint32_t *heap, size_t word_count, const uint32_t *roots, size_t root_count,
                            phachunoi_record record, size_t root) {
  phachunoi_seen s = {refusal_of_roots(word_count, root_count, record, root, root), 0, 0, 0, 0};
  uint32_t word;
  if (RARELY(s.refusal)) return s;
  word = roots[root];
  if (word & 1) {
    s.kind = PHACHUNOI_INTEGER;
    s.integer = (int32_t)word >> 1;
    return s;
  }
  if (word == 0) return s;
  if (is_code(word)) {
    s.kind = PHACHUNOI_CODE;
    s.code = word;
    return s;
  }
  if (RARELY(!names(heap, first_word(word_count, record.half), record.free, word))) {
    s.refusal = PHACHUNOI_OBJECT;
    return s;
  }
  s.kind = heap[word / 4] >> 31 ? PHACHUNOI_UNTRACED : PHACHUNOI_TRACED;
  s.count = count_of(heap[word / 4]);
  return s;
}

phachunoi_window twin_open(const uint32_t *heap, size_t word_count, const uint32_t *roots, size_t root_count,
                           phachunoi_record record, size_t object) {
  phachunoi_window w = {refusal_of_roots(word_count, root_count, record, object, object), 0, 0};
  if (RARELY(w.refusal)) return w;
  if (RARELY(!names(heap, first_word(word_count, record.half), record.free, roots[object]))) {
    w.refusal = PHACHUNOI_OBJECT;
    return w;
  }
  w.first = roots[object] / 4 + 1;
  w.count = count_of(heap[roots[object] / 4]);
  return w;
}

phachunoi_answer twin_word(const uint32_t *heap, size_t word_count, phachunoi_window window, size_t field) {
  if (RARELY(field >= window.count || window.first + field >= word_count)) return answered(PHACHUNOI_FIELD, 0);
  return answered(PHACHUNOI_DONE, heap[window.first + field]);
}
