/* The twin of the writer: plain C, as fast as it goes with the duties of document 02's Q-2. It judges the whole value
   first, and writes only what is not refused; the second walk then asks for nothing any more. */
#include "rules.h"
#include "twins.h"

enum { DEPTH = 64 };

/* ---- judging: the place reached from a place, or past all bytes, and then why ---- */

struct judging {
  const uint32_t *heap;
  uint32_t first, free;
  size_t bytes;
  uint32_t refusal;
};

#define REFUSED ((size_t)-1)

static __attribute__((noinline, cold)) size_t refuse(struct judging *j, uint32_t refusal) {
  j->refusal = refusal;
  return REFUSED;
}

static inline uint32_t size_of(int32_t v) { return v < 0 ? -(uint32_t)v : (uint32_t)v; }

static inline size_t digits_of(uint32_t size) {
  if (size < 10) return 1;
  if (size < 100) return 2;
  if (size < 1000) return 3;
  if (size < 10000) return 4;
  if (size < 100000) return 5;
  if (size < 1000000) return 6;
  if (size < 10000000) return 7;
  if (size < 100000000) return 8;
  return 9 + (size >= 1000000000);
}

static IN_PLACE size_t judge_value(struct judging *j, uint32_t word, size_t at, unsigned left);

/* `at` is at most j->bytes here and in judge_value. */
static APART size_t judge_tuple(struct judging *j, uint32_t index, size_t at, unsigned left) {
  const uint32_t *field = j->heap + index + 1, *end = field + count_of(j->heap[index]);
  if (end - field == 1) {
    if (RARELY(j->bytes - at < 3)) return refuse(j, PHACHUNOI_TEXT);
    at = judge_value(j, *field, at + 3, left);
    if (RARELY(at >= j->bytes)) return at == REFUSED ? at : refuse(j, PHACHUNOI_TEXT);
    return at + 1;
  }
  if (field == end) return RARELY(j->bytes - at < 2) ? refuse(j, PHACHUNOI_TEXT) : at + 2;
  do { /* an opening parenthesis or a comma, then a value */
    if (RARELY(at >= j->bytes)) return at == REFUSED ? at : refuse(j, PHACHUNOI_TEXT);
    at = judge_value(j, *field++, at + 1, left);
  } while (field < end);
  if (RARELY(at >= j->bytes)) return at == REFUSED ? at : refuse(j, PHACHUNOI_TEXT);
  return at + 1;
}

static IN_PLACE size_t judge_value(struct judging *j, uint32_t word, size_t at, unsigned left) {
  if (word & 1) {
    int32_t v = (int32_t)word >> 1;
    size_t length = digits_of(size_of(v)) + (v < 0);
    return RARELY(length > j->bytes - at) ? refuse(j, PHACHUNOI_TEXT) : at + length;
  }
  if (RARELY(!is_address(word))) return refuse(j, PHACHUNOI_VALUE);
  if (RARELY(!names(j->heap, j->first, j->free, word))) return refuse(j, PHACHUNOI_OBJECT);
  if (RARELY(j->heap[word / 4] >> 31)) return refuse(j, PHACHUNOI_VALUE);
  if (RARELY(left == 0)) return refuse(j, PHACHUNOI_DEEP);
  return judge_tuple(j, word / 4, at, left - 1);
}

/* ---- writing what was judged ---- */

static inline char *write_integer(uint32_t word, char *to) {
  int32_t v = (int32_t)word >> 1;
  uint32_t size = size_of(v);
  char *end, *digit;
  if (v < 0) *to++ = '~';
  if (size < 10) return *to = (char)('0' + size), to + 1;
  end = digit = to + digits_of(size);
  do *--digit = (char)('0' + size % 10);
  while ((size /= 10) != 0);
  return end;
}

static IN_PLACE char *write_value(const uint32_t *heap, uint32_t word, char *to);

static APART char *write_tuple(const uint32_t *heap, uint32_t index, char *to) {
  const uint32_t *field = heap + index + 1, *end = field + count_of(heap[index]);
  if (end - field == 1) {
    to[0] = '{';
    to[1] = '1';
    to[2] = '=';
    to = write_value(heap, *field, to + 3);
    *to = '}';
    return to + 1;
  }
  *to++ = '(';
  if (field != end) to = write_value(heap, *field++, to);
  while (field < end) {
    *to = ',';
    to = write_value(heap, *field++, to + 1);
  }
  *to = ')';
  return to + 1;
}

static IN_PLACE char *write_value(const uint32_t *heap, uint32_t word, char *to) {
  return word & 1 ? write_integer(word, to) : write_tuple(heap, word / 4, to);
}

phachunoi_written twin_write(const uint32_t *heap, size_t word_count, const uint32_t *roots, size_t root_count,
                             phachunoi_record record, size_t root, char *text, size_t bytes) {
  struct judging j = {heap, 0, record.free, bytes, PHACHUNOI_DONE};
  phachunoi_written w = {PHACHUNOI_SHAPE, 0};
  size_t length;
  if (RARELY(bad_shape(word_count, root_count, record.half, record.free))) return w;
  w.refusal = PHACHUNOI_ROOT;
  if (RARELY(root >= root_count)) return w;
  j.first = first_word(word_count, record.half);
  length = judge_value(&j, roots[root], 0, DEPTH);
  w.refusal = j.refusal;
  if (RARELY(j.refusal != PHACHUNOI_DONE)) return w;
  write_value(heap, roots[root], text);
  w.length = length;
  return w;
}
