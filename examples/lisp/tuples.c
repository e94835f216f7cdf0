/* Vectors as texts of Standard ML, and back: #(1 #(2 3)) is (1,(2,3)). A vector holds its type before its fields, and a
   tuple does not, so that each is made from the other, level by level. */
#include "lisp.h"

#define MOST_BYTES 4096

static char text[MOST_BYTES];

/* ---- from a text ---- */

/* `to` may be the tuple's slot. */
static enum fault vector_of(struct lisp *l, slot tuple, slot to) {
  slot mark = height(l), part, vector;
  size_t i, n = tuple_count(l, tuple);
  if (!is_tuple(l, tuple)) return copy(l, tuple, to);
  TRY(push(l, &part));
  TRY(push(l, &vector));
  TRY(make(l, VECTOR, n, vector));
  for (i = 0; i < n; i++) {
    TRY(get(l, tuple, i, part));
    TRY(vector_of(l, part, part));
    TRY(put(l, vector, i + 1, part));
  }
  TRY(copy(l, vector, to));
  pop_to(l, mark);
  return FINE;
}

enum fault text_to_vector(struct lisp *l, slot string, slot to) {
  slot mark = height(l), tuple;
  size_t i, length;
  TRY(want(l, string, STRING));
  length = string_length(l, string);
  if (length > MOST_BYTES) return OUT_OF_RANGE;
  for (i = 0; i < length; i++) text[i] = (char)byte_at(l, string, i);
  TRY(push(l, &tuple));
  TRY(read_tuple(l, text, length, tuple));
  TRY(vector_of(l, tuple, to));
  pop_to(l, mark);
  return FINE;
}

/* ---- to a text ---- */

/* A vector that holds itself would have no end: it goes as deep as a text may. */
static enum fault tuple_of(struct lisp *l, slot value, slot to, int depth_left) {
  slot mark = height(l), part, tuple;
  size_t i, n;
  if (type_of(l, value) == INTEGER) return copy(l, value, to);
  TRY(want(l, value, VECTOR));
  if (depth_left == 0) return OUT_OF_RANGE;
  n = field_count(l, value);
  TRY(push(l, &part));
  TRY(push(l, &tuple));
  TRY(make_tuple(l, n, tuple));
  for (i = 0; i < n; i++) {
    TRY(get(l, value, i + 1, part));
    TRY(tuple_of(l, part, part, depth_left - 1));
    TRY(put(l, tuple, i, part));
  }
  TRY(copy(l, tuple, to));
  pop_to(l, mark);
  return FINE;
}

enum fault vector_to_text(struct lisp *l, slot value, slot to) {
  slot mark = height(l), tuple;
  size_t i, length;
  TRY(push(l, &tuple));
  TRY(tuple_of(l, value, tuple, PHACHUNOI_MAX_DEPTH));
  TRY(write_tuple(l, tuple, text, MOST_BYTES, &length));
  TRY(make_string(l, length, to));
  for (i = 0; i < length; i++) TRY(put_byte(l, to, i, text[i]));
  pop_to(l, mark);
  return FINE;
}
