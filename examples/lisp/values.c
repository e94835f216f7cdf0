/* Slots and objects: the only file that calls the library to make and change values. */
#include <string.h>

#include "lisp.h"

static enum fault fault_of(enum phachunoi_refusal refusal) {
  switch (refusal) {
  case PHACHUNOI_DONE: return FINE;
  case PHACHUNOI_ROOM: return NO_ROOM;
  case PHACHUNOI_COUNT:
  case PHACHUNOI_RANGE: return OUT_OF_RANGE;
  case PHACHUNOI_OBJECT:
  case PHACHUNOI_KIND:
  case PHACHUNOI_FIELD: return WRONG_TYPE;
  case PHACHUNOI_VALUE: return BAD_TEXT;
  case PHACHUNOI_DEEP:
  case PHACHUNOI_TEXT: return OUT_OF_RANGE;
  default: return BROKEN; /* SHAPE, ROOT, DAMAGED: a mistake in this program */
  }
}

/* ---- slots ---- */

slot height(const struct lisp *l) { return l->heap.root_count; }

/* The roots lent are the stack as it stands, so that what was popped keeps nothing alive. A new slot is set to null
   first: the word there may be the address of an object that has moved since. */
enum fault push(struct lisp *l, slot *s) {
  if (l->heap.root_count == l->stack_limit) return STACK_FULL;
  *s = l->heap.root_count++;
  return set_nil(l, *s);
}

void pop_to(struct lisp *l, slot height) { l->heap.root_count = height; }

enum fault copy(struct lisp *l, slot from, slot to) { return fault_of(phachunoi_heap_copy(&l->heap, from, to)); }

enum fault set_nil(struct lisp *l, slot to) { return fault_of(phachunoi_heap_set_null(&l->heap, to)); }

enum fault set_integer(struct lisp *l, slot to, int64_t value) {
  return fault_of(phachunoi_heap_set_integer(&l->heap, to, value));
}

static uint32_t first_code(enum type type) { return type == SPECIAL ? SPECIAL_FLOOR : PHACHUNOI_CODE_FLOOR; }

enum fault set_built_in(struct lisp *l, slot to, enum type type, int64_t number) {
  return fault_of(phachunoi_heap_set_code(&l->heap, to, first_code(type) + 2 * (uint32_t)number));
}

enum fault get(struct lisp *l, slot object, size_t field, slot to) {
  return fault_of(phachunoi_heap_load(&l->heap, object, field, to));
}

enum fault put(struct lisp *l, slot object, size_t field, slot from) {
  return fault_of(phachunoi_heap_store(&l->heap, object, field, from));
}

int same(struct lisp *l, slot one, slot other) {
  int yes;
  return phachunoi_heap_same(&l->heap, one, other, &yes) == PHACHUNOI_DONE && yes;
}

/* ---- types ---- */

/* The type is read through a window, which needs no slot; nothing can move before it is used. */
static enum type type_in(struct lisp *l, slot s) {
  uint32_t word;
  phachunoi_window window = phachunoi_heap_open(&l->heap, s);
  if (phachunoi_heap_word(&l->heap, window, 0, &word) != PHACHUNOI_DONE) return NIL;
  return (enum type)(word >> 1);
}

enum type type_of(struct lisp *l, slot s) {
  phachunoi_seen seen = phachunoi_heap_inspect(&l->heap, s);
  switch (seen.kind) {
  case PHACHUNOI_INTEGER: return INTEGER;
  case PHACHUNOI_CODE: return seen.code < SPECIAL_FLOOR ? PRIMITIVE : SPECIAL;
  case PHACHUNOI_UNTRACED: return STRING;
  case PHACHUNOI_TRACED: return type_in(l, s);
  default: return NIL;
  }
}

enum fault want(struct lisp *l, slot s, enum type type) { return type_of(l, s) == type ? FINE : WRONG_TYPE; }

int64_t integer_of(struct lisp *l, slot s) { return phachunoi_heap_inspect(&l->heap, s).integer; }

int64_t built_in_of(struct lisp *l, slot s) {
  return (phachunoi_heap_inspect(&l->heap, s).code - first_code(type_of(l, s))) / 2;
}

size_t field_count(struct lisp *l, slot s) {
  size_t count = phachunoi_heap_inspect(&l->heap, s).count;
  return count > 0 ? count - 1 : 0;
}

/* ---- traced objects ---- */

static enum fault allocate(struct lisp *l, int traced, size_t fields, slot to) {
  uint32_t half = l->heap.record.half;
  enum phachunoi_refusal refusal = traced ? phachunoi_heap_allocate_traced(&l->heap, fields, to)
                                          : phachunoi_heap_allocate_untraced(&l->heap, fields, to);
  l->collections += half != l->heap.record.half;
  return fault_of(refusal);
}

enum fault make(struct lisp *l, enum type type, size_t fields, slot to) {
  slot mark = height(l), tag;
  TRY(push(l, &tag));
  TRY(set_integer(l, tag, type));
  TRY(allocate(l, 1, fields + 1, to));
  TRY(put(l, to, 0, tag));
  pop_to(l, mark);
  return FINE;
}

/* In a slot of its own until it is whole: `to` may be one of the values. */
enum fault make_of(struct lisp *l, enum type type, const slot *values, size_t count, slot to) {
  slot mark = height(l), object;
  size_t i;
  TRY(push(l, &object));
  TRY(make(l, type, count, object));
  for (i = 0; i < count; i++) TRY(put(l, object, i + 1, values[i]));
  TRY(copy(l, object, to));
  pop_to(l, mark);
  return FINE;
}

enum fault make_pair(struct lisp *l, slot car, slot cdr, slot to) {
  const slot values[] = {car, cdr};
  return make_of(l, PAIR, values, 2, to);
}

enum fault car(struct lisp *l, slot pair, slot to) {
  TRY(want(l, pair, PAIR));
  return get(l, pair, CAR, to);
}

enum fault cdr(struct lisp *l, slot pair, slot to) {
  TRY(want(l, pair, PAIR));
  return get(l, pair, CDR, to);
}

enum fault append(struct lisp *l, slot value, slot head, slot tail) {
  slot mark = height(l), pair;
  TRY(push(l, &pair));
  TRY(make_pair(l, value, pair, pair)); /* pair is null, which ends the list */
  if (type_of(l, head) == NIL) TRY(copy(l, pair, head));
  else TRY(put(l, tail, CDR, pair));
  TRY(copy(l, pair, tail));
  pop_to(l, mark);
  return FINE;
}

/* ---- strings ---- */

enum fault make_string(struct lisp *l, size_t length, slot to) {
  TRY(allocate(l, 0, 1 + (length + 3) / 4, to));
  return fault_of(phachunoi_heap_raw_write(&l->heap, to, 0, (uint32_t)length));
}

size_t string_length(struct lisp *l, slot s) {
  uint32_t length;
  return phachunoi_heap_raw_read(&l->heap, s, 0, &length) == PHACHUNOI_DONE ? length : 0;
}

int byte_at(struct lisp *l, slot s, size_t i) {
  uint32_t word;
  if (phachunoi_heap_raw_read(&l->heap, s, 1 + i / 4, &word) != PHACHUNOI_DONE) return 0;
  return (int)(word >> 8 * (i % 4) & 255);
}

enum fault put_byte(struct lisp *l, slot s, size_t i, int byte) {
  uint32_t word, shift = 8 * (uint32_t)(i % 4);
  TRY(fault_of(phachunoi_heap_raw_read(&l->heap, s, 1 + i / 4, &word)));
  word = (word & ~((uint32_t)255 << shift)) | (uint32_t)(byte & 255) << shift;
  return fault_of(phachunoi_heap_raw_write(&l->heap, s, 1 + i / 4, word));
}

/* ---- tuples ---- */

int is_tuple(struct lisp *l, slot s) { return phachunoi_heap_inspect(&l->heap, s).kind == PHACHUNOI_TRACED; }

size_t tuple_count(struct lisp *l, slot s) { return phachunoi_heap_inspect(&l->heap, s).count; }

enum fault make_tuple(struct lisp *l, size_t fields, slot to) { return allocate(l, 1, fields, to); }

enum fault read_tuple(struct lisp *l, const char *text, size_t bytes, slot to) {
  uint32_t half = l->heap.record.half;
  enum phachunoi_refusal refusal = phachunoi_heap_read(&l->heap, to, text, bytes);
  l->collections += half != l->heap.record.half;
  return fault_of(refusal);
}

enum fault write_tuple(struct lisp *l, slot s, char *text, size_t bytes, size_t *length) {
  return fault_of(phachunoi_heap_write(&l->heap, s, text, bytes, length));
}

/* ---- a collection that the program asks for ---- */

enum fault collect_now(struct lisp *l) {
  TRY(fault_of(phachunoi_heap_collect(&l->heap, &l->counts)));
  l->collections++;
  l->asked_for++;
  return FINE;
}

/* ---- symbols: one object for each name, in a list that hangs on the slot SYMBOLS ---- */

static int is_named(struct lisp *l, slot string, const char *name, size_t length) {
  size_t i;
  if (string_length(l, string) != length) return 0;
  for (i = 0; i < length; i++)
    if (byte_at(l, string, i) != (unsigned char)name[i]) return 0;
  return 1;
}

/* Leaves the symbol in `to`, or null if the name is new. */
static enum fault find_symbol(struct lisp *l, const char *name, size_t length, slot to) {
  slot mark = height(l), rest, string;
  TRY(push(l, &rest));
  TRY(push(l, &string));
  TRY(copy(l, SYMBOLS, rest));
  while (type_of(l, rest) == PAIR) {
    TRY(car(l, rest, to));
    TRY(get(l, to, SYMBOL_NAME, string));
    if (is_named(l, string, name, length)) break;
    TRY(cdr(l, rest, rest));
  }
  if (type_of(l, rest) != PAIR) TRY(set_nil(l, to));
  pop_to(l, mark);
  return FINE;
}

enum fault intern(struct lisp *l, const char *name, size_t length, slot to) {
  slot mark = height(l), string;
  size_t i;
  TRY(find_symbol(l, name, length, to));
  if (type_of(l, to) == SYMBOL) return FINE;
  TRY(push(l, &string));
  TRY(make_string(l, length, string));
  for (i = 0; i < length; i++) TRY(put_byte(l, string, i, name[i]));
  TRY(make(l, SYMBOL, 3, to));
  TRY(put(l, to, SYMBOL_NAME, string));
  TRY(make_pair(l, to, SYMBOLS, SYMBOLS));
  pop_to(l, mark);
  return FINE;
}
