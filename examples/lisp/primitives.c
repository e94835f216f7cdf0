/* The built-in functions. Each finds its arguments in slots a, a + 1, a + 2 and leaves its value in `to`. */
#include <stdio.h>
#include <string.h>

#include "lisp.h"

typedef enum fault primitive(struct lisp *l, slot a, slot to);

static enum fault truth(struct lisp *l, int yes, slot to) { return yes ? copy(l, TRUE_SYMBOL, to) : set_nil(l, to); }

/* ---- pairs ---- */

static enum fault do_cons(struct lisp *l, slot a, slot to) { return make_pair(l, a, a + 1, to); }

static enum fault do_car(struct lisp *l, slot a, slot to) { return car(l, a, to); }

static enum fault do_cdr(struct lisp *l, slot a, slot to) { return cdr(l, a, to); }

static enum fault do_set_car(struct lisp *l, slot a, slot to) {
  TRY(want(l, a, PAIR));
  TRY(put(l, a, CAR, a + 1));
  return copy(l, a + 1, to);
}

static enum fault do_set_cdr(struct lisp *l, slot a, slot to) {
  TRY(want(l, a, PAIR));
  TRY(put(l, a, CDR, a + 1));
  return copy(l, a + 1, to);
}

static enum fault do_list(struct lisp *l, slot a, slot to) { return copy(l, a, to); }

/* ---- integers ---- */

static enum fault two_integers(struct lisp *l, slot a) {
  TRY(want(l, a, INTEGER));
  return want(l, a + 1, INTEGER);
}

static enum fault do_add(struct lisp *l, slot a, slot to) {
  TRY(two_integers(l, a));
  return set_integer(l, to, integer_of(l, a) + integer_of(l, a + 1));
}

static enum fault do_subtract(struct lisp *l, slot a, slot to) {
  TRY(two_integers(l, a));
  return set_integer(l, to, integer_of(l, a) - integer_of(l, a + 1));
}

static enum fault do_multiply(struct lisp *l, slot a, slot to) {
  TRY(two_integers(l, a));
  return set_integer(l, to, integer_of(l, a) * integer_of(l, a + 1));
}

static enum fault do_quotient(struct lisp *l, slot a, slot to) {
  TRY(two_integers(l, a));
  if (integer_of(l, a + 1) == 0) return OUT_OF_RANGE;
  return set_integer(l, to, integer_of(l, a) / integer_of(l, a + 1));
}

static enum fault do_remainder(struct lisp *l, slot a, slot to) {
  TRY(two_integers(l, a));
  if (integer_of(l, a + 1) == 0) return OUT_OF_RANGE;
  return set_integer(l, to, integer_of(l, a) % integer_of(l, a + 1));
}

static enum fault do_less(struct lisp *l, slot a, slot to) {
  TRY(two_integers(l, a));
  return truth(l, integer_of(l, a) < integer_of(l, a + 1), to);
}

/* ---- tests ---- */

static enum fault do_eq(struct lisp *l, slot a, slot to) { return truth(l, same(l, a, a + 1), to); }

static enum fault do_not(struct lisp *l, slot a, slot to) { return truth(l, type_of(l, a) == NIL, to); }

static enum fault do_is_pair(struct lisp *l, slot a, slot to) { return truth(l, type_of(l, a) == PAIR, to); }

/* ---- strings ---- */

/* Allocates first and then reads both strings: they may have moved, and the slots know where to. */
static enum fault do_string_append(struct lisp *l, slot a, slot to) {
  slot mark = height(l), joined;
  size_t i, first, second;
  TRY(want(l, a, STRING));
  TRY(want(l, a + 1, STRING));
  first = string_length(l, a);
  second = string_length(l, a + 1);
  TRY(push(l, &joined));
  TRY(make_string(l, first + second, joined));
  for (i = 0; i < first; i++) TRY(put_byte(l, joined, i, byte_at(l, a, i)));
  for (i = 0; i < second; i++) TRY(put_byte(l, joined, first + i, byte_at(l, a + 1, i)));
  TRY(copy(l, joined, to));
  pop_to(l, mark);
  return FINE;
}

static enum fault do_string_length(struct lisp *l, slot a, slot to) {
  TRY(want(l, a, STRING));
  return set_integer(l, to, (int64_t)string_length(l, a));
}

static enum fault do_string_equal(struct lisp *l, slot a, slot to) {
  size_t i = 0, length;
  TRY(want(l, a, STRING));
  TRY(want(l, a + 1, STRING));
  length = string_length(l, a);
  if (length != string_length(l, a + 1)) return set_nil(l, to);
  while (i < length && byte_at(l, a, i) == byte_at(l, a + 1, i)) i++;
  return truth(l, i == length, to);
}

static enum fault do_number_to_string(struct lisp *l, slot a, slot to) {
  char text[24];
  size_t i, length;
  TRY(want(l, a, INTEGER));
  length = (size_t)sprintf(text, "%ld", (long)integer_of(l, a));
  TRY(make_string(l, length, to));
  for (i = 0; i < length; i++) TRY(put_byte(l, to, i, text[i]));
  return FINE;
}

/* ---- vectors ---- */

static enum fault do_make_vector(struct lisp *l, slot a, slot to) {
  slot mark = height(l), vector;
  int64_t i, n;
  TRY(want(l, a, INTEGER));
  n = integer_of(l, a);
  if (n < 0) return OUT_OF_RANGE;
  TRY(push(l, &vector));
  TRY(make(l, VECTOR, (size_t)n, vector));
  for (i = 1; i <= n; i++) TRY(put(l, vector, (size_t)i, a + 1));
  TRY(copy(l, vector, to));
  pop_to(l, mark);
  return FINE;
}

static enum fault vector_place(struct lisp *l, slot a, size_t *field) {
  int64_t i;
  TRY(want(l, a, VECTOR));
  TRY(want(l, a + 1, INTEGER));
  i = integer_of(l, a + 1);
  if (i < 0 || i >= (int64_t)field_count(l, a)) return OUT_OF_RANGE;
  *field = (size_t)i + 1;
  return FINE;
}

static enum fault do_vector_ref(struct lisp *l, slot a, slot to) {
  size_t field;
  TRY(vector_place(l, a, &field));
  return get(l, a, field, to);
}

static enum fault do_vector_set(struct lisp *l, slot a, slot to) {
  size_t field;
  TRY(vector_place(l, a, &field));
  TRY(put(l, a, field, a + 2));
  return copy(l, a + 2, to);
}

static enum fault do_vector_length(struct lisp *l, slot a, slot to) {
  TRY(want(l, a, VECTOR));
  return set_integer(l, to, (int64_t)field_count(l, a));
}

/* ---- texts of Standard ML ---- */

static enum fault do_sml_to_vector(struct lisp *l, slot a, slot to) { return text_to_vector(l, a, to); }

static enum fault do_vector_to_sml(struct lisp *l, slot a, slot to) { return vector_to_text(l, a, to); }

/* ---- the heap ---- */

/* To the list in slots a + 1 and a + 2. */
static enum fault append_integer(struct lisp *l, slot a, int64_t value) {
  TRY(set_integer(l, a, value));
  return append(l, a, a + 1, a + 2);
}

/* The list of live words, live objects and addresses met. It has no arguments: their slots are free to make it in. */
static enum fault do_collect(struct lisp *l, slot a, slot to) {
  TRY(collect_now(l));
  TRY(append_integer(l, a, l->counts.live));
  TRY(append_integer(l, a, l->counts.objects));
  TRY(append_integer(l, a, l->counts.addresses));
  return copy(l, a + 1, to);
}

/* ---- output ---- */

static enum fault do_display(struct lisp *l, slot a, slot to) {
  TRY(print_value(l, a, 0));
  return set_nil(l, to);
}

static enum fault do_print(struct lisp *l, slot a, slot to) {
  TRY(print_value(l, a, 1));
  putchar('\n');
  return set_nil(l, to);
}

#define ANY (-1) /* as many arguments as there are, as one list in slot a */

static const struct {
  const char *name;
  int arguments;
  primitive *run;
} table[] = {{"cons", 2, do_cons},
             {"car", 1, do_car},
             {"cdr", 1, do_cdr},
             {"set-car!", 2, do_set_car},
             {"set-cdr!", 2, do_set_cdr},
             {"list", ANY, do_list},
             {"+", 2, do_add},
             {"-", 2, do_subtract},
             {"*", 2, do_multiply},
             {"quotient", 2, do_quotient},
             {"remainder", 2, do_remainder},
             {"<", 2, do_less},
             {"=", 2, do_eq},
             {"eq?", 2, do_eq},
             {"not", 1, do_not},
             {"null?", 1, do_not},
             {"pair?", 1, do_is_pair},
             {"string-append", 2, do_string_append},
             {"string-length", 1, do_string_length},
             {"string=?", 2, do_string_equal},
             {"number->string", 1, do_number_to_string},
             {"make-vector", 2, do_make_vector},
             {"vector-ref", 2, do_vector_ref},
             {"vector-set!", 3, do_vector_set},
             {"vector-length", 1, do_vector_length},
             {"sml->vector", 1, do_sml_to_vector},
             {"vector->sml", 1, do_vector_to_sml},
             {"collect", 0, do_collect},
             {"display", 1, do_display},
             {"print", 1, do_print}};

#define COUNT ((int64_t)(sizeof table / sizeof table[0]))

const char *primitive_name(int64_t number) { return number < COUNT ? table[number].name : NULL; }

/* Arguments out of their list, into slots of their own. */
static enum fault spread(struct lisp *l, slot arguments, int count, slot a) {
  int i;
  for (i = 0; i < count; i++) {
    if (type_of(l, arguments) != PAIR) return WRONG_COUNT;
    TRY(car(l, arguments, a + (slot)i));
    TRY(cdr(l, arguments, arguments));
  }
  return type_of(l, arguments) == NIL ? FINE : WRONG_COUNT;
}

enum fault call_primitive(struct lisp *l, int64_t number, slot arguments, slot to) {
  slot mark = height(l), a, second, third;
  if (number < 0 || number >= COUNT) return BROKEN;
  TRY(push(l, &a));
  TRY(push(l, &second));
  TRY(push(l, &third));
  if (table[number].arguments == ANY) TRY(copy(l, arguments, a));
  else TRY(spread(l, arguments, table[number].arguments, a));
  TRY(table[number].run(l, a, to));
  pop_to(l, mark);
  return FINE;
}
