/* A little Lisp all of whose values live in a Phachunoi heap.
 *
 * The roots are its stack. C code never holds a value or an address: it holds slots, which are root numbers, and every
 * value that it still needs stands in a slot. So a collection may happen at any allocation, and does.
 *
 * A slot's value is null (the empty list, which is also false), an integer, a code word or an object:
 *
 *     built-in   a code word, with no object behind it: primitive n is PHACHUNOI_CODE_FLOOR + 2n, special form n is
 *                SPECIAL_FLOOR + 2n. Both are functions of C, numbered each by their own table. A closure is an object,
 *                so that inspect alone tells it from them.
 *     string     untraced: the count of bytes, then the bytes, four to a word
 *     others     traced: field 0 is the type as an integer, the further fields are those named below
 *
 * Files: values.c slots and objects · reader.c text to values · printer.c values to text · eval.c evaluation ·
 * special.c the forms that do not evaluate all arguments · primitives.c the built-in functions · tuples.c vectors as
 * Standard ML text · main.c the program.
 */
#ifndef LISP_H
#define LISP_H

#include "phachunoi.h"

enum type {
  NIL, INTEGER, PRIMITIVE, SPECIAL, STRING, /* told by the word or the kind of object */
  PAIR, SYMBOL, CLOSURE, BINDING, VECTOR
};

#define SPECIAL_FLOOR (PHACHUNOI_CODE_FLOOR + 65536u) /* the code words below it are primitives */

/* Field numbers; 0 is the type. A symbol holds its global value, so that looking one up takes no search. */
enum { CAR = 1, CDR = 2 };
enum { SYMBOL_NAME = 1, SYMBOL_BOUND = 2, SYMBOL_VALUE = 3 };
enum { CLOSURE_PARAMETERS = 1, CLOSURE_BODY = 2, CLOSURE_ENVIRONMENT = 3 };
enum { BINDING_SYMBOL = 1, BINDING_VALUE = 2, BINDING_NEXT = 3 }; /* an environment is a chain of these */

enum fault {
  FINE = 0, NO_ROOM, STACK_FULL, BAD_TEXT, UNBOUND, NOT_A_FUNCTION, WRONG_TYPE, WRONG_COUNT, OUT_OF_RANGE, BROKEN
};

typedef size_t slot;

/* Slots that are always there; the stack begins after them. */
enum { SYMBOLS, TRUE_SYMBOL, QUOTE_SYMBOL, STACK };

struct lisp {
  phachunoi_heap heap;       /* heap.root_count is the height of the stack */
  size_t stack_limit;        /* how many roots there are to lend */
  unsigned long collections; /* seen from outside: the current half changes */
  unsigned long asked_for;   /* of these, by the program: an allocation does not tell what its collection counted */
  phachunoi_counts counts;   /* what the last of them answered */
  const char *at, *end;      /* the text still to be read */
};

/* A fault ends the function it comes from; slots that it pushed are popped at the top. */
#define TRY(step)                            \
  do {                                       \
    enum fault fault_ = (step);              \
    if (fault_ != FINE) return fault_;       \
  } while (0)

/* ---- values.c ---- */

enum fault push(struct lisp *l, slot *s); /* a new slot, null */
slot height(const struct lisp *l);
void pop_to(struct lisp *l, slot height); /* the slots from there on are no roots any more */

enum fault copy(struct lisp *l, slot from, slot to);
enum fault set_nil(struct lisp *l, slot to);
enum fault set_integer(struct lisp *l, slot to, int64_t value);
enum fault set_built_in(struct lisp *l, slot to, enum type type, int64_t number); /* PRIMITIVE or SPECIAL */
enum fault get(struct lisp *l, slot object, size_t field, slot to);
enum fault put(struct lisp *l, slot object, size_t field, slot from);

enum type type_of(struct lisp *l, slot s);
enum fault want(struct lisp *l, slot s, enum type type); /* WRONG_TYPE unless it is of that type */
int64_t integer_of(struct lisp *l, slot s);
int64_t built_in_of(struct lisp *l, slot s); /* the number of a primitive or a special form, in its table */
size_t field_count(struct lisp *l, slot s); /* without the type */
int same(struct lisp *l, slot one, slot other);

enum fault make(struct lisp *l, enum type type, size_t fields, slot to); /* fields are null */
enum fault make_of(struct lisp *l, enum type type, const slot *values, size_t count, slot to); /* by field number */
enum fault make_pair(struct lisp *l, slot car, slot cdr, slot to);
enum fault car(struct lisp *l, slot pair, slot to); /* WRONG_TYPE unless it is a pair */
enum fault cdr(struct lisp *l, slot pair, slot to);
enum fault append(struct lisp *l, slot value, slot head, slot tail); /* to a list under construction */

enum fault make_string(struct lisp *l, size_t length, slot to); /* bytes are 0 */
size_t string_length(struct lisp *l, slot s);
int byte_at(struct lisp *l, slot s, size_t i);
enum fault put_byte(struct lisp *l, slot s, size_t i, int byte);

enum fault intern(struct lisp *l, const char *name, size_t length, slot to);

enum fault collect_now(struct lisp *l); /* l->counts gets the numbers */

/* A tuple is a traced object without a type, as texts of Standard ML have them. It is no value of Lisp: only tuples.c
   holds some, and makes vectors of them. */
int is_tuple(struct lisp *l, slot s); /* of a slot that holds a tuple or an integer */
size_t tuple_count(struct lisp *l, slot s);
enum fault make_tuple(struct lisp *l, size_t fields, slot to); /* fields are null */
enum fault read_tuple(struct lisp *l, const char *text, size_t bytes, slot to);
enum fault write_tuple(struct lisp *l, slot s, char *text, size_t bytes, size_t *length);

/* ---- the other files ---- */

enum fault read_value(struct lisp *l, slot to);
int at_end(struct lisp *l);
enum fault print_value(struct lisp *l, slot s, int quoted); /* quoted: strings in quotes */
enum fault eval(struct lisp *l, slot form, slot env, slot to);
enum fault bind(struct lisp *l, slot symbol, slot value, slot env); /* env gets a binding in front */
enum fault assign(struct lisp *l, slot symbol, slot value, slot env);
enum fault define(struct lisp *l, slot symbol, slot value);

/* A form whose value is that of another form leaves it in `form`, with its environment, and says so in `again`: calls
   in the last place then take no stack. */
enum fault sequence(struct lisp *l, slot form, slot env, slot to, int *again);
enum fault special_form(struct lisp *l, int64_t number, slot form, slot env, slot to, int *again);
enum fault call_primitive(struct lisp *l, int64_t number, slot arguments, slot to);
enum fault text_to_vector(struct lisp *l, slot string, slot to); /* of Standard ML: a tuple becomes a vector */
enum fault vector_to_text(struct lisp *l, slot value, slot to);
const char *special_name(int64_t number);   /* NULL past the last */
const char *primitive_name(int64_t number); /* NULL past the last */

#endif
