/* The forms that do not evaluate all their arguments: quote if define set! lambda let begin while. */
#include <stddef.h>

#include "lisp.h"

typedef enum fault special(struct lisp *l, slot form, slot env, slot to, int *again);

/* The argument number i of a form, unevaluated. */
static enum fault nth(struct lisp *l, slot form, int i, slot to) {
  TRY(copy(l, form, to));
  while (i-- > 0) TRY(cdr(l, to, to));
  return car(l, to, to);
}

static enum fault form_quote(struct lisp *l, slot form, slot env, slot to, int *again) {
  (void)env;
  (void)again;
  return nth(l, form, 0, to);
}

/* (if test yes no) or (if test yes) */
static enum fault form_if(struct lisp *l, slot form, slot env, slot to, int *again) {
  slot mark = height(l), test;
  TRY(push(l, &test));
  TRY(nth(l, form, 0, test));
  TRY(eval(l, test, env, test));
  TRY(cdr(l, form, form));
  if (type_of(l, test) == NIL) TRY(cdr(l, form, form));
  pop_to(l, mark);
  if (type_of(l, form) == NIL) return set_nil(l, to);
  *again = 1;
  return car(l, form, form);
}

static enum fault make_closure(struct lisp *l, slot parameters, slot body, slot env, slot to) {
  const slot values[] = {parameters, body, env};
  return make_of(l, CLOSURE, values, 3, to);
}

/* A form's first part and the others, each in a new slot. */
static enum fault take_apart(struct lisp *l, slot form, slot *first, slot *rest) {
  TRY(push(l, first));
  TRY(push(l, rest));
  TRY(car(l, form, *first));
  return cdr(l, form, *rest);
}

static enum fault form_lambda(struct lisp *l, slot form, slot env, slot to, int *again) {
  slot mark = height(l), parameters, body;
  (void)again;
  TRY(take_apart(l, form, &parameters, &body));
  TRY(make_closure(l, parameters, body, env, to));
  pop_to(l, mark);
  return FINE;
}

/* (define name value), or (define (name parameters..) body..) */
static enum fault form_define(struct lisp *l, slot form, slot env, slot to, int *again) {
  slot mark = height(l), target, rest;
  TRY(take_apart(l, form, &target, &rest));
  if (type_of(l, target) == PAIR) {
    TRY(cdr(l, target, to));
    TRY(make_closure(l, to, rest, env, to));
    TRY(car(l, target, target));
  } else {
    TRY(car(l, rest, rest));
    TRY(eval(l, rest, env, to));
  }
  TRY(define(l, target, to));
  *again = 0;
  pop_to(l, mark);
  return FINE;
}

static enum fault form_set(struct lisp *l, slot form, slot env, slot to, int *again) {
  slot mark = height(l), symbol, value;
  (void)again;
  TRY(push(l, &symbol));
  TRY(push(l, &value));
  TRY(nth(l, form, 0, symbol));
  TRY(nth(l, form, 1, value));
  TRY(eval(l, value, env, to));
  TRY(assign(l, symbol, to, env));
  pop_to(l, mark);
  return FINE;
}

/* (let ((name value) ..) body ..): the values do not see the names. */
static enum fault form_let(struct lisp *l, slot form, slot env, slot to, int *again) {
  slot mark = height(l), rest, name, value, inner;
  TRY(push(l, &rest));
  TRY(push(l, &name));
  TRY(push(l, &value));
  TRY(push(l, &inner));
  TRY(copy(l, env, inner));
  TRY(car(l, form, rest));
  while (type_of(l, rest) == PAIR) {
    TRY(car(l, rest, name));
    TRY(nth(l, name, 1, value));
    TRY(car(l, name, name));
    TRY(eval(l, value, env, value));
    TRY(bind(l, name, value, inner));
    TRY(cdr(l, rest, rest));
  }
  TRY(copy(l, inner, env));
  TRY(cdr(l, form, form));
  pop_to(l, mark);
  return sequence(l, form, env, to, again);
}

static enum fault form_begin(struct lisp *l, slot form, slot env, slot to, int *again) {
  return sequence(l, form, env, to, again);
}

/* (while test body ..): its value is null. */
static enum fault form_while(struct lisp *l, slot form, slot env, slot to, int *again) {
  slot mark = height(l), test, body;
  TRY(push(l, &test));
  TRY(push(l, &body));
  for (;;) {
    TRY(car(l, form, test));
    TRY(eval(l, test, env, test));
    if (type_of(l, test) == NIL) break;
    TRY(cdr(l, form, body));
    TRY(sequence(l, body, env, to, again));
    if (*again) TRY(eval(l, body, env, to));
  }
  *again = 0;
  pop_to(l, mark);
  return set_nil(l, to);
}

static const struct {
  const char *name;
  special *run;
} table[] = {{"quote", form_quote}, {"if", form_if},   {"define", form_define}, {"set!", form_set},
             {"lambda", form_lambda}, {"let", form_let}, {"begin", form_begin},   {"while", form_while}};

#define COUNT ((int64_t)(sizeof table / sizeof table[0]))

const char *special_name(int64_t number) { return number < COUNT ? table[number].name : NULL; }

enum fault special_form(struct lisp *l, int64_t number, slot form, slot env, slot to, int *again) {
  if (number < 0 || number >= COUNT) return BROKEN;
  return table[number].run(l, form, env, to, again);
}
