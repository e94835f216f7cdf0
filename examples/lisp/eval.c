/* Evaluation: names, calls, and the loop in which a call in the last place takes no stack. */
#include "lisp.h"

/* ---- names ---- */

/* Leaves the binding of a symbol in `to`, or null if the environment has none. */
static enum fault find_binding(struct lisp *l, slot symbol, slot env, slot to) {
  slot mark = height(l), name;
  TRY(push(l, &name));
  TRY(copy(l, env, to));
  while (type_of(l, to) == BINDING) {
    TRY(get(l, to, BINDING_SYMBOL, name));
    if (same(l, name, symbol)) break;
    TRY(get(l, to, BINDING_NEXT, to));
  }
  pop_to(l, mark);
  return FINE;
}

static enum fault look_up(struct lisp *l, slot symbol, slot env, slot to) {
  slot mark = height(l), found;
  TRY(push(l, &found));
  TRY(find_binding(l, symbol, env, found));
  if (type_of(l, found) == BINDING) {
    TRY(get(l, found, BINDING_VALUE, to));
  } else {
    TRY(get(l, symbol, SYMBOL_BOUND, found));
    if (type_of(l, found) == NIL) return UNBOUND;
    TRY(get(l, symbol, SYMBOL_VALUE, to));
  }
  pop_to(l, mark);
  return FINE;
}

enum fault bind(struct lisp *l, slot symbol, slot value, slot env) {
  const slot values[] = {symbol, value, env};
  TRY(want(l, symbol, SYMBOL));
  return make_of(l, BINDING, values, 3, env);
}

enum fault define(struct lisp *l, slot symbol, slot value) {
  TRY(want(l, symbol, SYMBOL));
  TRY(put(l, symbol, SYMBOL_BOUND, TRUE_SYMBOL));
  return put(l, symbol, SYMBOL_VALUE, value);
}

enum fault assign(struct lisp *l, slot symbol, slot value, slot env) {
  slot mark = height(l), found;
  TRY(want(l, symbol, SYMBOL));
  TRY(push(l, &found));
  TRY(find_binding(l, symbol, env, found));
  if (type_of(l, found) == BINDING) TRY(put(l, found, BINDING_VALUE, value));
  else TRY(define(l, symbol, value));
  pop_to(l, mark);
  return FINE;
}

/* ---- calls ---- */

/* The list of forms becomes the list of their values. */
static enum fault eval_arguments(struct lisp *l, slot forms, slot env) {
  slot mark = height(l), value, head, tail;
  TRY(push(l, &value));
  TRY(push(l, &head));
  TRY(push(l, &tail));
  while (type_of(l, forms) == PAIR) {
    TRY(car(l, forms, value));
    TRY(eval(l, value, env, value));
    TRY(append(l, value, head, tail));
    TRY(cdr(l, forms, forms));
  }
  TRY(copy(l, head, forms));
  pop_to(l, mark);
  return FINE;
}

/* Parameters to arguments, one by one, in front of the closure's own environment. */
static enum fault bind_all(struct lisp *l, slot closure, slot arguments, slot env) {
  slot mark = height(l), names, name, value;
  TRY(push(l, &names));
  TRY(push(l, &name));
  TRY(push(l, &value));
  TRY(get(l, closure, CLOSURE_ENVIRONMENT, env));
  TRY(get(l, closure, CLOSURE_PARAMETERS, names));
  while (type_of(l, names) == PAIR) {
    if (type_of(l, arguments) != PAIR) return WRONG_COUNT;
    TRY(car(l, names, name));
    TRY(car(l, arguments, value));
    TRY(bind(l, name, value, env));
    TRY(cdr(l, arguments, arguments));
    TRY(cdr(l, names, names));
  }
  if (type_of(l, arguments) != NIL) return WRONG_COUNT;
  pop_to(l, mark);
  return FINE;
}

enum fault sequence(struct lisp *l, slot form, slot env, slot to, int *again) {
  slot mark = height(l), rest, first;
  *again = 0;
  if (type_of(l, form) == NIL) return set_nil(l, to);
  TRY(push(l, &rest));
  TRY(push(l, &first));
  for (;;) {
    TRY(cdr(l, form, rest));
    TRY(car(l, form, first));
    if (type_of(l, rest) != PAIR) break;
    TRY(eval(l, first, env, to));
    TRY(copy(l, rest, form));
  }
  TRY(copy(l, first, form));
  *again = 1;
  pop_to(l, mark);
  return FINE;
}

static enum fault call_closure(struct lisp *l, slot closure, slot form, slot env, slot to, int *again) {
  TRY(eval_arguments(l, form, env));
  TRY(bind_all(l, closure, form, env));
  TRY(get(l, closure, CLOSURE_BODY, form));
  return sequence(l, form, env, to, again);
}

/* A list is a call: its head decides how. `form` and `env` are eval's own slots and may be written. */
static enum fault eval_call(struct lisp *l, slot form, slot env, slot to, int *again) {
  slot mark = height(l), head;
  *again = 0;
  TRY(push(l, &head));
  TRY(car(l, form, head));
  TRY(eval(l, head, env, head));
  TRY(cdr(l, form, form));
  switch (type_of(l, head)) {
  case CLOSURE: TRY(call_closure(l, head, form, env, to, again)); break;
  case SPECIAL: TRY(special_form(l, built_in_of(l, head), form, env, to, again)); break;
  case PRIMITIVE:
    TRY(eval_arguments(l, form, env));
    TRY(call_primitive(l, built_in_of(l, head), form, to));
    break;
  default: return NOT_A_FUNCTION;
  }
  pop_to(l, mark);
  return FINE;
}

enum fault eval(struct lisp *l, slot form, slot env, slot to) {
  slot mark = height(l), now, here;
  int again = 1;
  TRY(push(l, &now));
  TRY(push(l, &here));
  TRY(copy(l, form, now));
  TRY(copy(l, env, here));
  while (again) {
    enum type type = type_of(l, now);
    again = 0;
    if (type == SYMBOL) TRY(look_up(l, now, here, to));
    else if (type == PAIR) TRY(eval_call(l, now, here, to, &again));
    else TRY(copy(l, now, to));
  }
  pop_to(l, mark);
  return FINE;
}
