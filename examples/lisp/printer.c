/* Values to text, on standard output. */
#include <stdio.h>

#include "lisp.h"

static void print_bytes(struct lisp *l, slot string) {
  size_t i, length = string_length(l, string);
  for (i = 0; i < length; i++) putchar(byte_at(l, string, i));
}

static enum fault print_symbol(struct lisp *l, slot s) {
  slot mark = height(l), name;
  TRY(push(l, &name));
  TRY(get(l, s, SYMBOL_NAME, name));
  print_bytes(l, name);
  pop_to(l, mark);
  return FINE;
}

static enum fault print_list(struct lisp *l, slot s, int quoted) {
  slot mark = height(l), rest, value;
  const char *between = "(";
  TRY(push(l, &rest));
  TRY(push(l, &value));
  TRY(copy(l, s, rest));
  while (type_of(l, rest) == PAIR) {
    fputs(between, stdout);
    TRY(car(l, rest, value));
    TRY(print_value(l, value, quoted));
    between = " ";
    TRY(cdr(l, rest, rest));
  }
  if (type_of(l, rest) != NIL) {
    fputs(" . ", stdout);
    TRY(print_value(l, rest, quoted));
  }
  fputs(")", stdout);
  pop_to(l, mark);
  return FINE;
}

static enum fault print_vector(struct lisp *l, slot s, int quoted) {
  slot mark = height(l), value;
  size_t i, n = field_count(l, s);
  TRY(push(l, &value));
  fputs("#(", stdout);
  for (i = 1; i <= n; i++) {
    if (i > 1) fputs(" ", stdout);
    TRY(get(l, s, i, value));
    TRY(print_value(l, value, quoted));
  }
  fputs(")", stdout);
  pop_to(l, mark);
  return FINE;
}

enum fault print_value(struct lisp *l, slot s, int quoted) {
  switch (type_of(l, s)) {
  case NIL: fputs("()", stdout); break;
  case INTEGER: printf("%ld", (long)integer_of(l, s)); break;
  case STRING:
    if (quoted) putchar('"');
    print_bytes(l, s);
    if (quoted) putchar('"');
    break;
  case PAIR: return print_list(l, s, quoted);
  case VECTOR: return print_vector(l, s, quoted);
  case SYMBOL: return print_symbol(l, s);
  case CLOSURE: fputs("#<closure>", stdout); break;
  default: fputs("#<built-in>", stdout); break;
  }
  return FINE;
}
