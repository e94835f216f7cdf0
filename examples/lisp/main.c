/* The program: lisp HALF FILE runs the file in a heap of two halves of HALF words. The last line tells how often it
 * collected, and what the last (collect) counted if there was one.
 * Exit status: 0 fine, 1 a fault of the Lisp program, 2 bad usage or an unsound heap, 3 no room. */
#include <stdio.h>
#include <stdlib.h>
#include <string.h>

#include "lisp.h"

static uint32_t words[PHACHUNOI_WORDS(PHACHUNOI_MAX_HALF)];
static uint32_t roots[PHACHUNOI_MAX_ROOTS];
static char text[1 << 16];

static const char *const faults[] = {"fine",           "no room",    "stack full",  "bad text",     "unbound name",
                                     "not a function", "wrong type", "wrong count", "out of range", "broken"};

/* Defines every built-in of one type, a primitive or a special form, as the value of its name. */
static enum fault define_built_ins(struct lisp *l, enum type type, const char *(*name_of)(int64_t)) {
  slot mark = height(l), symbol, built_in;
  int64_t i;
  TRY(push(l, &symbol));
  TRY(push(l, &built_in));
  for (i = 0; name_of(i) != NULL; i++) {
    TRY(intern(l, name_of(i), strlen(name_of(i)), symbol));
    TRY(set_built_in(l, built_in, type, i));
    TRY(define(l, symbol, built_in));
  }
  pop_to(l, mark);
  return FINE;
}

static enum fault begin(struct lisp *l, size_t half) {
  memset(l, 0, sizeof *l);
  l->stack_limit = PHACHUNOI_MAX_ROOTS;
  if (phachunoi_heap_begin(&l->heap, words, half, roots, STACK) != PHACHUNOI_DONE) return BROKEN;
  TRY(intern(l, "t", 1, TRUE_SYMBOL));
  TRY(define(l, TRUE_SYMBOL, TRUE_SYMBOL));
  TRY(intern(l, "quote", 5, QUOTE_SYMBOL));
  TRY(define_built_ins(l, SPECIAL, special_name));
  return define_built_ins(l, PRIMITIVE, primitive_name);
}

static enum fault run(struct lisp *l) {
  slot form, env;
  TRY(push(l, &form));
  TRY(push(l, &env));
  while (!at_end(l)) {
    TRY(read_value(l, form));
    TRY(eval(l, form, env, form));
  }
  return FINE;
}

static int load(struct lisp *l, const char *path) {
  FILE *file = fopen(path, "r");
  if (file == NULL) return 0;
  l->at = text;
  l->end = text + fread(text, 1, sizeof text, file);
  fclose(file);
  return l->end < text + sizeof text;
}

static void tell(const struct lisp *l, enum fault fault, int sound) {
  fprintf(stderr, "lisp: %s, %lu collections, ", faults[fault], l->collections);
  if (l->asked_for > 0)
    fprintf(stderr, "%lu of them asked for, the last with %u words, %u objects and %u addresses, ", l->asked_for,
            (unsigned)l->counts.live, (unsigned)l->counts.objects, (unsigned)l->counts.addresses);
  fprintf(stderr, "heap %s\n", sound ? "sound" : "NOT SOUND");
}

int main(int argc, char **argv) {
  struct lisp l;
  enum fault fault;
  int sound;
  unsigned long half = argc == 3 ? strtoul(argv[1], NULL, 10) : 0;
  if (half < 1 || half > PHACHUNOI_MAX_HALF) {
    fprintf(stderr, "usage: lisp HALF FILE, with HALF from 1 to %u\n", PHACHUNOI_MAX_HALF);
    return 2;
  }
  fault = begin(&l, half);
  if (fault == FINE && !load(&l, argv[2])) fault = BAD_TEXT;
  if (fault == FINE) fault = run(&l);
  fflush(stdout);
  phachunoi_heap_check(&l.heap, &sound); /* the whole stack is still lent: it must be sound after a fault too */
  tell(&l, fault, sound);
  if (!sound) return 2;
  return fault == FINE ? 0 : fault == NO_ROOM ? 3 : 1;
}
