/* The Lisp of examples/ on the archive and on the archive before: the same programs in the same process. */
#define _GNU_SOURCE
#include <fcntl.h>
#include <stdio.h>
#include <stdlib.h>
#include <unistd.h>

#include "contenders.h"
#include "workloads.h"

/* examples/lisp/main.c, by a name for each archive. */
int lisp_now(int argc, char **argv);
int lisp_before(int argc, char **argv);

static char *words[4] = {"lisp", NULL, NULL, NULL}; /* the size of a half, the program's file */

/* What the program prints is not looked at here: tests/c/lisp.sh does. */
static void run(int (*lisp)(int, char **), size_t times) {
  int out, err, nowhere = open("/dev/null", O_WRONLY), status = 0;
  fflush(stdout); /* the lines of the rounds before */
  out = dup(1);
  err = dup(2);
  dup2(nowhere, 1);
  dup2(nowhere, 2);
  while (times-- > 0) status |= lisp(3, words);
  fflush(stdout);
  dup2(out, 1);
  dup2(err, 2);
  close(out);
  close(err);
  close(nowhere);
  if (status == 0) return;
  fprintf(stderr, "bench: %s fails\n", words[2]);
  exit(2);
}

static void run_now(struct state *s, size_t times) { (void)s, run(lisp_now, times); }
static void run_before(struct state *s, size_t times) { (void)s, run(lisp_before, times); }

static const struct contender lisps[] = {{"archive", run_now}, {"before", run_before}};

static const struct {
  const char *name, *half, *file;
  size_t times;
} programs[] = {
    {"fib/262144", "262144", "bench/fib.lisp", 1},
    {"fib/16384", "16384", "bench/fib.lisp", 1},
    {"kept/65536", "65536", "bench/kept.lisp", 1},
    {"sieve/2300", "2300", "examples/lisp/sieve.lisp", 4},
    {"reverse/1500", "1500", "examples/lisp/reverse.lisp", 4},
    {"strings/1800", "1800", "examples/lisp/strings.lisp", 4},
};

int main(int argc, char **argv) {
  struct state start;
  size_t i;
  rounds_begin(argc, argv);
  empty_heap(&start, 1, 1);
  for (i = 0; i < sizeof programs / sizeof *programs; i++) {
    words[1] = (char *)programs[i].half;
    words[2] = (char *)programs[i].file;
    measure("lisp", programs[i].name, &start, lisps, 2, programs[i].times);
  }
  return 0;
}
