/* Rounds: in each, every contender has its turn, in an order that moves on and turns round from round to round, on the
   same words at the same addresses. Ratios are taken inside a round, by bench/table.py. */
#define _GNU_SOURCE
#include "rounds.h"

#include <stdio.h>
#include <stdlib.h>
#include <string.h>
#include <time.h>
#include <unistd.h>

/* Calls of the system that no system has: the emulator's plugin, bench/icount.c, takes them as marks. */
enum { COUNT_FROM_HERE = 500001, COUNT_TO_HERE = 500002 };

static int counting;
static unsigned rounds = 21;
static long tag;

/* Tag 0 is what the marks themselves cost, with nothing between them; bench/table.py takes it off. */
void rounds_begin(int argc, char **argv) {
  int turn;
  counting = argc > 1 && strcmp(argv[1], "count") == 0;
  if (argc > 1 && !counting) rounds = (unsigned)atoi(argv[1]);
  for (turn = 0; counting && turn < 2; turn++) {
    syscall(COUNT_FROM_HERE);
    syscall(COUNT_TO_HERE, 0L);
  }
}

int rounds_counting(void) { return counting; }

struct state *copy_of(const struct state *start) {
  static struct state copy;
  if (copy.heap == NULL) {
    copy.heap = malloc(2097153 * sizeof *copy.heap);
    copy.roots = malloc(65536 * sizeof *copy.roots);
    if (copy.heap == NULL || copy.roots == NULL) exit(2);
  }
  memcpy(copy.heap, start->heap, start->words * sizeof *copy.heap);
  memcpy(copy.roots, start->roots, start->root_count * sizeof *copy.roots);
  copy.words = start->words;
  copy.root_count = start->root_count;
  copy.half = start->half;
  copy.free = start->free;
  return &copy;
}

static double now(void) {
  struct timespec t;
  clock_gettime(CLOCK_MONOTONIC, &t);
  return (double)t.tv_sec * 1e9 + (double)t.tv_nsec;
}

/* The first run is not counted: in it the loader may still look for libc's functions. */
static void count(const struct state *start, const struct contender *c, size_t times) {
  struct state *s = copy_of(start);
  c->run(s, 1);
  s = copy_of(start);
  syscall(COUNT_FROM_HERE);
  c->run(s, times);
  syscall(COUNT_TO_HERE, tag);
}

static double clock_one(const struct state *start, const struct contender *c, size_t times) {
  struct state *s = copy_of(start);
  double begun = now();
  c->run(s, times);
  return now() - begun;
}

void measure(const char *subject, const char *workload, const struct state *start, const struct contender *contenders,
             size_t count_of, size_t times) {
  size_t round, turn;
  for (turn = 0; counting && turn < count_of; turn++) {
    printf("tag %ld %s %s %s %zu\n", ++tag, subject, workload, contenders[turn].name, times);
    count(start, &contenders[turn], times);
  }
  for (round = 0; !counting && round < rounds; round++)
    for (turn = 0; turn < count_of; turn++) {
      size_t step = (turn + round / 2) % count_of;
      const struct contender *c = &contenders[round % 2 ? count_of - 1 - step : step];
      printf("time %s %s %s %zu %.0f\n", subject, workload, c->name, times, clock_one(start, c, times));
    }
  fflush(stdout);
}
