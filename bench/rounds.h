/* Contenders measured side by side in one process: by the clock, in alternating rounds, or by counted instructions. */
#ifndef ROUNDS_H
#define ROUNDS_H

#include "../tests/c/model.h"

struct contender {
  const char *name;
  void (*run)(struct state *s, size_t times);
};

/* The words of the command line: the number of rounds, or 'count'. */
void rounds_begin(int argc, char **argv);
int rounds_counting(void);

/* Runs each contender on a copy of the heap `start`, `times` times in a row, and prints a line for each and each round:
       time SUBJECT WORKLOAD CONTENDER TIMES NANOSECONDS
   or, where instructions are counted, once: 'tag NUMBER SUBJECT WORKLOAD CONTENDER TIMES'; the emulator says
   'count NUMBER INSTRUCTIONS'. Making the copy is not measured. */
void measure(const char *subject, const char *workload, const struct state *start, const struct contender *contenders,
             size_t count, size_t times);

/* A copy of a heap, in words that stay the same from copy to copy. */
struct state *copy_of(const struct state *start);

#endif
