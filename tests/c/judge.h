/* The judge: carries one call out on the archive and on the model, compares everything and counts. */
#ifndef JUDGE_H
#define JUDGE_H

#include "lent.h"

/* Every part of the tests begins with its name, for messages. */
void judge_part(const char *name);

/* Lends both sides the same lengths: all words and roots 0, half A, free 1. */
void judge_lend(size_t words, size_t root_count);

/* The state both sides agree on. A test may write it, and then settles it. */
struct state *judged(void);
void judge_settle(void);

/* The call on both sides. Compared: every answer, word, root, both record entries, the bytes lent for a text and the
   guards. */
struct said judge_call(const struct call *c);

/* A further check, with a line that says what is wrong if it fails. */
void expect(int ok, const char *wrong);

/* The last lines of the run: the smallest case that differed, if any, and the totals. Returns the exit status. Each
   refusal of code words and of texts must have been met `least` times. */
int judge_verdict(uint64_t seed, uint64_t least);

uint64_t judge_calls(void);

/* Says how often each was met, and expects it `least` times. */
struct counted {
  const char *name;
  const uint64_t *met;
};
void judge_met(const char *of, const struct counted *each, size_t count, uint64_t least);

/* A call on the archive alone, counted. */
struct said archive_alone(struct state *s, const struct call *c);

int said_equal(struct said a, struct said b);
int counts_equal(struct counts a, struct counts b);

#endif
