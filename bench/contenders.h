/* Who is measured: the archive's calls, its collector by itself, and the baselines. */
#ifndef CONTENDERS_H
#define CONTENDERS_H

#include "phachunoi.h"
#include "rounds.h"

/* A heap in the struct of the header. */
phachunoi_heap heap_of(const struct state *s);

/* The archive's calls: the refusal, with the numbers told even then; and whether the heap is sound. */
uint32_t archive_collect(struct state *s, struct counts *counts);
int archive_check(struct state *s);

/* The archive's collector without its check, of a sound heap: the function engine::collect_sound. */
struct counts engine_collect(struct state *s);

#ifdef WITH_BEFORE
/* The archive before, whose module BEFORE names (bench/module.sh): collections, checks and binary trees. */
void run_before_collect(struct state *s, size_t times);
void run_before_check(struct state *s, size_t times);
void run_before_trees(struct state *s, size_t times);
enum { WAS = 1 };
#else
enum { WAS = 0 };
#endif

/* First those that collect, of which growth is measured of the first four; then those that check. */
enum { GROWING = 4, COLLECTORS = 5 + WAS, CHECKERS = 2 + WAS };
extern const struct contender contenders[COLLECTORS + CHECKERS];

/* What the last collection of a contender answered: each keeps its numbers, as a host that wants them does. */
extern struct counts counted;

#endif
