/* Who is measured, each as a function that collects or checks a heap some times in a row. */
#include "contenders.h"

#include "baseline.h"
#include "by_archive.h"

/* ---- the archive ---- */

phachunoi_heap heap_of(const struct state *s) { return lent_by(s); }

uint32_t archive_collect(struct state *s, struct counts *counts) { return collect_by_archive(s, counts); }

int archive_check(struct state *s) { return check_by_archive(s); }

/* ---- its collector by itself, as Rattle calls it: slices and record in their parts, the answer in memory ---- */

struct record {
  uint8_t half;
  size_t free;
};

struct collected {
  struct counts counts; /* Rattle's have the same entries in the same order */
  struct record record;
};

void collect_sound(struct collected *to, uint32_t *heap, size_t words, uint32_t *roots, size_t root_count, uint8_t half,
                   size_t free) __asm__("engine::collect_sound");

struct counts engine_collect(struct state *s) {
  struct collected done;
  collect_sound(&done, s->heap, s->words, s->roots, s->root_count, (uint8_t)s->half, s->free);
  s->half = done.record.half;
  s->free = (uint32_t)done.record.free;
  return done.counts;
}

/* ---- some times in a row ---- */

struct counts counted;

static void run_bare(struct state *s, size_t times) {
  while (times-- > 0) counted = bare_collect(s);
}

static void run_bare_used(struct state *s, size_t times) {
  while (times-- > 0) counted = bare_collect_used(s);
}

static void run_engine(struct state *s, size_t times) {
  while (times-- > 0) counted = engine_collect(s);
}

static void run_full(struct state *s, size_t times) {
  while (times-- > 0) expect_done(full_collect(s, &counted));
}

static void run_collect(struct state *s, size_t times) {
  while (times-- > 0) expect_done(collect_by_archive(s, &counted));
}

static void run_full_check(struct state *s, size_t times) {
  while (times-- > 0) expect_done(!full_check(s));
}

static void run_check(struct state *s, size_t times) {
  while (times-- > 0) expect_done(!check_by_archive(s));
}

const struct contender contenders[COLLECTORS + CHECKERS] = {
    {"bare", run_bare},
    {"full", run_full},
    {"engine", run_engine},
    {"collect", run_collect},
    {"bare-used", run_bare_used},
#ifdef WITH_BEFORE
    {"before-collect", run_before_collect},
#endif
    {"full-check", run_full_check},
    {"check", run_check},
#ifdef WITH_BEFORE
    {"before-check", run_before_check},
#endif
};
