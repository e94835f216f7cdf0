/* The archive before, beside the archive. */
#include "before.h"

#include "by_archive.h"
#include "contenders.h"

void run_before_collect(struct state *s, size_t times) {
  while (times-- > 0) expect_done(collect_by_archive(s, &counted));
}

void run_before_check(struct state *s, size_t times) {
  while (times-- > 0) expect_done(!check_by_archive(s));
}

void run_before_trees(struct state *s, size_t times) { trees_by_archive(s, times); }
