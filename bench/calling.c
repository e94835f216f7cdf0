/* Every exported call beside its twin in C: the same call, many times in a row, on a small heap. */
#include <stdio.h>
#include <stdlib.h>

#include "contenders.h"
#include "twins.h"
#include "workloads.h"

/* Roots: a pair of null and the integer 7, that integer, three raw words, null, a code word. */
enum { PAIR, SEVEN, RAW, NONE, CODE, ROOTS = 8, HALF = 64 };

static char text[16];

static void expect(size_t refusal) {
  if (refusal == 0) return;
  fprintf(stderr, "bench: a call that can be done is refused\n");
  exit(2);
}

static void make(struct state *s) {
  phachunoi_heap h;
  empty_heap(s, HALF, ROOTS);
  h = heap_of(s);
  expect(phachunoi_heap_allocate_traced(&h, 2, PAIR));
  expect(phachunoi_heap_allocate_untraced(&h, 3, RAW));
  expect(phachunoi_heap_set_integer(&h, SEVEN, 7));
  expect(phachunoi_heap_store(&h, PAIR, 1, SEVEN));
  expect(phachunoi_heap_set_code(&h, CODE, PHACHUNOI_CODE_FLOOR));
  s->free = h.record.free;
}

/* One text makes three contenders of a call: the archive's, the twin's, and the one that does nothing. `h` is the heap,
   and `times` counts down from call to call. */
#define CONTENDER(side, prefix, name, text)                                                                            \
  static void run_##name##_##side(struct state *s, size_t times) {                                                     \
    phachunoi_heap h = heap_of(s);                                                                                     \
    (void)h;                                                                                                           \
    for (; times > 0; times--) expect(prefix##text);                                                                   \
  }
#define THREE(name, text)                                                                                              \
  CONTENDER(twin, twin_, name, text)                                                                                   \
  CONTENDER(archive, phachunoi_, name, text)                                                                           \
  CONTENDER(nothing, nothing_, name, text)

THREE(version, version() > PHACHUNOI_VERSION_NUMBER)
THREE(fresh, fresh(h.words, h.word_count, h.record).refusal)
THREE(check, check(PHACHUNOI_LENT(&h)).refusal)
THREE(allocate_traced, allocate_traced(PHACHUNOI_LENT(&h), 2, NONE).refusal)
THREE(allocate_untraced, allocate_untraced(PHACHUNOI_LENT(&h), 2, NONE).refusal)
THREE(set_integer, set_integer(PHACHUNOI_LENT(&h), SEVEN, (int64_t)times).refusal)
THREE(set_negative, set_integer(PHACHUNOI_LENT(&h), SEVEN, -(int64_t)times).refusal)
THREE(set_null, set_null(PHACHUNOI_LENT(&h), NONE).refusal)
THREE(set_code, set_code(PHACHUNOI_LENT(&h), CODE, PHACHUNOI_CODE_FLOOR + 2 * (uint32_t)times).refusal)
THREE(copy, copy(PHACHUNOI_LENT(&h), SEVEN, NONE).refusal)
THREE(same, same(PHACHUNOI_LENT(&h), PAIR, SEVEN).refusal)
THREE(load, load(PHACHUNOI_LENT(&h), PAIR, times % 2, NONE).refusal)
THREE(store, store(PHACHUNOI_LENT(&h), PAIR, times % 2, SEVEN).refusal)
THREE(raw_read, raw_read(PHACHUNOI_LENT(&h), RAW, times % 2).refusal)
THREE(raw_write, raw_write(PHACHUNOI_LENT(&h), RAW, times % 2, (uint32_t)times).refusal)
THREE(inspect_null, inspect(PHACHUNOI_LENT(&h), NONE).refusal)
THREE(inspect_integer, inspect(PHACHUNOI_LENT(&h), SEVEN).refusal)
THREE(inspect_code, inspect(PHACHUNOI_LENT(&h), CODE).refusal)
THREE(inspect_object, inspect(PHACHUNOI_LENT(&h), RAW).refusal)
THREE(open, open(PHACHUNOI_LENT(&h), PAIR).refusal)
THREE(read_integer, read(PHACHUNOI_LENT(&h), SEVEN, "~1073741824", 11).refusal)
THREE(write_integer, write(PHACHUNOI_LENT(&h), SEVEN, text, sizeof text).refusal)

/* Collect changes the record, and a window has to be opened first. */
#define COLLECTING(side, collect)                                                                                      \
  static void run_collect_##side(struct state *s, size_t times) {                                                      \
    phachunoi_heap h = heap_of(s);                                                                                     \
    for (; times > 0; times--) {                                                                                       \
      phachunoi_collected c = collect(PHACHUNOI_LENT(&h));                                                             \
      expect(c.refusal);                                                                                               \
      h.record = c.record;                                                                                             \
    }                                                                                                                  \
  }
COLLECTING(twin, twin_collect)
COLLECTING(archive, phachunoi_collect)
COLLECTING(nothing, nothing_collect)

#define READING(side, word)                                                                                            \
  static void run_word_##side(struct state *s, size_t times) {                                                         \
    phachunoi_heap h = heap_of(s);                                                                                     \
    phachunoi_window w = phachunoi_heap_open(&h, PAIR);                                                                \
    for (; times > 0; times--) expect(word(h.words, h.word_count, w, times % 2).refusal);                              \
  }
READING(twin, twin_word)
READING(archive, phachunoi_word)
READING(nothing, nothing_word)

#define SIDES(name) {{"twin", run_##name##_twin}, {"archive", run_##name##_archive}, {"nothing", run_##name##_nothing}}
#define NAMED(name) {#name, SIDES(name)}

static const struct {
  const char *name;
  struct contender sides[3];
} calls[] = {
    NAMED(version),           NAMED(fresh),        NAMED(check),           NAMED(collect),      NAMED(allocate_traced),
    NAMED(set_integer),       NAMED(set_negative), NAMED(set_null),        NAMED(set_code),     NAMED(copy),
    NAMED(allocate_untraced), NAMED(load),         NAMED(store),           NAMED(raw_read),     NAMED(raw_write),
    NAMED(same),              NAMED(inspect_null), NAMED(inspect_integer), NAMED(inspect_code), NAMED(inspect_object),
    NAMED(open),              NAMED(word),         NAMED(write_integer),   NAMED(read_integer),
};

int main(int argc, char **argv) {
  struct state start;
  size_t i;
  rounds_begin(argc, argv);
  for (i = 0; i < sizeof calls / sizeof *calls; i++) {
    make(&start);
    measure("calling", calls[i].name, &start, calls[i].sides, 3, rounds_counting() ? 1000 : 100000);
  }
  return 0;
}
