/* Every contender against the model of tests/c on small heaps at random, sound and damaged: the same verdict and
   numbers, the same words, roots and record; and a check leaves all as it was. One heap in 16 is larger, with stretches
   of objects of one sort. And on the small ones every twin against its call: the same struct returned, the same words
   and roots left. */
#include <stdio.h>
#include <stdlib.h>
#include <string.h>

#include "../tests/c/codes.h"
#include "../tests/c/grammar.h"
#include "../tests/c/heaps.h"
#include "../tests/c/random.h"
#include "../tests/c/tuples.h"
#include "baseline.h"
#include "contenders.h"
#include "twins.h"

#define SMALL_WORDS 81
#define MOST_WORDS 12001
#define PAST 16 /* words behind a heap, which no call may change */
#define MOST_ROOTS 6
#define MOST_BYTES 120

/* A collector's verdict is the refusal. One that takes the heap to be sound gets only sound ones. */
static uint32_t sound_bare(struct state *s, struct counts *c) { return *c = bare_collect(s), 0; }
static uint32_t sound_bare_used(struct state *s, struct counts *c) { return *c = bare_collect_used(s), 0; }
static uint32_t sound_engine(struct state *s, struct counts *c) { return *c = engine_collect(s), 0; }

static const struct {
  const char *name;
  uint32_t (*collect)(struct state *s, struct counts *counts);
  int only_sound;
} collectors[] = {{"bare", sound_bare, 1},
                  {"bare-used", sound_bare_used, 1},
                  {"engine", sound_engine, 1},
                  {"full", full_collect, 0},
                  {"collect", archive_collect, 0}};

static const struct {
  const char *name;
  int (*check)(struct state *s);
} checkers[] = {{"full-check", full_check}, {"check", archive_check}};

static unsigned long differences;

static void compare(const struct state *s, const struct state *expected, int verdict, const char *name,
                    unsigned long heap) {
  if (verdict && s->half == expected->half && s->free == expected->free &&
      memcmp(s->heap, expected->heap, (s->words + PAST) * sizeof *s->heap) == 0 &&
      memcmp(s->roots, expected->roots, MOST_ROOTS * sizeof *s->roots) == 0)
    return;
  differences++;
  printf("agree: %s differs from the model on heap %lu\n", name, heap);
}

/* A copy of a heap in words of its own. */
static struct state again(const struct state *s, uint32_t *words, uint32_t *roots) {
  struct state copy = *s;
  copy.heap = memcpy(words, s->heap, (s->words + PAST) * sizeof *words);
  copy.roots = memcpy(roots, s->roots, MOST_ROOTS * sizeof *roots);
  return copy;
}

static void hold(const struct state *start, int sound, unsigned long heap) {
  static uint32_t words[2][MOST_WORDS + PAST], roots[2][MOST_ROOTS];
  struct call call = {COLLECT, 0, 0, 0, 0, 0, {0, 0, 0}, NULL};
  struct state expected = again(start, words[0], roots[0]), s;
  struct said said = model_call(&expected, &call);
  size_t i;
  for (i = 0; i < sizeof collectors / sizeof *collectors; i++) {
    struct counts counts = {0, 0, 0};
    int verdict;
    if (collectors[i].only_sound && !sound) continue;
    s = again(start, words[1], roots[1]);
    verdict = collectors[i].collect(&s, &counts) == said.refusal;
    compare(&s, &expected, verdict && memcmp(&counts, &said.counts, sizeof counts) == 0, collectors[i].name, heap);
  }
  for (i = 0; i < sizeof checkers / sizeof *checkers; i++) {
    s = again(start, words[1], roots[1]);
    compare(&s, start, checkers[i].check(&s) == sound, checkers[i].name, heap);
  }
}

/* One call of the archive and of its twin, each on a copy of the heap, with the same numbers; `h` is the copy. */
#define HOLD_TWIN(type, call, arguments)                                                                            \
  do {                                                                                                              \
    struct state one = again(start, words[0], roots[0]), other = again(start, words[1], roots[1]);                  \
    phachunoi_heap first = heap_of(&one), second = heap_of(&other), *h = &first;                                    \
    type ours = phachunoi_##call arguments, theirs;                                                                 \
    h = &second;                                                                                                    \
    theirs = twin_##call arguments;                                                                                 \
    compare(&other, &one, memcmp(&ours, &theirs, sizeof ours) == 0, "the twin of " #call, heap);                    \
  } while (0)

static void hold_twins(const struct state *start, unsigned long heap) {
  static uint32_t words[2][MOST_WORDS + PAST], roots[2][MOST_ROOTS];
  size_t a = below(MOST_ROOTS + 1), b = below(MOST_ROOTS + 1), field = below(5);
  int64_t value = (int64_t)(random_bits() >> 32) - 2147483648LL;
  uint32_t code = asked_code();
  phachunoi_window window = {0, below(SMALL_WORDS), below(8)};
  HOLD_TWIN(phachunoi_result, fresh, (h->words, h->word_count, h->record));
  HOLD_TWIN(phachunoi_answer, check, (PHACHUNOI_LENT(h)));
  HOLD_TWIN(phachunoi_collected, collect, (PHACHUNOI_LENT(h)));
  HOLD_TWIN(phachunoi_result, allocate_traced, (PHACHUNOI_LENT(h), field, a));
  HOLD_TWIN(phachunoi_result, allocate_untraced, (PHACHUNOI_LENT(h), 2 * field, a));
  HOLD_TWIN(phachunoi_answer, set_integer, (PHACHUNOI_LENT(h), a, value));
  HOLD_TWIN(phachunoi_answer, set_null, (PHACHUNOI_LENT(h), a));
  HOLD_TWIN(phachunoi_answer, set_code, (PHACHUNOI_LENT(h), a, code));
  HOLD_TWIN(phachunoi_answer, copy, (PHACHUNOI_LENT(h), a, b));
  HOLD_TWIN(phachunoi_answer, load, (PHACHUNOI_LENT(h), a, field, b));
  HOLD_TWIN(phachunoi_answer, store, (PHACHUNOI_LENT(h), a, field, b));
  HOLD_TWIN(phachunoi_answer, raw_read, (PHACHUNOI_LENT(h), a, field));
  HOLD_TWIN(phachunoi_answer, raw_write, (PHACHUNOI_LENT(h), a, field, (uint32_t)value));
  HOLD_TWIN(phachunoi_answer, same, (PHACHUNOI_LENT(h), a, b));
  HOLD_TWIN(phachunoi_seen, inspect, (PHACHUNOI_LENT(h), a));
  HOLD_TWIN(phachunoi_window, open, (PHACHUNOI_LENT(h), a));
  HOLD_TWIN(phachunoi_answer, word, (h->words, h->word_count, window, field));
}

/* The writer and its twin, each into bytes of its own: the same answer, and the same bytes left. */
static void hold_writer(const struct state *start, unsigned long heap) {
  char ours[MOST_BYTES], theirs[MOST_BYTES];
  phachunoi_heap h = heap_of(start);
  size_t root = below(MOST_ROOTS + 1), bytes = below(MOST_BYTES + 1);
  phachunoi_written one, other;
  memset(ours, '.', sizeof ours);
  memset(theirs, '.', sizeof theirs);
  one = phachunoi_write(PHACHUNOI_LENT(&h), root, ours, bytes);
  other = twin_write(PHACHUNOI_LENT(&h), root, theirs, bytes);
  compare(start, start, memcmp(&one, &other, sizeof one) == 0 && memcmp(ours, theirs, sizeof ours) == 0,
          "the twin of write", heap);
}

/* The reader and its twin, on a text that is broken now and then. */
static void hold_reader(const struct state *start, unsigned long heap) {
  static uint32_t words[2][MOST_WORDS + PAST], roots[2][MOST_ROOTS];
  char text[1000];
  size_t a = below(MOST_ROOTS + 1), bytes = random_text(text, 300, below(8));
  if (one_in(20)) bytes = nested_text(text, 55 + below(15));
  if (one_in(3)) bytes = broken_text(text, bytes);
  HOLD_TWIN(phachunoi_result, read, (PHACHUNOI_LENT(h), a, text, bytes));
}

/* A larger heap, sound and then damaged. Answers how many of the two were sound. */
static unsigned long hold_larger(struct state *s, unsigned long heap) {
  int good;
  s->words = 2 * (size_t)below(one_in(4) ? MOST_WORDS / 2 : 800) + 3;
  s->half = below(2);
  stretched_heap(s);
  hold(s, 1, heap);
  damage(s);
  good = model_sound(s);
  hold(s, good, heap);
  return 1 + (unsigned long)good;
}

int main(int argc, char **argv) {
  static uint32_t words[MOST_WORDS + PAST], roots[MOST_ROOTS];
  unsigned long heaps = argc > 1 ? strtoul(argv[1], NULL, 10) : 1000000, sound = 0, i;
  random_seed(2026);
  for (i = 0; i < heaps && differences < 10; i++) {
    struct state s = {words, 2 * (size_t)below(40) + 3, roots, below(MOST_ROOTS + 1), 0, 0, NULL, 0};
    int good;
    if (one_in(16)) {
      sound += hold_larger(&s, i++);
      continue;
    }
    if (one_in(3)) tuple_heap(&s);
    else sound_heap(&s);
    if (one_in(2)) damage(&s);
    good = model_sound(&s);
    sound += (unsigned long)good;
    hold(&s, good, i);
    hold_twins(&s, i);
    hold_writer(&s, i);
    hold_reader(&s, i);
  }
  printf("agree: %lu heaps, %lu of them sound, %lu differences\n", i, sound, differences);
  return differences != 0;
}
