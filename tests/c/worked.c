/* Document 01's worked heaps P1 to P10 and its Fresh cases, cases of document 02's code words, and of the numbers that
   its collections answer: the numbers written there, and the model besides. */
#include <string.h>

#include "calls.h"
#include "heaps.h"
#include "judge.h"
#include "parts.h"

static struct said call(enum op op, size_t a, size_t b, size_t c) {
  struct call made = call_of(op, a, b, c);
  return judge_call(&made);
}

/* A collection that is done, and answers these. */
static int collects(uint32_t live, uint32_t objects, uint32_t addresses) {
  struct counts counts = {live, objects, addresses};
  struct said said = call(COLLECT, 0, 0, 0);
  return said.refusal == 0 && counts_equal(said.counts, counts);
}

/* One that is refused, and so has no numbers. */
static int collect_refused(uint32_t refusal) {
  struct counts none = {0, 0, 0};
  struct said said = call(COLLECT, 0, 0, 0);
  return said.refusal == refusal && counts_equal(said.counts, none);
}

static uint32_t integer_word(int64_t v) {
  struct call made = set_integer_of(0, v);
  expect(judge_call(&made).refusal == 0, "an integer in range is refused");
  return judged()->roots[0];
}

static void p1_p2(void) {
  struct call beyond = set_integer_of(0, 1073741824);
  judge_lend(17, 1);
  expect(integer_word(10) == 21 && integer_word(0) == 1 && integer_word(-1) == 0xffffffffu, "P1");
  expect(integer_word(1073741823) == 0x7fffffffu && integer_word(-1073741824) == 0x80000001u, "P2");
  expect(judge_call(&beyond).refusal == 4, "P2: 1,073,741,824 is RANGE");
}

static void p3(void) {
  static const uint32_t tuple[3] = {4, 47, 85};
  judge_lend(17, 2);
  call(NEW_TRACED, 1, 2, 0);
  integer_word(23);
  call(STORE, 1, 0, 0);
  integer_word(42);
  call(STORE, 1, 1, 0);
  expect(memcmp(judged()->heap + 1, tuple, sizeof tuple) == 0, "P3: the tuple (23, 42)");
}

static int inspects_code(uint32_t word) {
  struct said seen = call(INSPECT, 0, 0, 0);
  return seen.refusal == 0 && seen.kind == 4 && seen.code == word && seen.count == 0;
}

/* The text "hello" lives through a collection, though its first word looks like a code word; in a root it is one. */
static void p4(void) {
  static const uint32_t text[3] = {0x80000004u, 0x6c6c6568u, 0x0000006fu};
  struct call write = call_of(RAW_WRITE, 0, 0, 0);
  judge_lend(17, 1);
  call(NEW_UNTRACED, 0, 2, 0);
  write.number = text[1];
  judge_call(&write);
  write.b = 1;
  write.number = text[2];
  judge_call(&write);
  expect(memcmp(judged()->heap + 1, text, sizeof text) == 0, "P4: the text before");
  expect(collects(3, 1, 1), "P4: three live words");
  expect(memcmp(judged()->heap + 9, text, sizeof text) == 0, "P4: the text after");
  judged()->roots[0] = text[1];
  judge_settle();
  expect(inspects_code(text[1]), "P4: a root that holds the text's first word");
  expect(collects(0, 0, 0) && judged()->roots[0] == text[1], "P4: that root after a collection");
}

static void on_p5(size_t roots) {
  judge_lend(17, roots < 2 ? 2 : roots);
  p5_heap(judged());
  judge_settle();
}

static int left(uint32_t half, uint32_t free, const uint32_t words[17], uint32_t root_0, uint32_t root_1) {
  const struct state *s = judged();
  return s->half == half && s->free == free && memcmp(s->heap, words, 17 * sizeof words[0]) == 0 &&
         s->roots[0] == root_0 && s->roots[1] == root_1;
}

static int is_p5_result(void) {
  static const uint32_t words[17] = {0, 0, 0, 0, 0, 0, 0, 0, 0, 0, 4, 40, 21, 0, 0, 0, 0};
  return left(1, 13, words, 36, 40);
}

static void p5_to_p7(void) {
  on_p5(2);
  expect(collects(4, 2, 3) && is_p5_result(), "P5");
  on_p5(2);
  expect(call(NEW_TRACED, 1, 3, 0).refusal == 0, "P6 is done");
  expect(judged()->heap[13] == 6 && judged()->roots[1] == 52 && judged()->free == 17, "P6");
  on_p5(2);
  expect(call(NEW_TRACED, 1, 4, 0).refusal == 9 && is_p5_result(), "P7");
}

static void p8_to_p10(void) {
  on_p5(2);
  judged()->roots[0] = 12;
  judge_settle();
  expect(collects(3, 1, 3) && judged()->roots[0] == 36 && judged()->roots[1] == 36, "P8");
  on_p5(2);
  judged()->roots[0] = 14;
  judge_settle();
  expect(collect_refused(8) && call(INSPECT, 0, 0, 0).refusal == 5, "P9 with 14");
  judged()->roots[0] = 16;
  judge_settle();
  expect(collect_refused(8) && call(INSPECT, 0, 0, 0).refusal == 5, "P9 with 16");
  judged()->free = 18;
  judge_settle();
  expect(collect_refused(1), "P9 with a free index outside the half");
}

static void p10(void) {
  uint32_t words[17];
  on_p5(2);
  memcpy(words, judged()->heap, sizeof words);
  judge_lend(17, 0);
  memcpy(judged()->heap, words, sizeof words);
  judged()->free = 7;
  judge_settle();
  expect(collects(0, 0, 0) && judged()->half == 1 && judged()->free == 9, "P10");
}

static uint32_t fresh_then(size_t n) {
  judge_lend(17, 1);
  call(FRESH, 0, 0, 0);
  return call(NEW_TRACED, 0, n, 0).refusal;
}

static void fresh_cases(void) {
  expect(fresh_then(7) == 0 && judged()->free == 9, "Fresh: n = 7 fits");
  expect(fresh_then(8) == 9 && judged()->half == 1 && judged()->free == 9, "Fresh: n = 8 is ROOM");
  expect(fresh_then(1073741823) == 9 && judged()->half == 1, "Fresh: n = 1,073,741,823 is ROOM");
  expect(fresh_then(1073741824) == 3 && judged()->half == 0, "Fresh: n = 1,073,741,824 is COUNT");
}

/* The README's way to P5: by calls only. */
static void p5_by_calls(void) {
  static const uint32_t words[7] = {0, 2, 1, 4, 12, 21, 0};
  judge_lend(17, 2);
  call(FRESH, 0, 0, 0);
  call(NEW_TRACED, 0, 1, 0);
  { struct call zero = set_integer_of(1, 0); judge_call(&zero); }
  call(STORE, 0, 0, 1);
  call(NEW_TRACED, 1, 2, 0);
  call(STORE, 1, 0, 1);
  integer_word(10);
  call(STORE, 1, 1, 0);
  call(NEW_TRACED, 0, 0, 0);
  expect(memcmp(judged()->heap, words, sizeof words) == 0 && judged()->free == 7, "P5 by calls: the words");
  expect(collects(4, 2, 3) && is_p5_result(), "P5 by calls: the collection");
}

/* ---- code words, on P5's start ---- */

static void code_asked(size_t to, uint32_t word, uint32_t refusal, const char *wrong) {
  static const uint32_t words[17] = {0, 2, 1, 4, 12, 21, 0};
  struct call set = set_code_of(to, word);
  on_p5(2);
  expect(judge_call(&set).refusal == refusal && left(0, 7, words, refusal == 0 ? word : 24, 12), wrong);
  if (refusal == 0) expect(inspects_code(word), wrong);
}

static void code_words_set(void) {
  code_asked(0, 16777216, 0, "set code: the lowest");
  code_asked(0, 4294967294, 0, "set code: the largest");
  code_asked(0, 16777214, 4, "set code: one too low is RANGE");
  code_asked(0, 16777217, 4, "set code: an odd one is RANGE");
  code_asked(0, 0, 4, "set code: 0 is RANGE");
  code_asked(2, 0, 2, "set code: ROOT comes before RANGE");
}

static void code_words_collected(void) {
  static const uint32_t words[17] = {0, 0, 0, 0, 0, 0, 0, 0, 0, 4, 36, 16777228};
  static const enum op ops[] = {LOAD, STORE, RAW_READ, RAW_WRITE, OPEN};
  size_t i;
  on_p5(2);
  judged()->roots[0] = 16777218;
  judged()->heap[5] = 16777228;
  judge_settle();
  expect(collects(3, 1, 2) && left(1, 12, words, 16777218, 36), "code words: a collection");
  for (i = 0; i < sizeof ops / sizeof ops[0]; i++)
    expect(call(ops[i], 0, 0, 1).refusal == 5 && left(1, 12, words, 16777218, 36), "a code word names no object");
}

/* ---- the numbers of a collection ---- */

/* Live words, objects and addresses, by the roots that P5's words have. */
static const struct {
  const char *wrong;
  size_t root_count;
  uint32_t roots[5], live, objects, addresses;
} on_p5_words[] = {{"counts: P5", 2, {24, 12}, 4, 2, 3},
                   {"counts: P8, one object in both roots", 2, {12, 12}, 3, 1, 3},
                   {"counts: P10, no root", 0, {0}, 0, 0, 0},
                   {"counts: one object twice, another, null, an integer", 5, {12, 12, 24, 0, 21}, 4, 2, 4},
                   {"counts: a code word, and an object of no fields", 2, {16777216, 24}, 1, 1, 1},
                   {"counts: what was garbage", 1, {4}, 2, 1, 1}};

static void counts_by_roots(void) {
  static const uint32_t words[7] = {0, 2, 1, 4, 12, 21, 0};
  size_t i;
  for (i = 0; i < sizeof on_p5_words / sizeof on_p5_words[0]; i++) {
    judge_lend(17, on_p5_words[i].root_count);
    memcpy(judged()->heap, words, sizeof words);
    memcpy(judged()->roots, on_p5_words[i].roots, on_p5_words[i].root_count * sizeof words[0]);
    judged()->free = 7;
    judge_settle();
    expect(collects(on_p5_words[i].live, on_p5_words[i].objects, on_p5_words[i].addresses), on_p5_words[i].wrong);
  }
}

/* All that must not count, at once: null and a code word in roots and fields, a raw word that is an address, and
   garbage that names what is live. One object is met twice in another, and one in a root and in a field. */
static void counts_of_all_kinds(void) {
  static const uint32_t before[14] = {0, 6, 20, 20, 16777220, 0x80000004u, 4, 8, 4, 4, 20, 4, 0, 4};
  static const uint32_t after[27] = {0, 0,  0,  0,        0, 0, 0,  0,           0, 0, 0, 0, 0, 0,
                                     6, 84, 84, 16777220, 4, 0, 56, 0x80000004u, 4, 8};
  static const uint32_t roots[4] = {4, 0, 44, 16777216}, renamed[4] = {56, 0, 72, 16777216};
  judge_lend(27, 4);
  memcpy(judged()->heap, before, sizeof before);
  memcpy(judged()->roots, roots, sizeof roots);
  judged()->free = 14;
  judge_settle();
  expect(collects(10, 3, 5), "counts: values of all kinds");
  expect(judged()->half == 1 && judged()->free == 24 && memcmp(judged()->heap, after, sizeof after) == 0 &&
             memcmp(judged()->roots, renamed, sizeof renamed) == 0,
         "counts: what that collection leaves");
}

void worked_heaps(void) {
  judge_part("worked heaps");
  p1_p2();
  p3();
  p4();
  p5_to_p7();
  p8_to_p10();
  p10();
  fresh_cases();
  p5_by_calls();
  code_words_set();
  code_words_collected();
  counts_by_roots();
  counts_of_all_kinds();
}
