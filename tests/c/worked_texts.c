/* Worked cases of document 02's texts: the answers written in the request's own table, and the model besides. */
#include <string.h>

#include "calls.h"
#include "heaps.h"
#include "judge.h"
#include "parts.h"

static void call(enum op op, size_t a, size_t b, size_t c) {
  struct call made = call_of(op, a, b, c);
  expect(judge_call(&made).refusal == 0, "a call on the way to a worked text is refused");
}

/* Root `root` in so many bytes has this text. */
static void written(size_t root, size_t bytes, const char *text, const char *wrong) {
  struct call write = call_of(WRITE, root, bytes, 0);
  struct said said = judge_call(&write);
  expect(said.refusal == 0 && said.length == strlen(text) && memcmp(judged()->text, text, said.length) == 0, wrong);
}

/* That no byte changes is for the judge to see. */
static void refused(size_t root, size_t bytes, uint32_t refusal, const char *wrong) {
  struct call write = call_of(WRITE, root, bytes, 0);
  struct said said = judge_call(&write);
  expect(said.refusal == refusal && said.length == 0, wrong);
}

/* Root 0 names an object of no fields, root 1 one that holds itself. */
static void p5_written(void) {
  judge_lend(17, 2);
  p5_heap(judged());
  judge_settle();
  written(0, 2, "()", "P5: root 0 in 2 bytes");
  written(0, 5, "()", "P5: root 0 in 5 bytes");
  refused(0, 1, 12, "P5: root 0 in 1 byte is TEXT");
  refused(1, 63, 12, "P5: root 1 in 63 bytes is TEXT");
  refused(1, 64, 11, "P5: root 1 in 64 bytes is DEEP");
  refused(1, 65, 11, "P5: root 1 in 65 bytes is DEEP");
  refused(1, 400, 11, "P5: root 1 in 400 bytes is DEEP");
}

/* (1,null) by calls; then the field becomes other values. */
static void by_calls(void) {
  struct call one = set_integer_of(1, 1), minus_two = set_integer_of(1, -2);
  judge_lend(17, 2);
  refused(0, 0, 10, "a null root in no bytes is VALUE");
  call(NEW_TRACED, 0, 2, 0);
  judge_call(&one);
  written(1, 1, "1", "an integer root is a text");
  call(STORE, 0, 0, 1);
  refused(0, 2, 12, "(1,null) in 2 bytes is TEXT");
  refused(0, 3, 10, "(1,null) in 3 bytes is VALUE");
  judge_call(&minus_two);
  call(STORE, 0, 1, 1);
  written(0, 6, "(1,~2)", "(1,~2)");
  call(NEW_TRACED, 1, 1, 0);
  call(STORE, 1, 0, 0);
  written(1, 100, "{1=(1,~2)}", "a tuple in one of one field");
}

/* ---- read ---- */

static uint32_t read_to(size_t to, const char *text) {
  struct call read = read_of(to, text, strlen(text));
  return judge_call(&read).refusal;
}

static uint32_t read_fresh(const char *text) {
  judge_lend(17, 1);
  return read_to(0, text);
}

/* What a heap of S = 8 with one root holds: words from 1 on, the others 0. */
static int holds(uint32_t free, uint32_t root, uint32_t w1, uint32_t w2, uint32_t w3) {
  const struct state *s = judged();
  uint32_t words[17] = {0};
  words[1] = w1;
  words[2] = w2;
  words[3] = w3;
  return s->half == 0 && s->free == free && s->roots[0] == root && memcmp(s->heap, words, sizeof words) == 0;
}

static void fresh_read(void) {
  expect(read_fresh("()") == 0 && holds(2, 4, 0, 0, 0), "()");
  expect(read_fresh("{1=()}") == 0 && holds(4, 4, 2, 12, 0), "{1=()}");
  expect(read_fresh("(1,~2)") == 0 && holds(4, 4, 4, 3, 0xfffffffdu), "(1,~2)");
  expect(read_fresh("7") == 0 && holds(1, 15, 0, 0, 0), "7");
  expect(read_fresh("1073741823") == 0 && holds(1, 0x7fffffffu, 0, 0, 0), "the largest integer");
  expect(read_fresh("~1073741824") == 0 && holds(1, 0x80000001u, 0, 0, 0), "the least integer");
}

static void no_texts(void) {
  static const char *const texts[] = {"1073741824", "~1073741825", "~0",  "00",     "(1)", "{}",
                                      "{2=1}",      "{1=1,2=2}",   "(1,", "(1,2) ", ""};
  size_t i;
  for (i = 0; i < sizeof texts / sizeof texts[0]; i++)
    expect(read_fresh(texts[i]) == 10 && holds(1, 0, 0, 0, 0), "no text: VALUE, and nothing changes");
}

static void without_room(void) {
  static const char *const texts[] = {"((),{1=3},(4,5))", "(1,2,3,4,5,6,7,8)"}; /* 10 and 9 words */
  size_t i;
  for (i = 0; i < 2; i++)
    expect(read_fresh(texts[i]) == 9 && judged()->half == 1 && judged()->free == 9, "more words than a half: ROOM");
}

static void p5_read(void) {
  static const uint32_t tuple[4] = {4, 3, 5, 0};
  judge_lend(17, 2);
  p5_heap(judged());
  judge_settle();
  expect(read_to(1, "(1,2)") == 0, "P5: (1,2) is read after a collection");
  expect(memcmp(judged()->heap + 13, tuple, sizeof tuple) == 0 && judged()->free == 16 && judged()->roots[0] == 36 &&
             judged()->roots[1] == 52,
         "P5: (1,2)");
  p5_heap(judged());
  judge_settle();
  expect(read_to(1, "(1,(2,3))") == 9 && judged()->half == 1 && judged()->free == 13, "P5: (1,(2,3)) is ROOM");
  expect(judged()->heap[10] == 4 && judged()->heap[11] == 40 && judged()->heap[12] == 21 && judged()->roots[0] == 36 &&
             judged()->roots[1] == 40,
         "P5: ROOM leaves P5's result");
}

void worked_texts(void) {
  judge_part("worked texts");
  p5_written();
  by_calls();
  fresh_read();
  no_texts();
  without_room();
  p5_read();
}
