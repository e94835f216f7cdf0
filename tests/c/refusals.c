/* Each refusal by name: every call that can give it is made to give it, on P5 or a damaged P5, and changes nothing. */
#include <string.h>

#include "calls.h"
#include "heaps.h"
#include "judge.h"
#include "parts.h"
#include "phachunoi.h"

/* P5 with two roots more: root 2 names an untraced object of 1 field at word 7, root 3 an integer. */
static void p5_and_text(void) {
  judge_lend(17, 4);
  p5_heap(judged());
  judged()->heap[7] = 0x80000002u;
  judged()->heap[8] = 12;
  judged()->free = 9;
  judged()->roots[2] = 28;
  judged()->roots[3] = 15;
  judge_settle();
}

struct provoked {
  enum phachunoi_refusal refusal;
  enum op op;
  size_t a, b, c;
};

/* Roots: 0 a tuple of no fields, 1 one of two, 2 untraced, 3 an integer. */
static const struct provoked good_heap[] = {
    {PHACHUNOI_ROOT, NEW_TRACED, 4, 0, 0},     {PHACHUNOI_ROOT, NEW_UNTRACED, 4, 0, 0},
    {PHACHUNOI_ROOT, SET_INTEGER, 4, 0, 0},    {PHACHUNOI_ROOT, SET_NULL, 4, 0, 0},
    {PHACHUNOI_ROOT, SET_CODE, 4, 0, 0},       {PHACHUNOI_RANGE, SET_CODE, 0, 0, 0},
    {PHACHUNOI_ROOT, COPY, 4, 0, 0},           {PHACHUNOI_ROOT, COPY, 0, 0, 4},
    {PHACHUNOI_ROOT, LOAD, 4, 0, 0},           {PHACHUNOI_ROOT, LOAD, 1, 0, 4},
    {PHACHUNOI_ROOT, LOAD, 3, 9, 4},           {PHACHUNOI_ROOT, STORE, 4, 0, 0},
    {PHACHUNOI_ROOT, STORE, 1, 0, 4},          {PHACHUNOI_ROOT, RAW_READ, 4, 0, 0},
    {PHACHUNOI_ROOT, RAW_WRITE, 4, 0, 0},      {PHACHUNOI_ROOT, SAME, 4, 0, 0},
    {PHACHUNOI_ROOT, SAME, 0, 0, 4},           {PHACHUNOI_ROOT, INSPECT, 4, 0, 0},
    {PHACHUNOI_ROOT, OPEN, 4, 0, 0},           {PHACHUNOI_ROOT, NEW_TRACED, 4, 1073741824, 0},
    {PHACHUNOI_COUNT, NEW_TRACED, 0, 1073741824, 0}, {PHACHUNOI_COUNT, NEW_UNTRACED, 0, 1073741824, 0},
    {PHACHUNOI_OBJECT, LOAD, 3, 0, 0},         {PHACHUNOI_OBJECT, STORE, 3, 0, 0},
    {PHACHUNOI_OBJECT, RAW_READ, 3, 0, 0},     {PHACHUNOI_OBJECT, RAW_WRITE, 3, 0, 0},
    {PHACHUNOI_OBJECT, OPEN, 3, 0, 0},         {PHACHUNOI_KIND, LOAD, 2, 0, 0},
    {PHACHUNOI_KIND, LOAD, 2, 9, 0},           {PHACHUNOI_KIND, STORE, 2, 0, 0},
    {PHACHUNOI_KIND, RAW_READ, 1, 0, 0},       {PHACHUNOI_KIND, RAW_WRITE, 1, 9, 0},
    {PHACHUNOI_FIELD, LOAD, 1, 2, 0},          {PHACHUNOI_FIELD, LOAD, 0, 0, 0},
    {PHACHUNOI_FIELD, STORE, 1, 2, 0},         {PHACHUNOI_FIELD, RAW_READ, 2, 1, 0},
    {PHACHUNOI_FIELD, RAW_WRITE, 2, 1, 0},     {PHACHUNOI_FIELD, WORD, 0, 0, 0},
    {PHACHUNOI_ROOM, NEW_TRACED, 0, 2, 0},     {PHACHUNOI_ROOM, NEW_UNTRACED, 0, 1073741823, 0},
    {PHACHUNOI_ROOT, WRITE, 4, 0, 0},          {PHACHUNOI_ROOT, WRITE, 4, 100, 0},
    {PHACHUNOI_VALUE, WRITE, 2, 0, 0},         {PHACHUNOI_VALUE, WRITE, 2, 100, 0},
    {PHACHUNOI_DEEP, WRITE, 1, 64, 0},         {PHACHUNOI_DEEP, WRITE, 1, 100, 0},
    {PHACHUNOI_TEXT, WRITE, 1, 63, 0},         {PHACHUNOI_TEXT, WRITE, 0, 1, 0},
    {PHACHUNOI_TEXT, WRITE, 3, 0, 0},          {PHACHUNOI_ROOT, READ, 4, 0, 0},
    {PHACHUNOI_VALUE, READ, 0, 0, 0}};

static void provoke(const struct provoked *p) {
  struct call c = call_of(p->op, p->a, p->b, p->c);
  expect(judge_call(&c).refusal == (uint32_t)p->refusal, phachunoi_refusal_text(p->refusal));
}

/* In a bad shape every other mistake comes second; in a damaged heap only a collection is refused. */
static void shape_and_damage(void) {
  struct call c;
  size_t i;
  for (i = 0; i < sizeof good_heap / sizeof good_heap[0]; i++) {
    p5_and_text();
    judged()->free = 17 + 1;
    judge_settle();
    c = call_of(good_heap[i].op, good_heap[i].a, good_heap[i].b, good_heap[i].c);
    expect(judge_call(&c).refusal == (c.op == WORD ? 7u : 1u), "SHAPE comes first");
  }
  for (i = 0; i < 17; i += 16) { /* word 0, or the last word of the idle half, is not 0 */
    static const struct provoked damaged[] = {{PHACHUNOI_DAMAGED, COLLECT, 0, 0, 0},
                                              {PHACHUNOI_DAMAGED, NEW_TRACED, 0, 2, 0},
                                              {PHACHUNOI_DAMAGED, NEW_UNTRACED, 0, 1073741823, 0},
                                              {PHACHUNOI_DONE, LOAD, 1, 1, 0},
                                              {PHACHUNOI_DEEP, WRITE, 1, 100, 0},
                                              {PHACHUNOI_DONE, CHECK, 0, 0, 0}};
    size_t k;
    p5_and_text();
    judged()->heap[i] = 8;
    judge_settle();
    for (k = 0; k < sizeof damaged / sizeof damaged[0]; k++) provoke(&damaged[k]);
  }
}

static void integers(void) {
  struct call above = set_integer_of(0, 1073741824), below = set_integer_of(0, -1073741825);
  struct call bad_root = set_integer_of(4, 1073741824);
  p5_and_text();
  expect(judge_call(&above).refusal == PHACHUNOI_RANGE && judge_call(&below).refusal == PHACHUNOI_RANGE, "RANGE");
  expect(judge_call(&bad_root).refusal == PHACHUNOI_ROOT, "ROOT comes before RANGE");
}

/* What names no object is OBJECT to every call on one: root 3 holds a code word, then the word two below the lowest, of
   which inspect has nothing to tell and write nothing to write either. */
static void code_words(void) {
  static const uint32_t words[] = {16777216, 16777218, 4294967294, 16777214};
  static const struct provoked inspect = {PHACHUNOI_OBJECT, INSPECT, 3, 0, 0};
  static const struct provoked write = {PHACHUNOI_OBJECT, WRITE, 3, 0, 0};
  size_t i, k;
  for (k = 0; k < 4; k++) {
    p5_and_text();
    judged()->roots[3] = words[k];
    judge_settle();
    for (i = 0; i < sizeof good_heap / sizeof good_heap[0]; i++)
      if (good_heap[i].refusal == PHACHUNOI_OBJECT) provoke(&good_heap[i]);
  }
  provoke(&inspect);
  provoke(&write);
}

static void texts(void) {
  uint32_t a, b;
  for (a = 0; a < 13; a++)
    for (b = 0; b <= a; b++)
      expect((a == b) == (strcmp(phachunoi_refusal_text(a), phachunoi_refusal_text(b)) == 0), "texts of two refusals");
  expect(strcmp(phachunoi_refusal_text(13), phachunoi_refusal_text(99)) == 0, "text of no refusal");
}

void each_refusal(void) {
  size_t i;
  judge_part("each refusal");
  for (i = 0; i < sizeof good_heap / sizeof good_heap[0]; i++) {
    p5_and_text();
    provoke(&good_heap[i]);
  }
  shape_and_damage();
  integers();
  code_words();
  texts();
  expect(phachunoi_version() == PHACHUNOI_VERSION_NUMBER, "the archive has another version than the header");
}
