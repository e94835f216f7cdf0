/* Each limit at its value, one below and one above. */
#include "calls.h"
#include "heaps.h"
#include "judge.h"
#include "parts.h"

static uint32_t refusal_of(enum op op, size_t a, size_t b, size_t c) {
  struct call made = call_of(op, a, b, c);
  return judge_call(&made).refusal;
}

/* Every call that can say SHAPE says it, or none does. The heap is empty and roots, if any, are null. */
static void shape_is(int bad, const char *wrong) {
  static const enum op ops[] = {CHECK, COLLECT, SET_NULL, COPY, SAME, INSPECT, OPEN, LOAD, STORE, RAW_READ, RAW_WRITE,
                                NEW_TRACED, NEW_UNTRACED, SET_INTEGER, SET_CODE, WRITE, READ};
  struct state *s = judged(), was = *s;
  size_t i;
  for (i = 0; i < sizeof ops / sizeof ops[0]; i++) {
    s->half = was.half;
    s->free = was.free;
    judge_settle();
    expect((refusal_of(ops[i], 0, 0, 0) == 1) == bad, wrong);
  }
}

static void heap_lengths(void) {
  static const size_t lengths[] = {0, 1, 2, 3, 4, 5, 2097151, 2097152, 2097153, 2097154, 2097155};
  size_t i;
  for (i = 0; i < sizeof lengths / sizeof lengths[0]; i++) {
    size_t n = lengths[i];
    int bad = n % 2 == 0 || n < 3 || n > 2097153;
    judge_lend(n, 1);
    shape_is(bad, "SHAPE at a heap length");
    judge_lend(n, 1);
    if (n > 0) judged()->heap[n - 1] = 5;
    judged()->half = 7; /* fresh does not look at the record */
    judge_settle();
    expect((refusal_of(FRESH, 0, 0, 0) == 1) == bad, "fresh at a heap length");
  }
}

static void root_counts(void) {
  size_t n;
  for (n = 65535; n <= 65537; n++) {
    judge_lend(17, n);
    shape_is(n > 65536, "SHAPE at a number of roots");
    judge_lend(17, n);
    expect(refusal_of(FRESH, 0, 0, 0) == 0, "fresh sees no roots");
  }
  judge_lend(17, 65536);
  expect(refusal_of(NEW_TRACED, 65535, 1, 0) == 0 && refusal_of(COLLECT, 0, 0, 0) == 0, "the last of 65,536 roots");
  expect(refusal_of(NEW_TRACED, 65536, 1, 0) == 2, "ROOT past the last of 65,536");
}

static void set_record(uint32_t half, uint32_t free) {
  judged()->half = half;
  judged()->free = free;
  judge_settle();
}

static void records(void) {
  uint32_t half, free;
  judge_lend(17, 1);
  for (half = 0; half < 4; half++)
    for (free = 0; free < 20; free++) {
      uint32_t first = half == 0 ? 1 : 9;
      set_record(half, free);
      shape_is(half > 1 || free < first || free > first + 8, "SHAPE at a record");
    }
  set_record(0, 0xffffffffu);
  shape_is(1, "SHAPE at the largest free index");
  set_record(0xffffffffu, 1);
  shape_is(1, "SHAPE at the largest half");
}

static void integers(void) {
  static const int64_t edges[] = {-1073741824, 1073741823, 0, 2147483648, -2147483648, 4294967296, -4294967296,
                                  INT64_MAX - 1, INT64_MIN + 1};
  size_t i;
  int64_t v;
  judge_lend(3, 1);
  for (i = 0; i < sizeof edges / sizeof edges[0]; i++)
    for (v = edges[i] - 1; v <= edges[i] + 1 && v != INT64_MAX; v++) {
      struct call set = set_integer_of(0, v), inspect = call_of(INSPECT, 0, 0, 0);
      int bad = v < -1073741824 || v > 1073741823;
      expect(judge_call(&set).refusal == (bad ? 4u : 0u), "RANGE at an integer");
      if (!bad) expect(judge_call(&inspect).integer == v, "an integer reads back");
    }
}

/* P5 is sound or not with a word in a further root, in a field of garbage, in a live field; a collection keeps it. */
static void in_each_place(uint32_t word, int sound) {
  struct call check = call_of(CHECK, 0, 0, 0);
  struct state *s = judged();
  size_t i;
  for (i = 0; i < 3; i++) {
    judge_lend(17, 3);
    p5_heap(s);
    *(i == 0 ? s->roots + 2 : i == 1 ? s->heap + 2 : s->heap + 5) = word;
    judge_settle();
    expect(judge_call(&check).value == (uint32_t)sound, "check around the floor of code words");
    expect(refusal_of(COLLECT, 0, 0, 0) == (sound ? 0u : 8u), "collect around the floor of code words");
    if (sound && i != 1) expect(*(i == 0 ? s->roots + 2 : s->heap + 12) == word, "a collection changes a plain value");
  }
}

/* The floor, the words one and two below and above it, and the same where the sign changes and words end. */
static void code_words(void) {
  static const uint32_t edges[] = {16777216, 2147483648, 4294967293};
  size_t i;
  uint32_t k;
  for (i = 0; i < sizeof edges / sizeof edges[0]; i++)
    for (k = 0; k < 5; k++) {
      uint32_t word = edges[i] - 2 + k;
      int odd = word % 2 == 1, high = word >= 16777216;
      struct call set = set_code_of(0, word), inspect = call_of(INSPECT, 0, 0, 0);
      judge_lend(3, 1);
      expect(judge_call(&set).refusal == (odd || !high ? 4u : 0u), "RANGE at a code word");
      if (!odd && high) expect(judge_call(&inspect).code == word, "a code word reads back");
      in_each_place(word, odd || high);
    }
}

static void counts(void) {
  size_t n;
  judge_lend(2097153, 2);
  for (n = 1048574; n <= 1048577; n++) {
    judge_lend(2097153, 2);
    expect(refusal_of(NEW_UNTRACED, 0, n, 0) == (n > 1048575 ? 9u : 0u), "the largest object of the largest heap");
  }
  for (n = 1073741822; n <= 1073741824; n++) {
    judge_lend(17, 2);
    expect(refusal_of(NEW_TRACED, 0, n, 0) == (n > 1073741823 ? 3u : 9u), "COUNT at a number of fields");
  }
}

/* An object of 3 fields that ends at the free index: fields 2 and 3, and the object one word short. */
static void fields(void) {
  judge_lend(17, 2);
  refusal_of(NEW_TRACED, 0, 3, 0);
  expect(refusal_of(LOAD, 0, 2, 1) == 0 && refusal_of(LOAD, 0, 3, 1) == 7, "FIELD at a field number");
  expect(refusal_of(STORE, 0, 2, 1) == 0 && refusal_of(STORE, 0, 3, 1) == 7, "FIELD at a store");
  expect(refusal_of(COPY, 1, 0, 0) == 0 && refusal_of(COPY, 2, 0, 0) == 2 && refusal_of(COPY, 0, 0, 2) == 2,
         "ROOT at a root number");
  set_record(0, 4);
  refusal_of(NEW_TRACED, 1, 0, 0);
  judged()->roots[0] = 4;
  set_record(0, 5);
  expect(refusal_of(INSPECT, 0, 0, 0) == 0, "an object that ends at the free index");
  set_record(0, 4);
  expect(refusal_of(INSPECT, 0, 0, 0) == 5, "an object that ends one past the free index");
}

/* Allocations that leave one word, none, and want one more. */
static void exact_fit(void) {
  size_t s, n;
  for (s = 1; s <= 12; s++)
    for (n = s > 2 ? s - 2 : 0; n <= s; n++) {
      judge_lend(2 * s + 1, 1);
      expect(refusal_of(NEW_TRACED, 0, n, 0) == (n + 1 > s ? 9u : 0u), "ROOM at an exact fit");
      refusal_of(NEW_TRACED, 0, 0, 0);
      refusal_of(COLLECT, 0, 0, 0);
    }
}

void limits(void) {
  judge_part("limits");
  heap_lengths();
  root_counts();
  records();
  integers();
  code_words();
  counts();
  fields();
  exact_fit();
}
