/* Random trials: a heap, sound or not, and a list of calls on it, judged one by one. */
#include "calls.h"
#include "heaps.h"
#include "judge.h"
#include "parts.h"
#include "random.h"
#include "samples.h"
#include "tuples.h"

static uint32_t some_size(void) {
  switch (below(5)) {
  case 0: return 1 + below(3);
  case 1: return 4 + below(12);
  case 2: return 8;
  case 3: return 16 + below(64);
  default: return 80 + below(320);
  }
}

static size_t some_roots(void) { return one_in(12) ? below(40) : below(9); }

/* Lengths that are refused, records outside the half: every call but fresh and word must say SHAPE. */
static void badly_shaped(void) {
  static const size_t lengths[] = {0, 1, 2, 4, 6, 16, 18};
  judge_lend(lengths[below(7)], some_roots());
  noise(judged());
}

static void lend_tuples(void) {
  uint32_t size = one_in(4) ? some_size() : 100 + below(300);
  judge_lend(2 * (size_t)size + 1, some_roots());
  tuple_heap(judged());
  if (one_in(6)) damage(judged());
}

void lend_some_heap(void) {
  uint32_t kind = below(16);
  if (kind == 0) {
    badly_shaped();
    return;
  }
  judge_lend(2 * (size_t)some_size() + 1, some_roots());
  if (kind == 1) noise(judged());
  if (kind > 3) sound_heap(judged());
  if (kind > 12) damage(judged());
}

/* Texts are asked for at once, before other calls have cut the values short. */
static void write_some(void) {
  uint32_t i, n = 10 + below(20);
  for (i = 0; i < n; i++) {
    struct call c = write_call(judged());
    judge_call(&c);
  }
}

/* Half of the trials are never disturbed, so that sessions grow old on sound heaps. */
static void trial(void) {
  uint32_t i, n = 20 + below(100);
  int disturbed = one_in(2), tuples = one_in(4);
  if (tuples) lend_tuples();
  else lend_some_heap();
  judge_settle();
  if (tuples) write_some();
  for (i = 0; i < n; i++) {
    struct call c = random_call(judged());
    judge_call(&c);
    if (!disturbed || !one_in(12)) continue;
    damage(judged());
    judge_settle();
  }
}

void random_trials(uint64_t calls) {
  uint64_t end = judge_calls() + calls;
  judge_part("random trials");
  while (judge_calls() < end) trial();
}

/* One heap for thousands of calls: no fresh, so that it stays sound and grows old. */
static void long_session(uint32_t calls) {
  judge_lend(2 * (size_t)(20 + below(200)) + 1, 3 + below(6));
  while (calls-- > 0) {
    struct call c = random_call(judged());
    if (c.op != FRESH) judge_call(&c);
  }
  expect(model_sound(judged()), "a long session ends with an unsound heap");
}

void long_sessions(uint64_t calls) {
  uint64_t end = judge_calls() + calls;
  judge_part("long sessions");
  while (judge_calls() < end) long_session(10000);
}

/* A large heap is slow to compare, so the calls are few and each one counts. */
static void large_trial(void) {
  static const enum op ops[] = {CHECK, COLLECT, CHECK, NEW_TRACED, COLLECT};
  uint32_t i;
  judge_lend(2097153, 4 + below(8));
  sound_heap(judged());
  if (one_in(3)) damage(judged());
  judge_settle();
  for (i = 0; i < 5; i++) {
    struct call c = call_of(ops[i], 0, below(1048576), 0);
    judge_call(&c);
  }
  for (i = 0; i < 8; i++) {
    struct call c = random_call(judged());
    judge_call(&c);
  }
}

void largest_heaps(uint32_t trials) {
  judge_part("the largest heaps");
  while (trials-- > 0) large_trial();
}
