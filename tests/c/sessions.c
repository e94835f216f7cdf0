/* Demand 3: one list of calls gives the object graph's answers at every heap size, up to "no room" and past it; and a
   collection between any two calls changes no answer. */
#include <string.h>

#include "calls.h"
#include "codes.h"
#include "grammar.h"
#include "graph.h"
#include "judge.h"
#include "parts.h"
#include "random.h"

#define LONGEST_LIST 160
#define LARGE 4000
#define MOST_BYTES 200 /* lent for a text */

static struct call list[LONGEST_LIST];
static struct said unlimited[LONGEST_LIST]; /* the graph's answers with no limit, and the bytes that it leaves */
static char unlimited_bytes[LONGEST_LIST][MOST_BYTES];
static char texts[LONGEST_LIST][MOST_BYTES]; /* what its calls read */
static uint32_t length;
static size_t root_count;

/* ---- lists ---- */

static size_t object_root(int raw) {
  size_t r = below((uint32_t)root_count);
  int tries;
  for (tries = 0; tries < 6; tries++, r = below((uint32_t)root_count)) {
    struct said held = graph_holds(r);
    if (held.kind == (raw ? 3u : 2u) && held.count > 0) return r;
  }
  return r;
}

static enum op session_op(void) {
  static const enum op ops[] = {NEW_TRACED, NEW_TRACED, NEW_TRACED, NEW_UNTRACED, STORE,   STORE,    STORE,
                                LOAD,       LOAD,       RAW_WRITE,  RAW_READ,     COPY,    SET_NULL, SET_INTEGER,
                                INSPECT,    SAME,       COLLECT,    CHECK,        INSPECT, LOAD,     SET_CODE,
                                SET_CODE,   WRITE,      WRITE,      READ,         READ};
  return ops[below(sizeof ops / sizeof ops[0])];
}

static void read_some(struct call *c, char *text) {
  c->text = text;
  c->b = random_text(text, MOST_BYTES - 1, below(8));
  if (one_in(6)) c->b = broken_text(text, c->b);
}

/* Now and then one that looks like an address: a collection must neither follow nor count it. */
static uint32_t raw_number(void) { return one_in(3) ? 4 * below(100) : (uint32_t)random_bits(); }

/* One call in twenty names a bad root, kind or field: refusals are answers too. `text` is kept for what it reads. */
static struct call session_call(char *text) {
  struct call c = call_of(session_op(), below((uint32_t)root_count), below(5), below((uint32_t)root_count));
  int raw = c.op == RAW_READ || c.op == RAW_WRITE;
  if (c.op == LOAD || c.op == STORE || raw) {
    c.a = object_root(raw);
    c.b = below(graph_holds(c.a).count);
  }
  c.integer = one_in(10) ? 1073741824 : (int64_t)below(2000) - 1000;
  c.number = c.op == SET_CODE ? asked_code() : raw_number();
  if (one_in(20)) c.a = below((uint32_t)root_count + 2);
  if (one_in(20)) c.b = one_in(2) && c.op != LOAD ? 1073741824 : below(8);
  if (c.op == WRITE) c.b = one_in(2) ? below(MOST_BYTES) : below(20);
  if (c.op == READ) read_some(&c, text);
  return c;
}

static void make_list(void) {
  uint32_t i;
  root_count = 1 + below(6);
  length = 20 + below(LONGEST_LIST - 20);
  graph_start(root_count, GRAPH_NO_LIMIT);
  for (i = 0; i < length; i++) {
    list[i] = session_call(texts[i]);
    unlimited[i] = graph_call(&list[i]);
    memcpy(unlimited_bytes[i], graph_bytes(), MOST_BYTES);
  }
}

/* ---- one list at one size ---- */

static void begin(uint32_t half) {
  struct call fresh = call_of(FRESH, 0, 0, 0);
  judge_lend(2 * (size_t)half + 1, root_count);
  memset(judged()->heap, 0x5a, judged()->words * sizeof judged()->heap[0]); /* fresh takes any words */
  judge_settle();
  judge_call(&fresh);
  graph_start(root_count, half);
}

/* The answer to a call and the bytes that it leaves are those of a graph. */
static int as_graph(const struct call *c, struct said said, struct said graph_said, const char *bytes) {
  return said_equal(said, graph_said) && (c->op != WRITE || memcmp(judged()->text, bytes, c->b) == 0);
}

/* Every answer is the graph's at this size, and until the first "no room" the unlimited graph's. Returns if it came. */
static int run_at(uint32_t half, int collect_between) {
  struct call collect = call_of(COLLECT, 0, 0, 0);
  int no_room = 0;
  uint32_t i;
  begin(half);
  for (i = 0; i < length; i++) {
    struct said said = judge_call(&list[i]);
    expect(as_graph(&list[i], said, graph_call(&list[i]), graph_bytes()), "an answer is not the graph's at this size");
    no_room |= said.refusal == 9;
    if (!no_room) expect(as_graph(&list[i], said, unlimited[i], unlimited_bytes[i]), "an answer differs with the size");
    if (!collect_between) continue;
    expect(said_equal(judge_call(&collect), graph_call(&collect)), "a collection between does not answer as the graph");
  }
  return no_room;
}

static void one_list(void) {
  uint32_t half = 1;
  make_list();
  expect(!run_at(LARGE, 0), "a large heap has no room");
  while (run_at(half, 0)) {
    run_at(half, 1);
    half++;
  }
  expect(!run_at(half, 1), "no room, though there was room without collections between");
}

void sessions(uint32_t lists) {
  judge_part("sessions at every size");
  while (lists-- > 0) one_list();
}
