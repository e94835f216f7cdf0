/* The judge: both sides of a call, the totals, and the smallest case that differed. */
#include "judge.h"

#include <inttypes.h>
#include <stdio.h>

#include "archive.h"
#include "show.h"

static struct lent ours, theirs, before; /* the model's side, the archive's, and the state before the last call */
static const char *part = "";
static uint64_t calls, checks, differences, collections;
static size_t smallest = (size_t)-1; /* heap words and roots of the smallest case shown so far */
static int through_struct;

enum { REFUSALS = 13 };
static uint64_t met[REFUSALS]; /* answers by refusal, 0 for none: a run that never meets one tests less than it seems */
static uint64_t met_by[OPS][REFUSALS];      /* the same for each call */
static uint64_t met_on_code[OPS][REFUSALS]; /* of these, where the object's root holds a code word */
static uint64_t met_at_end[REFUSALS];       /* refusals of write at the place where the bytes run out as well */
static uint64_t read_collected;             /* texts that were read after a collection */
static uint64_t live_objects, shared_objects; /* collections that tell of some */

void judge_part(const char *name) {
  part = name;
  printf("check-c: %s\n", name);
  fflush(stdout);
}

void judge_lend(size_t words, size_t root_count) {
  lend(&ours, words, root_count);
  lend(&theirs, words, root_count);
  lend(&before, words, root_count);
}

struct state *judged(void) { return &ours.s; }

void judge_settle(void) { copy_lent(&theirs, &ours); }

uint64_t judge_calls(void) { return calls; }

int counts_equal(struct counts a, struct counts b) {
  return a.live == b.live && a.objects == b.objects && a.addresses == b.addresses;
}

int said_equal(struct said a, struct said b) {
  return a.refusal == b.refusal && a.value == b.value && a.kind == b.kind && a.integer == b.integer &&
         a.count == b.count && a.first == b.first && a.code == b.code && a.length == b.length &&
         counts_equal(a.counts, b.counts);
}

/* Cases get smaller as the run goes on; only those smaller than all before are printed. */
static void show_case(const struct call *c, struct said model, struct said archive) {
  size_t size = before.s.words + before.s.root_count;
  differences++;
  if (size >= smallest) return;
  smallest = size;
  printf("difference in %s:\n", part);
  show_state("before ", &before.s);
  show_call(c);
  show_said("model  ", model, &ours.s);
  show_said("archive", archive, &theirs.s);
  show_first_difference(&ours.s, &theirs.s);
  show_bytes(&ours, &theirs);
  if (!guards_hold(&theirs)) printf("  a guard word was changed\n");
}

struct said archive_alone(struct state *s, const struct call *c) {
  calls++;
  through_struct = !through_struct;
  return archive_call(s, c, through_struct);
}

static void count_answer(const struct call *c, uint32_t refusal) {
  met[refusal]++;
  met_by[c->op][refusal]++;
  if (c->a < before.s.root_count && model_is_code(before.s.roots[c->a])) met_on_code[c->op][refusal]++;
  if (c->op == WRITE) met_at_end[refusal] += text_of_root(&before.s, c->a, c->b).at == c->b;
}

static void count_collection(struct counts c) {
  live_objects += c.objects > 0;
  shared_objects += c.addresses > c.objects;
}

struct said judge_call(const struct call *c) {
  struct said model, archive;
  copy_lent(&before, &ours);
  lend_bytes(&ours, c);
  lend_bytes(&theirs, c);
  model = model_call(&ours.s, c);
  count_answer(c, model.refusal);
  count_collection(model.counts); /* all 0 if it is none */
  collections += c->op != FRESH && ours.s.half != before.s.half;
  read_collected += c->op == READ && model.refusal == 0 && ours.s.half != before.s.half;
  archive = archive_alone(&theirs.s, c);
  checks++;
  if (said_equal(model, archive) && states_equal(&ours.s, &theirs.s) && bytes_equal(&ours, &theirs) &&
      guards_hold(&theirs))
    return model;
  show_case(c, model, archive);
  lend(&theirs, ours.s.words, ours.s.root_count); /* go on from the model's state, with whole guards */
  copy_lent(&theirs, &ours);
  return model;
}

void expect(int ok, const char *wrong) {
  checks++;
  if (ok) return;
  if (differences++ < 20) printf("difference in %s: %s\n", part, wrong);
}

static void show_met(void) {
  int i;
  printf("check-c: %" PRIu64 " collections; done %" PRIu64 ", refusals 1 to 12:", collections, met[0]);
  for (i = 1; i < REFUSALS; i++) {
    printf(" %" PRIu64, met[i]);
    expect(met[i] > 0, "a refusal was never met");
  }
  printf("\n");
}

void judge_met(const char *of, const struct counted *each, size_t count, uint64_t least) {
  size_t i;
  printf("check-c: %s, each at least %" PRIu64, of, least);
  for (i = 0; i < count; i++) {
    printf("%s %s %" PRIu64, i == 0 ? ":" : ",", each[i].name, *each[i].met);
    expect(*each[i].met >= least, "something was met too seldom");
  }
  printf("\n");
}

/* The refusals that came with code words or that a code word must still meet. */
static void show_met_of_code(uint64_t least) {
  static const struct counted each[] = {{"set_code SHAPE", &met_by[SET_CODE][1]},
                                        {"set_code ROOT", &met_by[SET_CODE][2]},
                                        {"set_code RANGE", &met_by[SET_CODE][4]},
                                        {"inspect OBJECT", &met_by[INSPECT][5]},
                                        {"load on code OBJECT", &met_on_code[LOAD][5]},
                                        {"store on code OBJECT", &met_on_code[STORE][5]},
                                        {"raw_read on code OBJECT", &met_on_code[RAW_READ][5]},
                                        {"raw_write on code OBJECT", &met_on_code[RAW_WRITE][5]},
                                        {"open on code OBJECT", &met_on_code[OPEN][5]}};
  judge_met("code words", each, sizeof each / sizeof each[0], least);
}

/* What collect can say: its numbers tell little of heaps where nothing is live, or nothing shared. */
static void show_met_of_collect(uint64_t least) {
  static const struct counted each[] = {{"done", &met_by[COLLECT][0]},
                                        {"with objects", &live_objects},
                                        {"with shared ones", &shared_objects},
                                        {"SHAPE", &met_by[COLLECT][1]},
                                        {"DAMAGED", &met_by[COLLECT][8]}};
  judge_met("collect", each, sizeof each / sizeof each[0], least);
}

/* What write and read can say; and each fault of a value that stands where the bytes run out too, and must come
   first. */
static void show_met_of_texts(uint64_t least) {
  static const struct counted each[] = {{"write done", &met_by[WRITE][0]},
                                        {"SHAPE", &met_by[WRITE][1]},
                                        {"ROOT", &met_by[WRITE][2]},
                                        {"OBJECT", &met_by[WRITE][5]},
                                        {"VALUE", &met_by[WRITE][10]},
                                        {"DEEP", &met_by[WRITE][11]},
                                        {"TEXT", &met_by[WRITE][12]},
                                        {"done in just enough bytes", &met_at_end[0]},
                                        {"OBJECT at the last byte's end", &met_at_end[5]},
                                        {"VALUE there", &met_at_end[10]},
                                        {"DEEP there", &met_at_end[11]},
                                        {"read done", &met_by[READ][0]},
                                        {"done after a collection", &read_collected},
                                        {"SHAPE", &met_by[READ][1]},
                                        {"ROOT", &met_by[READ][2]},
                                        {"VALUE", &met_by[READ][10]},
                                        {"DEEP", &met_by[READ][11]},
                                        {"DAMAGED", &met_by[READ][8]},
                                        {"ROOM", &met_by[READ][9]}};
  judge_met("texts", each, sizeof each / sizeof each[0], least);
}

int judge_verdict(uint64_t seed, uint64_t least) {
  show_met();
  show_met_of_collect(least);
  show_met_of_code(least);
  show_met_of_texts(least);
  printf("check-c: %" PRIu64 " calls, %" PRIu64 " checks, %" PRIu64 " differences (seed %" PRIu64 ")\n", calls, checks,
         differences, seed);
  return differences != 0;
}
