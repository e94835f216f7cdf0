/* Document 02's Q-5, "collecting twice settles". Sound heaps are collected three times by the archive alone, and what
   the three collections leave is held against the sentences of Q-5, with no collection of the model between. Then
   two heaps of one graph, each collected once: they have one image. All these collections are judged besides. */
#include <string.h>

#include "calls.h"
#include "heaps.h"
#include "images.h"
#include "judge.h"
#include "parts.h"
#include "random.h"
#include "rearranged.h"
#include "words.h"

static struct lent left[3]; /* what the first, the second and the third collection leave, by the archive alone */
static struct said said[3]; /* what they answer */
static struct lent moved;   /* what Q-5 says that the second leaves, by the first */
static struct lent packed;  /* a heap without garbage, while it is rearranged */

/* Of the heap at hand, and of the one that it was made from. */
static struct image images[2], *image = &images[0], *other_image = &images[1];

/* ---- what was met ---- */

enum {
  FROM_A, FROM_B, SIZE_1, SIZE_2, NO_ROOTS, NOTHING_LIVE, GARBAGE, FULL_OF_LIVE, SHARED, ROUND, NO_FIELDS, RAW_ADDRESS,
  CODE_IN_ROOT, CODE_IN_FIELD, REARRANGED, OTHER_SIZE, OTHER_HALF, OTHER_ORDER, BETWEEN, JUST_FULL, OTHER_GRAPH, SORTS
};

static const char *const names_of[SORTS] = {
    [FROM_A] = "out of half A",
    [FROM_B] = "out of B",
    [SIZE_1] = "S = 1",
    [SIZE_2] = "S = 2",
    [NO_ROOTS] = "without roots",
    [NOTHING_LIVE] = "nothing live",
    [GARBAGE] = "garbage and live objects",
    [FULL_OF_LIVE] = "a half full of live objects",
    [SHARED] = "sharing",
    [ROUND] = "cycles",
    [NO_FIELDS] = "live objects of no fields",
    [RAW_ADDRESS] = "live raw words like addresses of live objects",
    [CODE_IN_ROOT] = "code words in roots",
    [CODE_IN_FIELD] = "in live fields",
    [REARRANGED] = "rearranged",
    [OTHER_SIZE] = "of another size",
    [OTHER_HALF] = "collected to the other half",
    [OTHER_ORDER] = "in another order",
    [BETWEEN] = "garbage between",
    [JUST_FULL] = "just enough words",
    [OTHER_GRAPH] = "one integer changed",
};

static uint64_t met[SORTS];

static uint32_t used_words(const struct state *s) { return s->free - first_word(s, s->half); }

/* A sound heap before it is collected, but for what only a collection tells. */
static void meet_start(const struct state *s) {
  met[s->half == 0 ? FROM_A : FROM_B]++;
  met[SIZE_1] += half_size(s) == 1;
  met[SIZE_2] += half_size(s) == 2;
  met[NO_ROOTS] += s->root_count == 0;
}

/* The first object that a traced object names; 0 if it names none. */
static uint32_t first_named(const struct state *s, uint32_t at) {
  uint32_t k, n = untraced(s->heap[at]) ? 0 : fields_of(s->heap[at]);
  for (k = 1; k <= n; k++)
    if (!plain(s->heap[at + k])) return s->heap[at + k] / 4;
  return 0;
}

/* From an object to the first that it names, and so on: as many steps as there are objects lead round. */
static int leads_round(const struct state *s, uint32_t objects) {
  uint32_t at = objects == 0 ? 0 : first_word(s, s->half), steps;
  for (steps = 0; at != 0 && steps < objects; steps++) at = first_named(s, at);
  return at != 0;
}

/* Whether a word is the address that a live object has in one half or has in the other. */
static int like_address(const struct state *s, uint32_t word) {
  uint32_t off = word / 4 - 1; /* from the first word of half A */
  return word % 4 == 0 && off < 2 * half_size(s) && off % half_size(s) < used_words(s);
}

static int any_code(const uint32_t *words, size_t n) {
  int any = 0;
  while (n-- > 0) any |= model_is_code(words[n]);
  return any;
}

static int any_like_address(const struct state *s, const uint32_t *words, size_t n) {
  int any = 0;
  while (n-- > 0) any |= like_address(s, words[n]);
  return any;
}

/* A collected heap, and the garbage words that it had before. */
static void meet_packed(const struct state *s, struct counts counts, uint32_t garbage) {
  int no_fields = 0, raw_address = 0, code = 0;
  uint32_t at, n;
  for (at = first_word(s, s->half); at < s->free; at += n + 1) {
    n = fields_of(s->heap[at]);
    no_fields |= n == 0;
    raw_address |= untraced(s->heap[at]) && any_like_address(s, s->heap + at + 1, n);
    code |= !untraced(s->heap[at]) && any_code(s->heap + at + 1, n);
  }
  met[NOTHING_LIVE] += counts.objects == 0;
  met[GARBAGE] += garbage > 0 && counts.objects > 0;
  met[FULL_OF_LIVE] += counts.live == half_size(s);
  met[SHARED] += counts.addresses > counts.objects;
  met[ROUND] += leads_round(s, counts.objects);
  met[NO_FIELDS] += no_fields;
  met[RAW_ADDRESS] += raw_address;
  met[CODE_IN_FIELD] += code;
  met[CODE_IN_ROOT] += any_code(s->roots, s->root_count);
}

/* ---- three collections ---- */

/* The judged heap and, by the archive alone, a copy of it. Answers the model's numbers. */
static struct counts collect_three_times(void) {
  struct call collect = call_of(COLLECT, 0, 0, 0);
  struct counts counts = {0, 0, 0};
  int i;
  for (i = 0; i < 3; i++) {
    lend_copy(&left[i], i == 0 ? judged() : &left[i - 1].s);
    said[i] = archive_alone(&left[i].s, &collect);
    expect(said[i].refusal == 0, "a collection of a sound heap, or of a collected one, is refused");
    expect(guards_hold(&left[i]), "a collection writes beside what it was lent");
    counts = judge_call(&collect).counts;
  }
  return counts;
}

/* "S words on or back": on if the first collection left half A. */
static uint32_t moved_place(const struct state *first, uint32_t at) {
  return first->half == 0 ? at + half_size(first) : at - half_size(first);
}

/* "each object address changed by 4S"; every other word stays. */
static uint32_t moved_word(const struct state *first, uint32_t word) {
  return plain(word) ? word : 4 * moved_place(first, word / 4);
}

static void move_object(struct state *to, const struct state *first, uint32_t at) {
  uint32_t *object = to->heap + moved_place(first, at), k;
  object[0] = first->heap[at];
  for (k = 1; k <= fields_of(object[0]); k++)
    object[k] = untraced(object[0]) ? first->heap[at + k] : moved_word(first, first->heap[at + k]);
}

/* "the first's objects in the same order". */
static void move_objects(struct state *to, const struct state *first) {
  uint32_t at;
  for (at = first_word(first, first->half); at < first->free; at += fields_of(first->heap[at]) + 1)
    move_object(to, first, at);
}

static void move_roots(struct state *to, const struct state *first) {
  size_t r;
  for (r = 0; r < first->root_count; r++) to->roots[r] = moved_word(first, first->roots[r]);
}

/* All words but those of the objects are 0. */
static void move_all(struct lent *to, const struct state *first) {
  lend(to, first->words, first->root_count);
  move_objects(&to->s, first);
  move_roots(&to->s, first);
  to->s.half = 1 - first->half;
  to->s.free = moved_place(first, first->free);
}

/* Answers whether the first collection left objects at all: else there is no image, and nothing to go on from. */
static int as_document_says(void) {
  const struct state *first = &left[0].s, *second = &left[1].s;
  expect(counts_equal(said[1].counts, said[0].counts), "a second collection tells other numbers");
  expect(counts_equal(said[2].counts, said[0].counts), "a third collection tells other numbers");
  expect(states_equal(&left[2].s, first), "a third collection does not give the first's heap, roots and record");
  if (!image_of(image, first)) return expect(0, "objects do not fill the used words of a collected heap"), 0;
  move_all(&moved, first);
  expect(second->half == moved.s.half && second->free == moved.s.free, "the record after a second collection");
  expect(memcmp(second->heap, moved.s.heap, second->words * sizeof second->heap[0]) == 0,
         "a second collection does not give the first's objects S words on or back");
  expect(memcmp(second->roots, moved.s.roots, second->root_count * sizeof second->roots[0]) == 0,
         "roots after a second collection");
  return 1;
}

/* Of the judged heap. `image` is then that of its first collection. */
static int settles(void) {
  uint32_t used = used_words(judged());
  struct counts counts;
  judge_settle();
  expect(model_sound(judged()), "a heap that is to settle is not sound");
  meet_start(judged());
  counts = collect_three_times();
  meet_packed(judged(), counts, used - counts.live);
  return as_document_says();
}

/* ---- two heaps of one graph ---- */

/* With one live integer changed, the judged heap's graph is another, and so is its image. */
static void another_graph(void) {
  struct call collect = call_of(COLLECT, 0, 0, 0);
  uint32_t *integer;
  lend_copy(&moved, judged());
  integer = live_integer(&moved.s);
  if (integer == NULL) return;
  *integer ^= 2;
  archive_alone(&moved.s, &collect);
  met[OTHER_GRAPH]++;
  expect(image_of(image, &moved.s) && !images_equal(image, other_image), "two graphs have one image");
}

/* The judged heap is collected. What the model kept is rearranged; `image` is that of what the archive left. */
static void rearranged_looks_alike(void) {
  struct image *scratch = other_image;
  struct rearranged how;
  other_image = image;
  image = scratch;
  lend_copy(&packed, judged());
  how = lend_rearranged(&packed.s);
  met[REARRANGED]++;
  met[OTHER_SIZE] += how.other_size;
  met[OTHER_ORDER] += how.other_order;
  met[BETWEEN] += how.garbage_between;
  met[JUST_FULL] += how.just_full;
  another_graph();
  if (settles()) expect(images_equal(image, other_image), "two heaps of one graph, collected, have two images");
  met[OTHER_HALF] += judged()->half != packed.s.half; /* after three collections both are where the first left them */
}

/* ---- all of it ---- */

static void one_heap(uint32_t size, size_t root_count) {
  judge_lend(2 * (size_t)size + 1, root_count);
  judged()->half = below(2);
  if (one_in(2)) sound_heap(judged());
  else stretched_heap(judged());
  if (settles()) rearranged_looks_alike();
}

static uint32_t some_size(void) {
  switch (below(5)) {
  case 0: return 1;
  case 1: return 2;
  case 2: return 3 + below(14);
  case 3: return 16 + below(64);
  default: return 80 + below(320);
  }
}

static size_t some_roots(void) { return one_in(5) ? 0 : one_in(12) ? below(200) : 1 + below(8); }

static void show_met(uint64_t least) {
  struct counted each[SORTS];
  uint32_t i;
  for (i = 0; i < SORTS; i++) {
    each[i].name = names_of[i];
    each[i].met = &met[i];
  }
  judge_met("heaps that settle", each, SORTS, least);
}

/* A hundred more, so that a few heaps meet each sort too. */
void settling(uint32_t heaps) {
  uint32_t i;
  judge_part("collecting twice settles");
  for (i = 0; i < heaps + 100; i++) one_heap(some_size(), some_roots());
  for (i = 0; i < 4; i++) one_heap(20000 + below(60000), 1 + below(300));
  if (heaps > 1000) one_heap(1048576, 30);
  show_met(heaps / 8);
}
