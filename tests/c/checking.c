/* Sound heaps of every size with one word changed, checked and changed back: words that are almost a value, by document
   01's "The value of a word" and document 02's code words; words that must be 0 and are not; headers. After each check
   every word and root is compared. Then all heaps of one and of two words a half, over a few words. */
#include "calls.h"
#include "heaps.h"
#include "judge.h"
#include "parts.h"
#include "random.h"

/* ---- words that are almost a value ---- */

enum almost {
  OFF_BACK_33, OFF_BACK_32, OFF_BACK_31, OFF_BACK_1, OFF_1, OFF_31, OFF_32, OFF_33, OFF_POWER, AT_FREE, UNUSED,
  BEFORE_FIRST, BELOW_FIRST, OTHER_HALF, SAME_PLACE, BEYOND, FAR_BEYOND, NOT_A_MULTIPLE, HIGH_BITS, BELOW_FLOOR,
  AN_INTEGER, A_NULL, SORTS
};

/* By the documents; LOOK where it hangs on what stands at the address. */
enum verdict { DAMAGED_HEAP, SOUND_HEAP, LOOK };

static const struct {
  const char *name;
  int32_t off; /* words off a header */
  enum verdict verdict;
} sorts[SORTS] = {
    [OFF_BACK_33] = {"33 words before a header", -33, LOOK},
    [OFF_BACK_32] = {"32", -32, LOOK},
    [OFF_BACK_31] = {"31", -31, LOOK},
    [OFF_BACK_1] = {"1", -1, LOOK},
    [OFF_1] = {"1 after it", 1, LOOK},
    [OFF_31] = {"31", 31, LOOK},
    [OFF_32] = {"32", 32, LOOK},
    [OFF_33] = {"33", 33, LOOK},
    [OFF_POWER] = {"a power of two off", 0, LOOK},
    [AT_FREE] = {"the free index", 0, DAMAGED_HEAP},
    [UNUSED] = {"a word past it", 0, DAMAGED_HEAP},
    [BEFORE_FIRST] = {"the word before the half", 0, LOOK},
    [BELOW_FIRST] = {"one below the half", 0, LOOK},
    [OTHER_HALF] = {"the other half", 0, DAMAGED_HEAP},
    [SAME_PLACE] = {"a header's place there", 0, DAMAGED_HEAP},
    [BEYOND] = {"just beyond the heap", 0, DAMAGED_HEAP},
    [FAR_BEYOND] = {"far beyond it", 0, DAMAGED_HEAP},
    [NOT_A_MULTIPLE] = {"an address and 2", 0, DAMAGED_HEAP},
    [HIGH_BITS] = {"an address in a code word", 0, SOUND_HEAP},
    [BELOW_FLOOR] = {"just below the floor", 0, DAMAGED_HEAP},
    [AN_INTEGER] = {"an address and 1", 0, SOUND_HEAP},
    [A_NULL] = {"null", 0, SOUND_HEAP},
};

static uint64_t met[SORTS]; /* in roots and in fields of traced objects */

/* What a heap has: the indexes of its headers, of its fields and of its raw words. */
static uint32_t headers[100001], fields[100001], raws[100001];
static uint32_t header_count, field_count, raw_count;

static uint32_t half_of(const struct state *s) { return (uint32_t)((s->words - 1) / 2); }
static uint32_t first_of(const struct state *s, uint32_t half) { return half == 0 ? 1 : half_of(s) + 1; }

static void look_over(const struct state *s) {
  uint32_t at, k, n;
  header_count = field_count = raw_count = 0;
  for (at = first_of(s, s->half); at < s->free; at += n + 1) {
    n = (s->heap[at] & 0x7fffffffu) / 2;
    headers[header_count++] = at;
    for (k = 1; k <= n; k++)
      if (s->heap[at] >> 31) raws[raw_count++] = at + k;
      else fields[field_count++] = at + k;
  }
}

static uint32_t some_header(const struct state *s) {
  if (header_count == 0) return first_of(s, s->half);
  return headers[one_in(8) ? 0 : one_in(8) ? header_count - 1 : below(header_count)];
}

/* An index that a word of a sort is the address of. */
static int64_t index_of(const struct state *s, enum almost sort) {
  uint32_t header = some_header(s), first = first_of(s, s->half), other = first_of(s, 1 - s->half), size = half_of(s);
  switch (sort) {
  case OFF_POWER: return (int64_t)header + (one_in(2) ? 1 : -1) * (int64_t)(1u << below(18));
  case AT_FREE: return s->free;
  case UNUSED: return s->free + below(first + size - s->free);
  case BEFORE_FIRST: return first - 1;
  case BELOW_FIRST: return below(first);
  case OTHER_HALF: return other + below(size);
  case SAME_PLACE: return (int64_t)header - first + other;
  case BEYOND: return (int64_t)s->words + below(70);
  case FAR_BEYOND: return (int64_t)s->words + below(4194304 - (uint32_t)s->words);
  default: return (int64_t)header + sorts[sort].off;
  }
}

/* Answers whether there is one: an index may lie below the heap, or be that of code words. */
static int word_of(const struct state *s, enum almost sort, uint32_t *word) {
  int64_t index = index_of(s, sort);
  if (index < 0 || index >= 4194304) return 0;
  *word = 4 * (uint32_t)index;
  if (sort == NOT_A_MULTIPLE) *word += 2;
  if (sort == AN_INTEGER) *word += 1;
  if (sort == HIGH_BITS) *word += 16777216 * (1 + below(255)) + 2 * below(2);
  if (sort == BELOW_FLOOR) *word = 16777216 - 2 * (1 + below(3));
  if (sort == A_NULL) *word = 0;
  return 1;
}

/* ---- checked with a word changed ---- */

enum { ANY = 2 }; /* a verdict that is the model's alone */

static void checked_with(uint32_t *place, uint32_t word, uint32_t sound) {
  struct call check = call_of(CHECK, 0, 0, 0);
  uint32_t was = *place;
  *place = word;
  judge_settle();
  expect((judge_call(&check).value == sound || sound == ANY), "check by what the documents say of a word");
  *place = was;
}

static void try_sort(enum almost sort) {
  struct state *s = judged();
  uint32_t word, in_root = field_count == 0 || one_in(3), in_raw = raw_count > 0 && one_in(8);
  enum verdict verdict = sorts[sort].verdict;
  if ((in_root && s->root_count == 0) || !word_of(s, sort, &word)) return;
  if (in_raw) {
    checked_with(&s->heap[raws[below(raw_count)]], word, 1);
    return;
  }
  met[sort]++;
  checked_with(in_root ? &s->roots[below((uint32_t)s->root_count)] : &s->heap[fields[below(field_count)]], word,
               verdict == LOOK ? ANY : verdict == SOUND_HEAP);
}

/* An odd header, one of another kind, or of a count that is off by a little or by much. */
static void try_header(void) {
  struct state *s = judged();
  uint32_t *header;
  if (header_count == 0) return;
  header = &s->heap[some_header(s)];
  checked_with(header, *header | 1, 0);
  checked_with(header, *header ^ 0x80000000u, ANY);
  checked_with(header, *header + 2 + 2 * below(40), ANY);
  checked_with(header, *header - 2 - 2 * below(40), ANY);
  checked_with(header, *header ^ 2u << below(30), ANY);
}

static void lend_stretched(uint32_t size, uint32_t half, uint32_t roots) {
  judge_lend(2 * (size_t)size + 1, roots);
  judged()->half = half;
  stretched_heap(judged());
  look_over(judged());
  checked_with(&judged()->heap[0], 0, 1);
}

/* Some words of each sort; at the end a collection, which must see what a check sees. */
static void try_words(uint32_t size, uint32_t half, uint32_t words) {
  struct call collect = call_of(COLLECT, 0, 0, 0);
  uint32_t i, word;
  lend_stretched(size, half, one_in(12) ? below(300) : below(12));
  for (i = 0; i < words; i++) try_sort(below(SORTS));
  try_header();
  if (judged()->root_count > 0 && one_in(2) && word_of(judged(), below(SORTS), &word)) judged()->roots[0] = word;
  judge_settle();
  judge_call(&collect);
}

/* ---- words that must be 0 ---- */

static uint64_t idle_words, unused_words;

static void nonzero_at(uint32_t at) { checked_with(&judged()->heap[at], one_in(2) ? 1 : 1u << below(32), 0); }

/* Each word of the idle half, each past the free index, and word 0. */
static void try_each_zero(uint32_t size, uint32_t half) {
  struct state *s = judged();
  uint32_t i, other, end;
  lend_stretched(size, half, below(4));
  other = first_of(s, 1 - half);
  end = first_of(s, half) + size;
  for (i = other; i < other + size; i++, idle_words++) nonzero_at(i);
  for (i = s->free; i < end; i++, unused_words++) nonzero_at(i);
  nonzero_at(0);
}

/* ---- all heaps of one and of two words a half ---- */

static uint64_t whole_heaps;

/* The heap of a number, whose digits are letters: the first is the root's, then come the words from 1 on. */
static void spell_heap(uint64_t number, const uint32_t *alphabet, uint32_t letters) {
  struct state *s = judged();
  size_t at;
  s->heap[0] = 0;
  s->roots[0] = alphabet[number % letters];
  for (at = 1; at < s->words; at++) s->heap[at] = alphabet[(number /= letters) % letters];
}

/* With each half and each free index. One heap in `share` is taken. */
static void all_heaps(uint32_t size, const uint32_t *alphabet, uint32_t letters, uint32_t share) {
  struct call check = call_of(CHECK, 0, 0, 0), collect = call_of(COLLECT, 0, 0, 0);
  uint64_t number, numbers = letters;
  uint32_t i, record;
  judge_lend(2 * (size_t)size + 1, 1);
  for (i = 0; i < 2 * size; i++) numbers *= letters;
  for (number = 0; number < numbers; number++)
    for (record = 0; record < 2 * (size + 1); record++) {
      if (!one_in(share)) continue;
      spell_heap(number, alphabet, letters);
      judged()->half = record % 2;
      judged()->free = first_of(judged(), record % 2) + record / 2;
      judge_settle();
      whole_heaps++;
      if (judge_call(&check).value == 1) expect(judge_call(&collect).refusal == 0, "a sound heap is not collected");
    }
}

static void smallest_heaps(uint32_t share) {
  static const uint32_t one[] = {0,  1,  2,          3,          4,        5,        6,        8,        10,        12,
                                 16, 20, 0x80000000, 0x80000002, 16777212, 16777214, 16777216, 16777220, 4294967294};
  static const uint32_t two[] = {0, 1, 2, 4, 8, 12, 16, 0x80000002, 16777224};
  all_heaps(1, one, sizeof one / sizeof one[0], share);
  all_heaps(2, two, sizeof two / sizeof two[0], share);
}

/* ---- all of it ---- */

static void show_met(uint64_t least) {
  struct counted each[SORTS + 3];
  uint32_t i;
  for (i = 0; i < SORTS; i++) {
    each[i].name = sorts[i].name;
    each[i].met = &met[i];
  }
  each[i].name = "idle words not 0";
  each[i++].met = &idle_words;
  each[i].name = "unused words not 0";
  each[i++].met = &unused_words;
  each[i].name = "heaps of S = 1 and 2";
  each[i++].met = &whole_heaps;
  judge_met("check of addresses", each, i, least);
}

/* Every S to 200, then some of thousands, so that marks, runs and blocks of words end at every place. */
void checking(uint32_t words) {
  uint32_t size, half, i;
  judge_part("checks, one word changed");
  for (size = 1; size <= 200; size++)
    for (half = 0; half < 2; half++) try_words(size, half, words);
  for (i = 0; i < 2 * words; i++) try_words(200 + below(one_in(4) ? 8000 : 1200), below(2), 40);
  for (i = 0; i < 4; i++) try_words(20000 + below(60000), i % 2, words);
  judge_part("checks, words that must be 0");
  for (size = 1; size <= 200; size += words > 50 || size < 4 ? 1 : 30)
    for (half = 0; half < 2; half++) try_each_zero(size, half);
  judge_part("checks, all the smallest heaps");
  smallest_heaps(words > 50 ? 1 : 40);
  show_met(10 * (words - 1));
}
