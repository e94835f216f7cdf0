/* The check of (b), as fast as plain C makes it: one bit a word, and no jump that hangs on what a word holds. In this
   order: words, zeros, marks, words in a row, fields of one object, fields of all, the check.

   Bit i % 32 of word i / 32 of the idle half is the mark of the heap's word i. Marked are the headers, and word 0, so
   that null needs no test of its own. Words below the half's first are never marked, nor is the one at the free index.
   Marks are the words 0 to free / 32 of the idle half, which every half has: free is at most 2S + 1. */
#include "baseline.h"
#include "rules.h"

/* ---- words ---- */

static IN_PLACE size_t sooner(size_t at, size_t n, size_t end) { return end - at < n ? end : at + n; }

/* Bit 0 of the answer: whether a word is odd, null, a code word or the address of a marked word. The other bits are
   anything. From the odd word before the floor up all words are values: they count as that one. Turned right by two
   bits, a multiple of 4 is its index, and any other word is larger than every index; at `free` stands no mark. */
static IN_PLACE uint32_t value(const uint32_t *marks, uint32_t word, uint32_t free) {
  uint32_t capped = word < CODE_FLOOR - 1 ? word : CODE_FLOOR - 1;
  uint32_t turned = capped / 4 + capped % 4 * 1073741824u, i = turned < free ? turned : free;
  return marks[i / 32] >> i % 32 | capped;
}

/* ---- zeros ---- */

static IN_PLACE uint32_t any_bit(const uint32_t *word, size_t n) {
  uint32_t bits = 0;
  size_t i;
  for (i = 0; i < n; i++) bits |= word[i];
  return bits;
}

/* 64 words a turn, one test a turn. */
static int all_zero(const uint32_t *word, size_t n) {
  for (; n >= 64; n -= 64, word += 64)
    if (any_bit(word, 64)) return 0;
  return any_bit(word, n) == 0;
}

/* ---- marks ---- */

/* Where a pass stands, and how many runs of equal headers it met. */
struct step {
  size_t at, runs;
};

/* Headers equal to the first: the next index does not wait for them. A mark word is loaded once. */
static IN_PLACE size_t mark_alike(const uint32_t *heap, size_t at, size_t end, uint32_t *marks) {
  uint32_t header = heap[at], word = marks[at / 32];
  size_t last = at / 32, size = count_of(header) + 1;
  while (at < end && heap[at] == header) {
    size_t k = at / 32;
    word = (k == last ? word : 0) | 1u << at % 32;
    marks[k] = word;
    last = k;
    at += size;
  }
  return at;
}

static IN_PLACE struct step mark_runs(const uint32_t *heap, size_t at, size_t end, uint32_t *marks) {
  struct step s = {at, 0};
  for (; s.at < end && heap[s.at] % 2 == 0; s.runs++) s.at = mark_alike(heap, s.at, end, marks);
  return s;
}

static IN_PLACE size_t mark_each(const uint32_t *heap, size_t at, size_t end, uint32_t *marks) {
  while (at < end) {
    uint32_t header = heap[at];
    if (header % 2 == 1) return at;
    marks[at / 32] |= 1u << at % 32;
    at += count_of(header) + 1;
  }
  return at;
}

/* More runs than this in so many words do not pay, and the words after them go one by one. */
enum { BLOCK = 256, MOST_RUNS = 12, ONE_BY_ONE = 4096 };

/* Answers the free index exactly if objects tile the used part. */
static IN_PLACE size_t mark_headers(const uint32_t *heap, size_t at, size_t free, uint32_t *marks) {
  if (free - at < BLOCK) return mark_each(heap, at, free, marks);
  while (at < free) {
    size_t end = sooner(at, BLOCK, free);
    struct step s = mark_runs(heap, at, end, marks);
    at = s.at;
    if (at < end) return at;
    if (s.runs <= MOST_RUNS || at >= free) continue;
    end = sooner(at, ONE_BY_ONE, free);
    at = mark_each(heap, at, end, marks);
    if (at < end) return at;
  }
  return at;
}

/* ---- words in a row: bit 0 says whether all are values ---- */

static IN_PLACE uint32_t four_values(const uint32_t *word, const uint32_t *marks, uint32_t free) {
  return value(marks, word[0], free) & value(marks, word[1], free) & value(marks, word[2], free) &
         value(marks, word[3], free);
}

/* Up to a few hundred words; a function of its own, since it has many callers. */
static uint32_t values(const uint32_t *word, size_t n, const uint32_t *marks, uint32_t free) {
  uint32_t all = 1;
  for (; n >= 4; n -= 4, word += 4) all &= four_values(word, marks, free);
  for (; n > 0; n--, word++) all &= value(marks, *word, free);
  return all;
}

/* 0 if each word is odd or null. */
static IN_PLACE uint32_t even_bits(const uint32_t *word, size_t n) {
  uint32_t bits = 0;
  size_t i;
  for (i = 0; i < n; i++) bits |= word[i] % 2 == 1 ? 0 : word[i];
  return bits;
}

/* 64 words that are odd or null need no mark. */
static IN_PLACE uint32_t many_values(const uint32_t *word, size_t n, const uint32_t *marks, uint32_t free) {
  uint32_t all = 1;
  for (; n >= 64; n -= 64, word += 64)
    if (even_bits(word, 64)) all &= values(word, 64, marks, free);
  return all & values(word, n, marks, free);
}

/* ---- the fields of one object ---- */

/* Up to four, where the number is foreseen. */
static IN_PLACE uint32_t few_fields(const uint32_t *field, size_t n, const uint32_t *marks, uint32_t free) {
  uint32_t all;
  if (n == 0) return 1;
  all = value(marks, field[0], free);
  if (n == 1) return all;
  all &= value(marks, field[1], free);
  if (n == 2) return all;
  all &= value(marks, field[2], free);
  if (n == 3) return all;
  return all & value(marks, field[3], free);
}

/* Up to four, where it is not: four words are judged, and those past n let through. */
static IN_PLACE uint32_t masked_fields(const uint32_t *field, size_t n, const uint32_t *marks, uint32_t free) {
  uint32_t past = 15u << n;
  return (value(marks, field[0], free) | past) & (value(marks, field[1], free) | past / 2) &
         (value(marks, field[2], free) | past / 4) & (value(marks, field[3], free) | past / 8);
}

/* More than four: of up to eight the first four and the last four. */
static IN_PLACE uint32_t more_fields(const uint32_t *field, size_t n, const uint32_t *marks, uint32_t free) {
  if (n > 8) return many_values(field, n, marks, free);
  return four_values(field, marks, free) & four_values(field + n - 4, marks, free);
}

/* ---- the fields of all objects: `all` has in bit 0 whether those passed so far are values ---- */

struct walk {
  size_t at, runs;
  uint32_t all;
};

/* Traced objects of two fields, one after the other. */
static IN_PLACE void pairs(struct walk *w, const uint32_t *heap, size_t end, const uint32_t *marks, uint32_t free) {
  for (; w->at < end && heap[w->at] == 4; w->at += 3)
    w->all &= value(marks, heap[w->at + 1], free) & value(marks, heap[w->at + 2], free);
}

/* The same of up to four fields. */
static IN_PLACE void alike(struct walk *w, const uint32_t *heap, size_t end, const uint32_t *marks, uint32_t free) {
  uint32_t header = heap[w->at];
  size_t n = count_of(header);
  for (; w->at < end && heap[w->at] == header; w->at += n + 1)
    w->all &= few_fields(heap + w->at + 1, n, marks, free);
}

static IN_PLACE void one_run(struct walk *w, const uint32_t *heap, size_t end, const uint32_t *marks, uint32_t free) {
  uint32_t header = heap[w->at];
  size_t n = count_of(header);
  if (header == 4) pairs(w, heap, end, marks, free);
  else if (header <= 8) alike(w, heap, end, marks, free);
  else {
    if (!(header >> 31)) w->all &= more_fields(heap + w->at + 1, n, marks, free);
    w->at += n + 1;
  }
}

/* Objects that begin before `end`. */
static IN_PLACE void by_runs(struct walk *w, const uint32_t *heap, size_t end, const uint32_t *marks, uint32_t free) {
  for (w->runs = 0; w->at < end; w->runs++) one_run(w, heap, end, marks, free);
}

static IN_PLACE uint32_t by_mask(const uint32_t *heap, size_t at, const uint32_t *marks, uint32_t free) {
  uint32_t header = heap[at];
  size_t n = count_of(header);
  if (n <= 4 && at + 4 < free) return masked_fields(heap + at + 1, header >> 31 ? 0 : n, marks, free);
  if (header >> 31) return 1;
  return n <= 4 ? few_fields(heap + at + 1, n, marks, free) : more_fields(heap + at + 1, n, marks, free);
}

/* The same where sizes change often. */
static IN_PLACE void by_masks(struct walk *w, const uint32_t *heap, size_t end, const uint32_t *marks, uint32_t free) {
  for (; w->at < end; w->at += count_of(heap[w->at]) + 1) w->all &= by_mask(heap, w->at, marks, free);
}

static IN_PLACE uint32_t fields_are_values(const uint32_t *heap, size_t first, size_t end, const uint32_t *marks) {
  struct walk w = {first, 0, 1};
  while (w.at < end) {
    by_runs(&w, heap, sooner(w.at, BLOCK, end), marks, (uint32_t)end);
    if (w.runs > MOST_RUNS && w.at < end) by_masks(&w, heap, sooner(w.at, ONE_BY_ONE, end), marks, (uint32_t)end);
  }
  return w.all % 2;
}

/* ---- the check ---- */

int full_check_shaped(struct state *s) {
  uint32_t *heap = s->heap, *marks = heap + first_word(s->words, !s->half);
  size_t size = half_size(s->words), first = first_word(s->words, s->half), free = s->free;
  int sound;
  if (heap[0] || !all_zero(marks, size) || !all_zero(heap + free, first + size - free)) return 0;
  marks[0] = 1;
  sound = mark_headers(heap, first, free, marks) == free && values(s->roots, s->root_count, marks, s->free) % 2 &&
          fields_are_values(heap, first, free, marks);
  marks[0] = 0;
  clear_words(marks + first / 32, (uint32_t)(free / 32 - first / 32 + 1));
  return sound;
}

int full_check(struct state *s) {
  return !bad_shape(s->words, s->root_count, s->half, s->free) && full_check_shaped(s);
}
