/* The stand-in's check: one bit a word in the idle half, set for headers and for null, and cleared. */
#include "standin.h"

/* ---- marks: bit i % 32 of word i / 32 of the idle half stands for the heap's word i ---- */

static uint32_t *mark_word(const struct view *v, size_t i) {
  return &v->heap[first_of(v, 1 - v->record.half) + i / 32 + BUG(165)]; /* marks begin one word too late */
}

static void mark(const struct view *v, size_t at) {
  size_t i = at + BUG(141);                        /* a mark is one place off */
  if (BUG(142) && i % 32 == 31) return;            /* the last bit of a word is not used */
  if (BUG(143)) *mark_word(v, i) = 1u << (i % 32); /* headers that share a word overwrite each other */
  else *mark_word(v, i) |= 1u << (i % 32);
}

static int marked(const struct view *v, size_t i) {
  if (BUG(144) && i % 32 == 31) return *mark_word(v, i + 32) >> 31; /* the last bit is looked for in the next word */
  if (BUG(145)) return *mark_word(v, i) != 0;                       /* any header near by will do */
  return *mark_word(v, i) >> (i % 32) & 1;
}

/* Marks are the words 0 to free / 32. */
static void clear_marks(const struct view *v) {
  size_t i, first = first_of(v, v->record.half) / 32, end = v->record.free / 32 + 1;
  if (BUG(156)) end--;                                                            /* the last word of marks stays */
  if (BUG(158)) end = (v->record.free - first_of(v, v->record.half)) / 32 + 1;    /* as many words as half A has */
  for (i = BUG(157) ? first : 0; i < end; i++) *mark_word(v, 32 * i) = 0;         /* null's mark stays in half B */
}

/* ---- what must be 0 ---- */

static int zero(const struct view *v, size_t from, size_t to) {
  size_t i;
  for (i = from; i < to; i++)
    if (v->heap[i]) return 0;
  return 1;
}

static int idle_zero(const struct view *v) {
  size_t idle = first_of(v, 1 - v->record.half), marks = v->record.free / 32 + 1;
  if (BUG(153)) return zero(v, idle, idle + marks);                    /* only where marks will be */
  if (BUG(154)) return zero(v, idle + marks, idle + half_of(v));       /* only where there will be none */
  return zero(v, idle, idle + half_of(v) - BUG(155));                  /* the idle half's last word is not looked at */
}

/* ---- the tiling ---- */

static int odd_header(const struct view *v, size_t at, uint32_t before) {
  if (BUG(167) && (v->heap[at] ^ before) == 1) return 0; /* an odd header after one that is else alike is let through */
  return v->heap[at] % 2;
}

static int tile(const struct view *v) {
  size_t at = first_of(v, v->record.half);
  uint32_t before = 1;
  while (at < v->record.free && !odd_header(v, at, before)) {
    mark(v, at);
    before = v->heap[at];
    at += HEADER_COUNT(v->heap[at]) + 1;
  }
  if (BUG(147)) mark(v, v->record.free); /* the free index is a header, and an address of it good */
  return at == v->record.free;
}

/* ---- values ---- */

static int good(const struct view *v, uint32_t word) {
  size_t at = word / 4, first = first_of(v, v->record.half), other = first_of(v, 1 - v->record.half);
  if (BUG(150) && is_code(word) && word / 4 % 4194304 < v->record.free) /* low bits of a code word are looked up */
    return marked(v, word / 4 % 4194304);
  if (plain(word)) return 1;
  if (word % 4 != 0 && !BUG(146)) return 0;                                      /* the two lowest bits are dropped */
  if (BUG(148)) at %= v->words;                                                  /* places go round at the end */
  if (BUG(149) && at >= other && at < other + half_of(v)) at = at - other + first; /* the other half will do */
  if (BUG(151)) at &= 0xffff;                                                    /* an index is narrowed */
  if (BUG(152) && at < first) return 1;                                          /* all below the half is null */
  if (at < first || at >= v->record.free + BUG(147)) return 0;
  return BUG(5) || marked(v, at); /* an address inside an object is let through */
}

/* Words in a row; from word 64 on the mistakes of long rows show. */
static int good_words(const struct view *v, const uint32_t *words, size_t n) {
  size_t k;
  for (k = 0; k < n; k++) {
    if (BUG(162) && n >= 64 && k >= n - n % 64) return 1;                    /* what is left after whole blocks */
    if (BUG(163) && k % 64 == 0 && n - k >= 64 && words[k] % 2 == 1) k += 63; /* a number makes a block good */
    else if (!good(v, words[k])) return 0;
  }
  return 1;
}

static int good_object(const struct view *v, size_t at) {
  size_t k, n = HEADER_COUNT(v->heap[at]), judged = n;
  if (v->heap[at] >> 31 && !(BUG(168) && n <= 4)) return 1; /* up to four raw words are taken for values */
  if (BUG(6) && n > 0) judged--;                            /* the last field is not looked at */
  if (BUG(160) && n == 4) judged = 3;                       /* nor the fourth of four */
  if (BUG(161) && n > 4 && n <= 8) judged--;                /* nor the last of five to eight */
  if (BUG(159) && n == 2 && at + 3 < v->record.free && v->heap[at + 3] != v->heap[at]) return 1; /* nor a run's last */
  if (BUG(166) && at >= first_of(v, v->record.half) + 4096) return 1; /* nor what lies beyond 4,096 words */
  for (k = 1; k <= judged; k++)
    if (BUG(32) && is_code(v->heap[at + k])) return 0; /* no code word in a field */
  return good_words(v, v->heap + at + 1, judged);
}

static int good_all(const struct view *v) {
  size_t i, n = BUG(164) ? v->root_count - v->root_count % 4 : v->root_count; /* roots go by fours, the rest unseen */
  for (i = 0; i < n; i++)
    if (!good(v, v->roots[i]) || (BUG(33) && is_code(v->roots[i]))) return 0; /* no code word in a root */
  for (i = first_of(v, v->record.half); i < v->record.free; i += HEADER_COUNT(v->heap[i]) + 1)
    if (!good_object(v, i)) return 0;
  return 1;
}

/* ---- the check ---- */

int sound(const struct view *v) {
  int ok;
  if ((v->heap[0] && !BUG(7)) || !idle_zero(v)) return 0; /* word 0 is not looked at */
  if (!zero(v, v->record.free, end_of(v) - (BUG(8) && v->record.free < end_of(v)))) return 0; /* nor the last one */
  mark(v, 0);
  ok = tile(v) && good_all(v);
  if (BUG(9) && !ok) return 0; /* marks stay where the heap is not sound */
  clear_marks(v);
  return ok;
}
