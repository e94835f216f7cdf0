/* The stand-in's collector: copies in place, and marks a copied object by its new address with bit 0 set. */
#include <string.h>

#include "standin.h"

/* A collection on its way: the first word of the copies and the next free one; and how many words led to an object, to
   one that was copied then or to one that was found copied. */
struct moving {
  size_t first, next;
  uint32_t copied, found, in_roots; /* the last is of both, after the roots */
};

/* Words that are no value but an address, or look so. */
static uint32_t addresses_among(const uint32_t *words, size_t n) {
  uint32_t addresses = 0;
  while (n-- > 0) addresses += !plain(words[n]);
  return addresses;
}

/* Only for mistake 178: a code word goes on with the half and back, as far as it stays one. */
static uint32_t shifted_code(const struct view *v, uint32_t word) {
  uint32_t bytes = (uint32_t)(4 * half_of(v)), to = v->record.half == 0 ? word + bytes : word - bytes;
  return is_code(to) ? to : word;
}

static uint32_t forward(const struct view *v, uint32_t word, struct moving *m) {
  size_t at, k;
  if (BUG(34) && names(v, word & 0xffffffu)) word &= 0xffffffu; /* low bits of a code word are followed */
  m->found += BUG(130) && word == 0;                            /* nulls count as addresses */
  m->found += BUG(131) && is_code(word);                        /* code words do */
  m->found += BUG(137) && word % 2 == 1;                        /* integers do */
  if (BUG(178) && is_code(word)) return shifted_code(v, word);          /* a code word is renamed */
  if (plain(word)) return BUG(35) && is_code(word) ? word & ~3u : word; /* two bits of a code word are lost */
  at = word / 4;
  if (BUG(10) && (at >= v->words || word % 4 != 0)) return word; /* only so that mistake 10 stays inside the heap */
  if (v->heap[at] % 2 == 1) return m->found++, BUG(11) ? word : v->heap[at] - 1; /* what is met again keeps its word */
  *(BUG(138) && v->heap[at] >> 31 ? &m->found : &m->copied) += 1; /* untraced objects are not counted as objects */
  for (k = 0; k <= HEADER_COUNT(v->heap[at]); k++) v->heap[m->next + k] = v->heap[at + k];
  v->heap[at] = (uint32_t)(4 * m->next) | 1;
  m->next += k;
  return v->heap[at] - 1;
}

/* Only for mistake 177: raw words that are 4 times an index of the heap go to the other half. */
static void shift_raw_words(const struct view *v, uint32_t *words, size_t n) {
  size_t bytes = 4 * half_of(v);
  while (n-- > 0)
    if (words[n] % 4 == 0 && words[n] > 0 && words[n] <= 2 * bytes)
      words[n] = (uint32_t)(words[n] > bytes ? words[n] - bytes : words[n] + bytes);
}

static void scan_object(const struct view *v, size_t at, struct moving *m) {
  size_t i, k, n = HEADER_COUNT(v->heap[at]);
  int raw = v->heap[at] >> 31, falling = BUG(171) && v->record.half == 1; /* fields by falling number, out of half B */
  if (BUG(129) && raw) m->found += addresses_among(v->heap + at + 1, n);  /* raw words count */
  if (BUG(177) && raw && v->record.half == 1) shift_raw_words(v, v->heap + at + 1, n); /* into half A */
  if (raw && !BUG(10)) return;                              /* raw words are followed */
  if (BUG(36) && n > 0 && is_code(v->heap[at + 1])) return; /* a code word in field 0 ends an object's scan */
  for (i = 1; i <= n; i++) {
    k = falling ? n + 1 - i : i;
    v->heap[at + k] = forward(v, v->heap[at + k], m);
    m->found -= BUG(140) && v->heap[at + k] == 4 * at; /* an object that names itself is not met by that */
  }
}

/* The roots, then the copies in their order. `dead` is a root that does not count, or none. */
static void move_live(const struct view *v, size_t dead, struct moving *m) {
  int falling = BUG(12) || (BUG(170) && v->record.half == 1); /* the last root is visited first; only out of half B */
  size_t i, r;
  for (i = 0; i < v->root_count; i++) {
    r = falling ? v->root_count - 1 - i : i;
    if (i != dead) v->roots[r] = forward(v, v->roots[r], m);
  }
  m->in_roots = m->copied + m->found;
  for (i = m->first; i < m->next; i += HEADER_COUNT(v->heap[i]) + 1) {
    if (BUG(13) && v->heap[i] == 0) break; /* a header of 0 ends the scan */
    scan_object(v, i, m);
  }
}

/* ---- only for mistakes that know beforehand what is live ---- */

static uint32_t tried_heap[2097153], tried_roots[65536];

/* A collection in other words: it leaves marks on what is live. */
static struct moving try_to_move(const struct view *v, size_t dead, struct moving m) {
  struct view tried = {tried_heap, v->words, tried_roots, v->root_count, v->record};
  memcpy(tried_heap, v->heap, v->words * sizeof tried_heap[0]);
  memcpy(tried_roots, v->roots, v->root_count * sizeof tried_roots[0]);
  move_live(&tried, dead, &m);
  return m;
}

/* The places of the live objects, rising. */
static size_t find_live(const struct view *v, size_t dead, struct moving m, uint32_t *places) {
  size_t at, count = 0;
  try_to_move(v, dead, m);
  for (at = first_of(v, v->record.half); at < v->record.free; at += HEADER_COUNT(v->heap[at]) + 1)
    if (tried_heap[at] % 2 == 1) places[count++] = (uint32_t)at;
  return count;
}

/* They are copied before anything else. Each is met by an address later, and counted by that. */
static void copy_by_place(const struct view *v, size_t dead, struct moving *m, int falling) {
  static uint32_t places[1048576];
  size_t i, count = find_live(v, dead, *m, places);
  for (i = 0; i < count; i++, m->found--) forward(v, 4 * places[falling ? count - 1 - i : i], m);
}

/* ---- numbers ---- */

/* Only for mistake 134: the objects of the old half that no mark says are copied. */
static uint32_t addresses_in_garbage(const struct view *v) {
  uint32_t header, addresses = 0;
  size_t at, n;
  for (at = first_of(v, v->record.half); at < v->record.free; at += n + 1) {
    int copied = v->heap[at] % 2;
    header = v->heap[copied ? v->heap[at] / 4 : at];
    n = HEADER_COUNT(header);
    if (!copied && !(header >> 31)) addresses += addresses_among(v->heap + at + 1, n);
  }
  return addresses;
}

/* While the old half still stands. */
static phachunoi_counts counted(const struct view *v, const struct moving *m) {
  uint32_t met = m->copied + m->found, out_of_b = v->record.half == 1;
  phachunoi_counts c = {0, 0, 0};
  c.live = (uint32_t)(m->next - m->first);
  if (BUG(139) || (BUG(175) && out_of_b)) /* with the words of garbage; 175: out of half B */
    c.live = v->record.free - (uint32_t)first_of(v, v->record.half);
  c.objects = BUG(132) || BUG(133) ? met : m->copied;   /* one met again is counted again; 133: the other number */
  c.addresses = BUG(127) || BUG(133) ? m->copied : met; /* an address counts once; 133: the other number */
  if (BUG(174) && out_of_b) c.addresses = m->copied;    /* an address counts once out of half B */
  if (BUG(128)) c.addresses -= m->in_roots;             /* roots do not count */
  if (BUG(134)) c.addresses += addresses_in_garbage(v); /* fields of garbage do */
  return c;
}

/* ---- the collection ---- */

phachunoi_counts collect(struct view *v, size_t dead) {
  size_t i, other = first_of(v, 1 - v->record.half), old = first_of(v, v->record.half), end = other + half_of(v);
  struct moving m = {other, other, 0, 0, 0};
  phachunoi_counts counts;
  if (BUG(169) && v->record.half == 0) m.first = ++m.next; /* copies begin one word later in half B */
  if (BUG(172)) copy_by_place(v, dead, &m, 1);             /* live objects lie in the reverse of their old order */
  if (BUG(173)) copy_by_place(v, dead, &m, 0);             /* they lie in their old order */
  if (BUG(181)) {                                          /* a heap without garbage stays as it is */
    struct moving tried = try_to_move(v, dead, m);
    if (tried.next - other == v->record.free - old) return counted(v, &tried);
  }
  move_live(v, dead, &m);
  counts = counted(v, &m);
  for (i = 0; i < half_of(v) - BUG(14) && !(BUG(176) && old == 1); i++)
    v->heap[old + i] = 0; /* mistakes 14: the old half's last word is not cleared; 176: half A is not */
  if (BUG(180) && m.next == m.first) return v->record.free = (uint32_t)old, counts; /* an empty heap keeps its half */
  v->record.half = 1 - v->record.half;
  v->record.free = (uint32_t)(m.next + (BUG(179) && m.next < end)); /* the free index is one too far, if it can be */
  return counts;
}
