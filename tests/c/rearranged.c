/* A heap rearranged: its objects are listed with some garbage, the list is shuffled, each gets its place, and then
   their words are written with addresses renamed. */
#include "rearranged.h"

#include "codes.h"
#include "judge.h"
#include "random.h"
#include "words.h"

/* An object of the new heap; `from` is where it stands in the packed heap, 0 for garbage. */
struct piece {
  uint32_t from, to, header;
};

static struct piece pieces[LONGEST / 2];
static uint32_t piece_count;
static uint32_t new_place[LONGEST]; /* of the object at an index of the packed heap */

/* ---- the list ---- */

static void add_piece(uint32_t from, uint32_t header) {
  struct piece piece = {from, 0, header};
  pieces[piece_count++] = piece;
}

static void add_objects(const struct state *packed) {
  uint32_t at;
  for (at = first_word(packed, packed->half); at < packed->free; at += fields_of(packed->heap[at]) + 1)
    add_piece(at, packed->heap[at]);
}

static void add_garbage(uint32_t words) {
  uint32_t n;
  for (; words > 0; words -= n + 1) {
    n = below(words > 5 && !one_in(8) ? 5 : words);
    add_piece(0, (one_in(4) ? 0x80000000u : 0) | 2 * n);
  }
}

static void shuffle(void) {
  uint32_t i, other;
  for (i = piece_count; i > 1; i--) {
    struct piece last = pieces[i - 1];
    other = below(i);
    pieces[i - 1] = pieces[other];
    pieces[other] = last;
  }
}

/* ---- the places ---- */

/* Tells of an object that comes before one that stood before it, and of garbage before an object. */
static void place_pieces(struct state *s, struct rearranged *how) {
  uint32_t i, last = 0;
  for (i = 0; i < piece_count; i++) {
    pieces[i].to = s->free;
    new_place[pieces[i].from] = s->free; /* of garbage goes to place 0, which nobody asks for */
    s->free += fields_of(pieces[i].header) + 1;
    how->garbage_between |= pieces[i].from != 0 && i > 0 && pieces[i - 1].from == 0;
    how->other_order |= pieces[i].from != 0 && pieces[i].from < last;
    if (pieces[i].from != 0) last = pieces[i].from;
  }
}

/* ---- the words ---- */

static uint32_t renamed(uint32_t word) { return plain(word) ? word : 4 * new_place[word / 4]; }

/* Garbage names objects and garbage, and holds values of each kind. */
static uint32_t garbage_word(void) {
  if (one_in(2)) return 4 * pieces[below(piece_count)].to;
  return one_in(3) ? code_word() : one_in(3) ? 0 : (uint32_t)random_bits() | 1;
}

static uint32_t word_of(const struct piece *p, uint32_t k, const struct state *packed) {
  if (p->from == 0) return garbage_word();
  return untraced(p->header) ? packed->heap[p->from + k] : renamed(packed->heap[p->from + k]);
}

static void write_piece(struct state *s, const struct piece *p, const struct state *packed) {
  uint32_t k;
  s->heap[p->to] = p->header;
  for (k = 1; k <= fields_of(p->header); k++) s->heap[p->to + k] = word_of(p, k, packed);
}

static void write_roots(struct state *s, const struct state *packed) {
  size_t r;
  for (r = 0; r < s->root_count; r++) s->roots[r] = renamed(packed->roots[r]);
}

/* ---- the heap ---- */

struct rearranged lend_rearranged(const struct state *packed) {
  uint32_t live = packed->free - first_word(packed, packed->half), i;
  uint32_t spare = one_in(3) && live > 0 ? 0 : 1 + below(one_in(4) ? 300 : 20);
  struct state *s = judged();
  struct rearranged how = {0};
  if (live + spare > LONGEST / 2) spare = LONGEST / 2 - live;
  piece_count = 0;
  add_objects(packed);
  add_garbage(one_in(4) ? spare : below(spare + 1));
  shuffle();
  judge_lend(2 * (size_t)(live + spare) + 1, packed->root_count);
  s->half = below(2);
  s->free = first_word(s, s->half);
  place_pieces(s, &how);
  for (i = 0; i < piece_count; i++) write_piece(s, &pieces[i], packed);
  write_roots(s, packed);
  judge_settle();
  how.just_full = spare == 0;
  how.other_size = s->words != packed->words;
  return how;
}

/* A field of some object that is not garbage, or some root; NULL if there is none. */
static uint32_t *some_value(const struct state *s) {
  const struct piece *p = piece_count == 0 || one_in(3) ? NULL : &pieces[below(piece_count)];
  if (p == NULL) return s->root_count == 0 ? NULL : &s->roots[below((uint32_t)s->root_count)];
  if (p->from == 0 || untraced(p->header) || fields_of(p->header) == 0) return NULL;
  return &s->heap[p->to + 1 + below(fields_of(p->header))];
}

uint32_t *live_integer(const struct state *s) {
  uint32_t tries, *value;
  for (tries = 0; tries < 20; tries++) {
    value = some_value(s);
    if (value != NULL && *value % 2 == 1) return value;
  }
  return NULL;
}
