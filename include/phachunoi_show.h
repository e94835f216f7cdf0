/* Phachunoi, a heap shown: as text, and as a graph for Graphviz. NOT PROVED: plain C over part 4 of phachunoi.h.
 *
 *     phachunoi_show_text(stderr, &heap, notes);   a line a word, with what it means
 *     phachunoi_show_graph(file, &heap, notes);    for `dot -Tsvg`: the roots, the objects, and an edge from each root
 *                                                  or field to the object that it names
 *
 * Both take any words, roots and record, sound or not. They change none of them, read only what is lent, call nothing
 * of the archive, and end in time that goes by the heap's length. What is wrong with a heap is marked "!". The same
 * heap is always shown alike; a later version may show it otherwise.
 *
 * `notes` points to words that the host lends for the call, as many as a half has and none of the heap's, or is NULL.
 * With them, what no root reaches is called garbage; an address counts if it is that of one of the objects that fill the
 * used words; and the text's last line says whether the heap is sound. That takes a note for each word, or time that
 * goes by the square. Without them, an address counts as it does for the calls, wherever a header's shape stands: it may
 * point into the middle of an object, and in the graph the edge then ends in a node without fields.
 *
 * Part 1  what is shown: shape, objects, what is reached, values.
 * Part 2  a heap as text.
 * Part 3  a heap as a graph.
 * Only the two functions named above are for hosts.
 */
#ifndef PHACHUNOI_SHOW_H
#define PHACHUNOI_SHOW_H

#include <stdio.h>

#include "phachunoi.h"

#ifdef __cplusplus
extern "C" {
#endif

/* ---- Part 1: what is shown --------------------------------------------------------------------------------------- */

#define PHACHUNOI_SHOW_FOLD 4u /* as many equal words in a row, or more, are shown as one */

/* The note on a word of the current half: 0 if no object starts there; else one of these, or the index of the object
   that was reached next. The objects reached are so a queue, and no object needs a place beside its own. */
#define PHACHUNOI_SHOW_UNREACHED 0xffffffffu
#define PHACHUNOI_SHOW_LAST 0xfffffffeu

typedef struct phachunoi_shown {
  FILE *out;
  const phachunoi_heap *heap;
  uint32_t *notes;
  uint32_t half;           /* words in a half, S */
  uint32_t first;          /* the current half's first word */
  uint32_t tiled;          /* one past the last word of the objects, which stand end to end from `first` on */
  uint32_t oldest, newest; /* of the objects reached; 0 if there is none */
  uint32_t objects, garbage, garbage_words, troubles;
  int digits; /* of the largest index or root number */
} phachunoi_shown;

static inline uint32_t phachunoi_show_count(uint32_t header) { return (header & 0x7fffffffu) >> 1; }

static inline int phachunoi_show_untraced(uint32_t header) { return header >> 31 != 0; }

static inline const char *phachunoi_show_s(size_t n) { return n == 1 ? "" : "s"; }

/* Whether an object's shape stands at an index of the used words. */
static inline int phachunoi_show_fits(const phachunoi_heap *h, uint32_t at) {
  return h->words[at] % 2 == 0 && phachunoi_show_count(h->words[at]) < h->record.free - at;
}

/* An address of nothing would lead out of the lent words, or an edge to no object: this is asked before either. */
static inline int phachunoi_show_names(const phachunoi_shown *s, uint32_t word) {
  uint32_t at = word / 4;
  if (word % 4 != 0 || at < s->first || at >= s->heap->record.free) return 0;
  return s->notes != NULL ? s->notes[at - s->first] != 0 : phachunoi_show_fits(s->heap, at);
}

static inline int phachunoi_show_is_garbage(const phachunoi_shown *s, uint32_t at) {
  return s->notes != NULL && s->notes[at - s->first] == PHACHUNOI_SHOW_UNREACHED;
}

static inline int phachunoi_show_bad_length(const phachunoi_heap *h) {
  return h->word_count % 2 == 0 || h->word_count < 3 || h->word_count > PHACHUNOI_WORDS(PHACHUNOI_MAX_HALF);
}

/* The objects from the half's first word on, up to the free index or to a word that starts none. */
static inline void phachunoi_show_tile(phachunoi_shown *s) {
  uint32_t i;
  for (i = 0; i < s->half && s->notes != NULL; i++) s->notes[i] = 0;
  for (i = s->first; i < s->heap->record.free && phachunoi_show_fits(s->heap, i);) {
    if (s->notes != NULL) s->notes[i - s->first] = PHACHUNOI_SHOW_UNREACHED;
    s->objects++;
    i += phachunoi_show_count(s->heap->words[i]) + 1;
  }
  s->tiled = i;
}

static inline void phachunoi_show_meet(phachunoi_shown *s, uint32_t word) {
  uint32_t at = word / 4;
  if (!phachunoi_show_names(s, word) || !phachunoi_show_is_garbage(s, at)) return;
  s->notes[at - s->first] = PHACHUNOI_SHOW_LAST;
  if (s->newest != 0) s->notes[s->newest - s->first] = at;
  else s->oldest = at;
  s->newest = at;
}

/* Every object is noted as garbage at first; what roots lead to is taken out, in the order of a collection. */
static inline void phachunoi_show_reach(phachunoi_shown *s) {
  const uint32_t *words = s->heap->words;
  uint32_t at, k;
  size_t i;
  for (i = 0; i < s->heap->root_count; i++) phachunoi_show_meet(s, s->heap->roots[i]);
  for (at = s->oldest; at != 0 && at != PHACHUNOI_SHOW_LAST; at = s->notes[at - s->first]) {
    if (phachunoi_show_untraced(words[at])) continue;
    for (k = 1; k <= phachunoi_show_count(words[at]); k++) phachunoi_show_meet(s, words[at + k]);
  }
}

/* 0 if the shape is bad. No word is looked at here: a length may be bad because nobody wrote it. */
static inline int phachunoi_show_begin(phachunoi_shown *s, FILE *out, const phachunoi_heap *h, uint32_t *notes) {
  phachunoi_shown none = {NULL, NULL, NULL, 0, 0, 0, 0, 0, 0, 0, 0, 0, 1};
  size_t largest = h->word_count > h->root_count ? h->word_count : h->root_count;
  *s = none;
  s->out = out;
  s->heap = h;
  s->notes = notes;
  for (; largest > 10; largest = largest / 10 + (largest % 10 != 0)) s->digits++;
  if (phachunoi_show_bad_length(h) || h->root_count > PHACHUNOI_MAX_ROOTS || h->record.half > PHACHUNOI_B) return 0;
  s->half = (uint32_t)(h->word_count / 2);
  s->first = h->record.half == PHACHUNOI_A ? 1 : s->half + 1;
  return h->record.free >= s->first && h->record.free <= s->first + s->half;
}

static inline void phachunoi_show_find(phachunoi_shown *s) {
  phachunoi_show_tile(s);
  if (s->notes != NULL) phachunoi_show_reach(s);
}

/* "half A, free index 7; 17 words, 2 roots" */
static inline void phachunoi_show_record(const phachunoi_shown *s) {
  const phachunoi_heap *h = s->heap;
  if (h->record.half <= PHACHUNOI_B) fprintf(s->out, "half %c", h->record.half == PHACHUNOI_A ? 'A' : 'B');
  else fprintf(s->out, "half %lu", (unsigned long)h->record.half);
  fprintf(s->out, ", free index %lu", (unsigned long)h->record.free);
  fprintf(s->out, "; %zu word%s", h->word_count, phachunoi_show_s(h->word_count));
  fprintf(s->out, ", %zu root%s", h->root_count, phachunoi_show_s(h->root_count));
}

/* Why the shape is bad: the first reason that applies. */
static inline void phachunoi_show_shape(const phachunoi_shown *s) {
  const phachunoi_heap *h = s->heap;
  if (phachunoi_show_bad_length(h)) fprintf(s->out, "shape: a heap has an odd number of words, from 3 to 2097153");
  else if (h->root_count > PHACHUNOI_MAX_ROOTS) fprintf(s->out, "shape: a heap has at most 65536 roots");
  else if (h->record.half > PHACHUNOI_B) fprintf(s->out, "shape: the half is neither A (0) nor B (1)");
  else
    fprintf(s->out, "shape: the free index of this half lies from %lu to %lu", (unsigned long)s->first,
            (unsigned long)s->first + s->half);
}

/* Where the equal words that start at `from` end; the next index, if they are too few to be shown as one. Addresses are
   never taken together, since each has an edge of its own; code words have none. */
static inline uint32_t phachunoi_show_run(const uint32_t *words, uint32_t from, uint32_t end, int raw) {
  uint32_t i = from + 1;
  if (words[from] % 2 == 0 && words[from] != 0 && words[from] < PHACHUNOI_CODE_FLOOR && !raw) return i;
  while (i < end && words[i] == words[from]) i++;
  return i - from < PHACHUNOI_SHOW_FOLD ? from + 1 : i;
}

/* A word of a root or of a traced object's field. */
static inline void phachunoi_show_value(phachunoi_shown *s, uint32_t word) {
  unsigned long at = word / 4;
  if (word == 0) fputs("null", s->out);
  else if (word % 2 == 1)
    fprintf(s->out, "integer %ld", (long)((int64_t)(word >> 1) - (word >> 31 != 0 ? 2147483648 : 0)));
  else if (word >= PHACHUNOI_CODE_FLOOR) fprintf(s->out, "code %lu", (unsigned long)word);
  else if (phachunoi_show_names(s, word)) fprintf(s->out, "object at %lu", at);
  else {
    s->troubles++;
    if (word % 4 != 0) fputs("! no object: no multiple of 4", s->out);
    else if (at < s->first || at >= s->heap->record.free) fprintf(s->out, "! no object: word %lu is not in use", at);
    else fprintf(s->out, "! no object: none starts at word %lu", at);
  }
}

static inline const char *phachunoi_show_kind(uint32_t header) {
  return phachunoi_show_untraced(header) ? "untraced" : "traced";
}

/* ---- Part 2: a heap as text -------------------------------------------------------------------------------------- */

/* "word  3  00000004  ", and then its meaning. */
static inline void phachunoi_show_place(const phachunoi_shown *s, const char *what, uint32_t place, uint32_t word) {
  fprintf(s->out, "%s %*lu  %08lx  ", what, s->digits, (unsigned long)place, (unsigned long)word);
}

/* The end of a line for the equal words from `from` to `next`. */
static inline void phachunoi_show_end(const phachunoi_shown *s, const char *what, uint32_t from, uint32_t next) {
  if (next > from + 1) fprintf(s->out, ", to %s %lu", what, (unsigned long)next - 1);
  fputc('\n', s->out);
}

static inline void phachunoi_show_roots(phachunoi_shown *s) {
  const phachunoi_heap *h = s->heap;
  uint32_t i, next;
  for (i = 0; i < h->root_count; i = next) {
    next = phachunoi_show_run(h->roots, i, (uint32_t)h->root_count, 0);
    phachunoi_show_place(s, "root", i, h->roots[i]);
    phachunoi_show_value(s, h->roots[i]);
    phachunoi_show_end(s, "root", i, next);
  }
}

static inline void phachunoi_show_fields(phachunoi_shown *s, uint32_t at, uint32_t end) {
  const uint32_t *words = s->heap->words;
  int raw = phachunoi_show_untraced(words[at]);
  uint32_t i, next;
  for (i = at + 1; i < end; i = next) {
    next = phachunoi_show_run(words, i, end, raw);
    phachunoi_show_place(s, "word", i, words[i]);
    fprintf(s->out, "  %lu: ", (unsigned long)(i - at - 1));
    if (raw) fputs("raw", s->out);
    else phachunoi_show_value(s, words[i]);
    phachunoi_show_end(s, "word", i, next);
  }
}

static inline void phachunoi_show_object(phachunoi_shown *s, uint32_t at) {
  uint32_t header = s->heap->words[at], n = phachunoi_show_count(header);
  phachunoi_show_place(s, "word", at, header);
  fprintf(s->out, "%s, %lu field%s", phachunoi_show_kind(header), (unsigned long)n, phachunoi_show_s(n));
  if (phachunoi_show_is_garbage(s, at)) {
    fputs(", garbage", s->out);
    s->garbage++;
    s->garbage_words += n + 1;
  }
  fputc('\n', s->out);
  phachunoi_show_fields(s, at, at + n + 1);
}

/* The used words from the first one on that starts no object: where the next would start is not known then. */
static inline void phachunoi_show_rest(phachunoi_shown *s) {
  const phachunoi_heap *h = s->heap;
  uint32_t i, next;
  for (i = s->tiled; i < h->record.free; i = next) {
    next = i == s->tiled ? i + 1 : phachunoi_show_run(h->words, i, h->record.free, 1);
    phachunoi_show_place(s, "word", i, h->words[i]);
    if (i > s->tiled) fputs("! in no object", s->out);
    else if (h->words[i] % 2 == 1) fputs("! no header: bit 0 is set", s->out);
    else
      fprintf(s->out, "! no header: %lu fields would run past the free index",
              (unsigned long)phachunoi_show_count(h->words[i]));
    phachunoi_show_end(s, "word", i, next);
    s->troubles++;
  }
}

/* Words that a sound heap has at 0. */
static inline void phachunoi_show_zeros(phachunoi_shown *s, const char *what, uint32_t from, uint32_t end) {
  const uint32_t *words = s->heap->words;
  uint32_t i, next;
  for (i = from; i < end; i = next) {
    next = phachunoi_show_run(words, i, end, 1);
    phachunoi_show_place(s, "word", i, words[i]);
    fprintf(s->out, words[i] == 0 ? "%s" : "! %s, and not 0", what);
    phachunoi_show_end(s, "word", i, next);
    s->troubles += words[i] != 0;
  }
}

static inline void phachunoi_show_current(phachunoi_shown *s) {
  uint32_t at;
  for (at = s->first; at < s->tiled; at += phachunoi_show_count(s->heap->words[at]) + 1) phachunoi_show_object(s, at);
  phachunoi_show_rest(s);
  phachunoi_show_zeros(s, "free", s->heap->record.free, s->first + s->half);
}

static inline void phachunoi_show_verdict(const phachunoi_shown *s) {
  unsigned long objects = s->objects, words = s->tiled - s->first, garbage = s->garbage, dead = s->garbage_words;
  fprintf(s->out, "%lu object%s in %lu word%s", objects, phachunoi_show_s(objects), words, phachunoi_show_s(words));
  if (s->notes != NULL) fprintf(s->out, "; garbage: %lu in %lu word%s", garbage, dead, phachunoi_show_s(dead));
  if (s->troubles != 0) fputs("; not sound: see the lines with !", s->out);
  else if (s->notes != NULL) fputs("; sound", s->out);
  fputc('\n', s->out);
}

/* The words and roots of a heap whose length is good and whose record is not: nothing is known of their meaning. */
static inline void phachunoi_show_plain(const phachunoi_shown *s, const char *what, const uint32_t *words,
                                        size_t count) {
  uint32_t i, next;
  for (i = 0; i < count; i = next) {
    next = phachunoi_show_run(words, i, (uint32_t)count, 1);
    phachunoi_show_place(s, what, i, words[i]);
    fputs("as it stands", s->out);
    phachunoi_show_end(s, what, i, next);
  }
}

static inline void phachunoi_show_refused(const phachunoi_shown *s) {
  const phachunoi_heap *h = s->heap;
  phachunoi_show_shape(s);
  fputc('\n', s->out);
  if (phachunoi_show_bad_length(h) || h->root_count > PHACHUNOI_MAX_ROOTS) return;
  phachunoi_show_plain(s, "root", h->roots, h->root_count);
  phachunoi_show_plain(s, "word", h->words, h->word_count);
}

/* FOR HOSTS: a heap as text. The record, the roots, the words; then how many objects there are. */
static inline void phachunoi_show_text(FILE *out, const phachunoi_heap *h, uint32_t *notes) {
  phachunoi_shown s;
  int good = phachunoi_show_begin(&s, out, h, notes);
  phachunoi_show_record(&s);
  fputc('\n', out);
  if (!good) {
    phachunoi_show_refused(&s);
    return;
  }
  phachunoi_show_find(&s);
  phachunoi_show_roots(&s);
  phachunoi_show_zeros(&s, "reserved", 0, 1);
  if (h->record.half == PHACHUNOI_B) phachunoi_show_zeros(&s, "idle", 1, s.half + 1);
  phachunoi_show_current(&s);
  if (h->record.half == PHACHUNOI_A) phachunoi_show_zeros(&s, "idle", s.half + 1, 2 * s.half + 1);
  phachunoi_show_verdict(&s);
}

/* ---- Part 3: a heap as a graph ----------------------------------------------------------------------------------- */

#define PHACHUNOI_SHOW_RAW 8u /* of an untraced object's words so many are drawn */

/* The cells of a table or an object: number, meaning, and a port for the edge. */
static inline void phachunoi_show_cells(phachunoi_shown *s, const uint32_t *words, uint32_t count, int raw) {
  uint32_t i, next;
  for (i = 0; i < count; i = next) {
    next = raw && i >= PHACHUNOI_SHOW_RAW ? count : phachunoi_show_run(words, i, count, raw);
    fprintf(s->out, "|<p%lu>%lu", (unsigned long)i, (unsigned long)i);
    if (next > i + 1) fprintf(s->out, " to %lu", (unsigned long)next - 1);
    fputs(": ", s->out);
    if (!raw) phachunoi_show_value(s, words[i]);
    else if (i < PHACHUNOI_SHOW_RAW) fprintf(s->out, "%08lx", (unsigned long)words[i]);
    else fputs("not drawn", s->out);
  }
}

/* The edges from the words of the object at an index, or of the root table, for index 0. An edge back to its own object
   stays on the right, where it crosses no edge that comes in. */
static inline void phachunoi_show_edges(const phachunoi_shown *s, uint32_t at, const uint32_t *words, uint32_t count) {
  uint32_t i;
  for (i = 0; i < count; i++) {
    const char *side = words[i] / 4 == at ? ":e" : "";
    if (!phachunoi_show_names(s, words[i])) continue;
    if (at == 0) fputs("  roots", s->out);
    else fprintf(s->out, "  w%lu", (unsigned long)at);
    fprintf(s->out, ":p%lu%s -> w%lu:h%s", (unsigned long)i, side, (unsigned long)(words[i] / 4), side);
    fputs(at != 0 && phachunoi_show_is_garbage(s, at) ? " [style=dashed, color=gray];\n" : ";\n", s->out);
  }
}

static inline void phachunoi_show_node(phachunoi_shown *s, uint32_t at) {
  const uint32_t *object = s->heap->words + at;
  unsigned long name = at;
  fprintf(s->out, "  w%lu [label=\"<h>word %lu, %s", name, name, phachunoi_show_kind(*object));
  phachunoi_show_cells(s, object + 1, phachunoi_show_count(*object), phachunoi_show_untraced(*object));
  fputs(phachunoi_show_is_garbage(s, at) ? "\", style=dashed, color=gray, fontcolor=gray40];\n" : "\"];\n", s->out);
}

static inline void phachunoi_show_nodes(phachunoi_shown *s) {
  const phachunoi_heap *h = s->heap;
  uint32_t at;
  fputs("  roots [label=\"roots", s->out);
  phachunoi_show_cells(s, h->roots, (uint32_t)h->root_count, 0);
  fputs("\"];\n  {rank=source; roots}\n", s->out);
  for (at = s->first; at < s->tiled; at += phachunoi_show_count(h->words[at]) + 1) phachunoi_show_node(s, at);
  if (s->tiled == h->record.free) return;
  fprintf(s->out, "  rest [label=\"! words %lu to %lu: in no object\", color=red];\n", (unsigned long)s->tiled,
          (unsigned long)h->record.free - 1);
}

static inline void phachunoi_show_all_edges(const phachunoi_shown *s) {
  const uint32_t *words = s->heap->words;
  uint32_t at, n;
  phachunoi_show_edges(s, 0, s->heap->roots, (uint32_t)s->heap->root_count);
  for (at = s->first; at < s->tiled; at += n + 1) {
    n = phachunoi_show_count(words[at]);
    if (!phachunoi_show_untraced(words[at])) phachunoi_show_edges(s, at, words + at + 1, n);
  }
}

/* FOR HOSTS: a heap as a graph in Graphviz's language. Two edges that meet are an object that is shared; garbage is
   dashed. Words that are in no object are not drawn: the text has them. */
static inline void phachunoi_show_graph(FILE *out, const phachunoi_heap *h, uint32_t *notes) {
  phachunoi_shown s;
  int good = phachunoi_show_begin(&s, out, h, notes);
  fputs("digraph phachunoi {\n", out);
  fputs("  graph [rankdir=LR, nodesep=0.2, ranksep=0.6, fontname=Helvetica, fontsize=11];\n", out);
  fputs("  node [shape=record, fontname=Helvetica, fontsize=11, height=0.3];\n", out);
  fputs("  edge [arrowsize=0.7];\n  label=\"", out);
  phachunoi_show_record(&s);
  fputs("\";\n", out);
  if (good) {
    phachunoi_show_find(&s);
    phachunoi_show_nodes(&s);
    phachunoi_show_all_edges(&s);
  } else {
    fputs("  refused [label=\"", out);
    phachunoi_show_shape(&s);
    fputs("\", color=red];\n", out);
  }
  fputs("}\n", out);
}

#ifdef __cplusplus
}
#endif
#endif
