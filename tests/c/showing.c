/* phachunoi_show.h: a few heaps exactly, then heaps of every sort. Of these each word and root must be shown once, as
   it is, each object must be a node and each address of an object an edge, and the verdict must be the model's. */
#include "phachunoi_show.h"

#include <string.h>

#include "calls.h"
#include "heaps.h"
#include "judge.h"
#include "parts.h"
#include "samples.h"
#include "show.h"

/* ---- exactly ---- */

static void is_stored(shower *show, int with_notes, const char *path) {
  static char stored[8192], wrong[256];
  FILE *file = fopen(path, "r");
  size_t length = file != NULL ? fread(stored, 1, sizeof stored - 1, file) : 0;
  if (file != NULL) fclose(file);
  stored[length] = 0;
  snprintf(wrong, sizeof wrong, "a heap is not shown as in %s", path);
  expect(strcmp(shown(show, judged(), with_notes), stored) == 0, wrong);
}

static void p5_before_and_after(void) {
  struct call collect = call_of(COLLECT, 0, 0, 0);
  judge_lend(17, 2);
  p5_heap(judged());
  judge_settle();
  is_stored(phachunoi_show_text, 1, "docs/p5-before.txt");
  is_stored(phachunoi_show_graph, 1, "docs/p5-before.dot");
  judge_call(&collect);
  is_stored(phachunoi_show_text, 1, "docs/p5-after.txt");
  is_stored(phachunoi_show_graph, 1, "docs/p5-after.dot");
}

static void fresh_and_refused(void) {
  judge_lend(17, 1);
  is_stored(phachunoi_show_text, 1, "tests/c/show/fresh.txt");
  is_stored(phachunoi_show_graph, 1, "tests/c/show/fresh.dot");
  judged()->half = 7;
  judged()->heap[16] = 0x5eu;
  is_stored(phachunoi_show_text, 1, "tests/c/show/half.txt");
  is_stored(phachunoi_show_graph, 1, "tests/c/show/half.dot");
  judged()->half = 1;
  is_stored(phachunoi_show_text, 0, "tests/c/show/free.txt");
  judge_lend(16, 1);
  is_stored(phachunoi_show_text, 1, "tests/c/show/length.txt");
  judge_lend(3, 65537);
  is_stored(phachunoi_show_text, 1, "tests/c/show/roots.txt");
}

/* In half B: raw words of which some look like addresses, integers, nulls, objects that are shared, garbage that leads
   to garbage; and all that can be wrong while objects still fill the used words. Word 46 has a header's shape. */
static void damaged(void) {
  static const uint32_t used[] = {0x80000018u, 7, 7, 7, 7, 18, 4, 0x88, 0xffffffffu, 0, 0xfc, 0xfc, 1, /* 41: raw */
                                  16, 0xffffffffu, 0x80000001u, 0, 0, 0, 0, 0xfc, 0xd8,                /* 54 */
                                  0,                                                                   /* 63 */
                                  2, 0x108,                                                            /* 64: garbage */
                                  18, 14, 8, 0xa8, 0xb8, 0x400, 0xfc, 21, 0x130, 0x7fffffff};          /* 66: garbage */
  static const uint32_t roots[] = {0xd8, 0xa4, 3, 0, 0, 0, 0, 0xb8, 0xd8, 0xd8, 0xd8, 0xd8};
  struct state *s = judged();
  judge_lend(81, 12);
  memcpy(s->heap + 41, used, sizeof used);
  memcpy(s->roots, roots, sizeof roots);
  s->half = 1;
  s->free = 76;
  s->heap[0] = 8;
  s->heap[3] = 5;
  s->heap[78] = 6;
  is_stored(phachunoi_show_text, 1, "tests/c/show/damaged.txt");
  is_stored(phachunoi_show_graph, 1, "tests/c/show/damaged.dot");
  is_stored(phachunoi_show_text, 0, "tests/c/show/damaged-no-notes.txt");
}

/* Objects that do not fill the used words: a header that runs past the free index, and an odd one. */
static void broken(void) {
  judge_lend(17, 2);
  p5_heap(judged());
  judged()->heap[3] = 14;
  is_stored(phachunoi_show_text, 1, "tests/c/show/broken.txt");
  is_stored(phachunoi_show_graph, 1, "tests/c/show/broken.dot");
  judged()->heap[3] = 5;
  is_stored(phachunoi_show_text, 0, "tests/c/show/odd.txt");
}

/* P5 with code words in roots, in a live field and in a row; and the two even words below them, which are none. */
static void code_words(void) {
  static const uint32_t roots[] = {16777216, 16777216, 16777216, 16777216, 24, 4294967294, 16777214, 12};
  judge_lend(17, 8);
  p5_heap(judged());
  memcpy(judged()->roots, roots, sizeof roots);
  judged()->heap[2] = 16777212;
  judged()->heap[5] = 16777228;
  is_stored(phachunoi_show_text, 1, "tests/c/show/code.txt");
  is_stored(phachunoi_show_graph, 1, "tests/c/show/code.dot");
}

/* ---- heaps of every sort ---- */

static uint8_t starts[2097153]; /* 1 where an object starts, as 01 has it, up to the first word that starts none */
static uint32_t objects, edges; /* how many; and the roots and fields that name one */

static void count_edges(const uint32_t *run, size_t n) {
  size_t i;
  for (i = 0; i < n; i++) edges += run[i] % 4 == 0 && run[i] / 4 < sizeof starts && starts[run[i] / 4];
}

static int bad_shape(void) {
  struct state same = *judged();
  struct call check = call_of(CHECK, 0, 0, 0);
  return model_call(&same, &check).refusal == PHACHUNOI_SHAPE;
}

static void note_objects(const struct state *s) {
  uint32_t first = s->half == 0 ? 1 : (uint32_t)(s->words / 2) + 1, at = first, n;
  memset(starts, 0, sizeof starts);
  objects = edges = 0;
  if (bad_shape()) return;
  for (; at < s->free && s->heap[at] % 2 == 0; at += n + 1, objects++) {
    n = (s->heap[at] & 0x7fffffffu) / 2;
    if ((uint64_t)at + n + 1 > s->free) break;
    starts[at] = 1;
  }
  count_edges(s->roots, s->root_count);
  for (at = first; at < s->free && starts[at]; at += n + 1) {
    n = (s->heap[at] & 0x7fffffffu) / 2;
    if (s->heap[at] >> 31 == 0) count_edges(s->heap + at + 1, n);
  }
}

/* The next line, cut out of a text; 0 at its end. */
static int next_line(const char **text, char *line, size_t size) {
  size_t length = strcspn(*text, "\n");
  if (**text == 0) return 0;
  snprintf(line, size, "%.*s", (int)length, *text);
  *text += length + ((*text)[length] != 0);
  return 1;
}

/* What a line says that a word means must be so. */
static void means(const char *meaning, uint32_t word, int with_notes) {
  long v;
  unsigned long at, code;
  if (strstr(meaning, "null") != NULL) expect(word == 0, "null is shown that is not null");
  if (strstr(meaning, "integer ") != NULL && sscanf(strstr(meaning, "integer "), "integer %ld", &v) == 1)
    expect((uint32_t)(2 * v + 1) == word, "another integer is shown");
  if (strstr(meaning, "code ") != NULL && sscanf(strstr(meaning, "code "), "code %lu", &code) == 1)
    expect(code == word && model_is_code(word), "a code word is shown that is none");
  if (strstr(meaning, "! no object") != NULL)
    expect(word % 2 == 0 && word != 0 && !model_is_code(word), "a value is shown as no object");
  if (strstr(meaning, "object at ") == NULL || sscanf(strstr(meaning, "object at "), "object at %lu", &at) != 1) return;
  expect(4 * at == word && at < sizeof starts && (!with_notes || starts[at]), "an object is shown that is none");
}

/* A line "word 9  00000000  meaning, to word 16": it must go on where the last one ended. */
static int word_line(const struct state *s, const char *line, size_t next[2], int with_notes) {
  char what[8] = "";
  unsigned long from, to, word, i;
  int end = 0, same = 1, roots;
  const char *last;
  if (sscanf(line, "%7s %lu %8lx  %n", what, &from, &word, &end) != 3 || end == 0) return 0;
  roots = strcmp(what, "root") == 0;
  last = strstr(line + end, roots ? ", to root " : ", to word ");
  to = from;
  if (last != NULL) sscanf(last + 10, "%lu", &to);
  expect(from == next[roots] && to < (roots ? s->root_count : s->words), "a word is left out, or shown twice");
  for (i = from; i <= to && i < (roots ? s->root_count : s->words); i++)
    same &= (roots ? s->roots : s->heap)[i] == word;
  expect(same, "another word is shown");
  means(line + end, (uint32_t)word, with_notes);
  next[roots] = to + 1;
  return 1;
}

/* The text, line by line; its last line that is not a word's is kept. */
static void check_text(int with_notes, char *last, size_t size) {
  const struct state *s = judged();
  const char *text = shown(phachunoi_show_text, s, with_notes);
  int has_words = s->words % 2 == 1 && s->words >= 3 && s->words <= 2097153 && s->root_count <= 65536;
  size_t next[2] = {0, 0}, others = 0;
  char line[256];
  expect(next_line(&text, line, sizeof line) && strncmp(line, "half ", 5) == 0, "a text begins otherwise");
  for (; next_line(&text, line, sizeof line); others++) {
    if (word_line(s, line, next, with_notes)) others--;
    else snprintf(last, size, "%s", line);
  }
  expect(others == 1, "a line that is no word's, too many or too few");
  expect((strncmp(last, "shape: ", 7) == 0) == bad_shape(), "the shape is not the model's");
  expect(next[0] == (has_words ? s->words : 0), "not all words are shown");
  expect(next[1] == (has_words ? s->root_count : 0), "not all roots are shown");
}

static int ends_in(const char *line, const char *end) {
  return strlen(line) >= strlen(end) && strcmp(line + strlen(line) - strlen(end), end) == 0;
}

static int even_quotes(const char *line) {
  int quotes = 0;
  for (; *line != 0; line++) quotes += *line == '"';
  return quotes % 2 == 0;
}

/* The graph, line by line. Without notes an edge may lead into an object's middle, and garbage is not told. */
static void check_graph(int with_notes, unsigned long garbage) {
  const char *text = shown(phachunoi_show_graph, judged(), with_notes), *arrow;
  uint32_t nodes = 0, arrows = 0, dashed = 0;
  static char line[65536]; /* an object is a line */
  expect(strncmp(text, "digraph phachunoi {\n", 20) == 0, "a graph begins otherwise");
  while (next_line(&text, line, sizeof line)) {
    unsigned long at = 0;
    int end = 0;
    expect(even_quotes(line), "a label is not closed");
    if (sscanf(line, " w%lu [label=%n", &at, &end) == 1 && end > 0) {
      expect(at < sizeof starts && starts[at], "a node is no object");
      nodes++;
      dashed += ends_in(line, "style=dashed, color=gray, fontcolor=gray40];");
    }
    arrow = strstr(line, " -> w");
    if (arrow == NULL || sscanf(arrow, " -> w%lu:h", &at) != 1) continue;
    expect(!with_notes || (at < sizeof starts && starts[at]), "an edge leads to no object");
    arrows++;
  }
  expect(strcmp(line, "}") == 0, "a graph ends otherwise");
  expect(nodes == objects && (!with_notes || (arrows == edges && dashed == garbage)), "nodes, edges or dashed nodes");
}

/* The garbage of a sound heap is what a collection does not keep. */
static void right_verdict(const char *line) {
  struct call collect = call_of(COLLECT, 0, 0, 0);
  struct state before = *judged();
  uint32_t used = before.free - (before.half == 0 ? 1 : (uint32_t)(before.words / 2) + 1);
  unsigned long count = 0, words = 0, garbage = 0, dead = 0;
  int sound = model_sound(&before), said;
  struct counts kept;
  said = sscanf(line, "%lu %*[objects] in %lu %*[words]; garbage: %lu in %lu", &count, &words, &garbage, &dead);
  expect(said == 4 && count == objects, "the number of objects");
  expect(ends_in(line, sound ? "; sound" : "; not sound: see the lines with !"), "the verdict is not the model's");
  check_graph(1, garbage);
  if (!sound) return;
  kept = judge_call(&collect).counts;
  expect(words == used && dead == used - kept.live, "garbage is not what a collection drops");
  expect(garbage == count - kept.objects, "the number of objects that a collection drops");
}

static void check_shown(void) {
  char last[256] = "";
  judge_settle();
  note_objects(judged());
  check_text(0, last, sizeof last);
  check_graph(0, 0);
  check_text(1, last, sizeof last);
  if (bad_shape()) check_graph(1, 0);
  else right_verdict(last);
}

/* Lengths and records at their limits; all words are 0. */
static void limits_of_shape(void) {
  static const size_t lengths[] = {0, 1, 2, 3, 4, 5, 2097151, 2097152, 2097153, 2097154, 2097155};
  uint32_t i;
  for (i = 0; i < sizeof lengths / sizeof lengths[0]; i++) {
    judge_lend(lengths[i], 1);
    check_shown();
  }
  for (i = 65535; i <= 65537; i++) {
    judge_lend(17, i);
    check_shown();
  }
  for (i = 0; i < 3 * 20; i++) {
    judge_lend(17, 1);
    judged()->half = i / 20;
    judged()->free = i % 20;
    check_shown();
  }
}

static void every_bit_of_p5(void) {
  uint32_t bit;
  for (bit = 0; bit < P5_BITS; bit++) {
    judge_lend(17, 2);
    flipped_p5(bit);
    check_shown();
  }
}

/* Were each address looked for among all objects, this would take minutes. */
static void large_heap(void) {
  judge_lend(200001, 30000);
  sound_heap(judged());
  expect(strlen(shown(phachunoi_show_text, judged(), 1)) > 100000, "a large heap as text");
  expect(strlen(shown(phachunoi_show_graph, judged(), 1)) > 100000, "a large heap as a graph");
}

void showing(uint32_t heaps) {
  judge_part("heaps shown");
  p5_before_and_after();
  fresh_and_refused();
  damaged();
  broken();
  code_words();
  limits_of_shape();
  every_bit_of_p5();
  for (; heaps > 0; heaps--) {
    lend_some_heap();
    check_shown();
  }
  large_heap();
}
