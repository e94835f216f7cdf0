/* Printing of states, calls and answers. Long states are cut: a small case is what one reads. */
#include "show.h"

#include <inttypes.h>
#include <stdlib.h>
#include <string.h>

#include "archive.h"
#include "phachunoi_show.h"

static const char *const op_names[OPS] = {
    "fresh", "check", "collect", "allocate_traced", "allocate_untraced", "set_integer", "set_null", "set_code",
    "copy",  "load",  "store",   "raw_read",        "raw_write",         "same",        "inspect",  "open",
    "word",  "write", "read"};

/* Of exactly the size lent, so that a build with a checker of addresses sees every step beside it. */
static uint32_t *copy_of(const uint32_t *run, size_t n) {
  uint32_t *copy = malloc(n * sizeof run[0] + (n == 0));
  if (copy == NULL) abort();
  memset(copy, 0x5a, n * sizeof run[0]); /* what a host lends for notes may hold anything */
  if (run != NULL) memcpy(copy, run, n * sizeof run[0]);
  return copy;
}

/* Shows a copy, and says whether it is as it was. */
static int leaves_as_it_was(shower *show, FILE *out, const struct state *s, int with_notes) {
  phachunoi_heap h = heap_of(s);
  uint32_t *notes = with_notes ? copy_of(NULL, s->words / 2) : NULL;
  int same;
  h.words = copy_of(s->heap, s->words);
  h.roots = copy_of(s->roots, s->root_count);
  show(out, &h, notes);
  same = memcmp(h.words, s->heap, s->words * sizeof h.words[0]) == 0 &&
         memcmp(h.roots, s->roots, s->root_count * sizeof h.roots[0]) == 0;
  free(h.words);
  free(h.roots);
  free(notes);
  return same;
}

const char *shown(shower *show, const struct state *s, int with_notes) {
  static char text[LONGEST_SHOWN + 1];
  static FILE *file;
  size_t length;
  if (file == NULL && (file = tmpfile()) == NULL) return "no temporary file to show a heap in\n";
  rewind(file);
  if (!leaves_as_it_was(show, file, s, with_notes)) return "a heap was changed while it was shown\n";
  length = (size_t)ftell(file);
  rewind(file);
  length = fread(text, 1, length < LONGEST_SHOWN ? length : LONGEST_SHOWN, file);
  text[length] = 0;
  return text;
}

/* Of a large heap the first lines must do. */
void show_state(const char *label, const struct state *s) {
  const char *line = shown(phachunoi_show_text, s, 1);
  int lines;
  printf("  %s\n", label);
  for (lines = 0; lines < 100 && *line != 0; lines++) {
    size_t length = strcspn(line, "\n");
    printf("    %.*s\n", (int)length, line);
    line += length + (line[length] != 0);
  }
  if (*line != 0) printf("    ..\n");
}

void show_call(const struct call *c) {
  printf("  call    %s a %zu b %zu c %zu integer %" PRId64 " number %" PRIx32, op_names[c->op], c->a, c->b, c->c,
         c->integer, c->number);
  printf(" window %" PRIu32 " %" PRIu32 " %" PRIu32 "\n", c->window[0], c->window[1], c->window[2]);
  if (c->op == READ) printf("  text    %.*s\n", c->b < 200 ? (int)c->b : 200, c->text);
}

void show_said(const char *label, struct said said, const struct state *after) {
  printf("  %s refusal %" PRIu32 " value %" PRIx32 " kind %" PRIu32 " integer %" PRId32 " count %" PRIu32
         " first %" PRIu32 " code %" PRIx32 " length %zu",
         label, said.refusal, said.value, said.kind, said.integer, said.count, said.first, said.code, said.length);
  printf(" live %" PRIu32 " objects %" PRIu32 " addresses %" PRIu32 "; half %" PRIu32 " free %" PRIu32 "\n",
         said.counts.live, said.counts.objects, said.counts.addresses, after->half, after->free);
}

static void show_difference(const char *what, const uint32_t *model, const uint32_t *archive, size_t n) {
  size_t i = 0;
  while (i < n && model[i] == archive[i]) i++;
  if (i < n) printf("  %s %zu: model %" PRIx32 ", archive %" PRIx32 "\n", what, i, model[i], archive[i]);
}

void show_first_difference(const struct state *model, const struct state *archive) {
  show_difference("word", model->heap, archive->heap, model->words);
  show_difference("root", model->roots, archive->roots, model->root_count);
}

void show_bytes(const struct lent *model, const struct lent *archive) {
  ptrdiff_t i = -(ptrdiff_t)GUARDS, end = (ptrdiff_t)(model->s.bytes + GUARDS);
  while (i < end && model->s.text[i] == archive->s.text[i]) i++;
  if (i == end) return;
  printf("  byte %td of %zu: model %x, archive %x\n", i, model->s.bytes, (unsigned char)model->s.text[i],
         (unsigned char)archive->s.text[i]);
}
