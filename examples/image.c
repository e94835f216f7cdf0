/* Images: what a heap holds as text, for tests to store and compare. Builds one structure twice, in heaps of two sizes,
   in another order and with garbage; collected, both heaps have one image, and keep it. */
#include <inttypes.h>
#include <stdio.h>
#include <stdlib.h>

#include "phachunoi.h"

/* ---- the image: copy this into a test ---- */

static uint32_t first_word(const phachunoi_heap *heap) {
  return heap->record.half == PHACHUNOI_A ? 1 : (uint32_t)(heap->word_count / 2) + 1;
}

/* Each value has a text of its own, so that two graphs never have one image. @k is the object whose header is k words
   past the half's first word: that is the same in both halves, and in heaps of any size. */
static void print_value(FILE *out, const phachunoi_heap *heap, uint32_t word) {
  if (word % 2 == 1) fprintf(out, " %" PRId64, (int64_t)(word / 2) - (word >> 31 != 0 ? 2147483648 : 0));
  else if (word == 0) fputs(" null", out);
  else if (word >= PHACHUNOI_CODE_FLOOR) fprintf(out, " code %" PRIu32, word);
  else fprintf(out, " @%" PRIu32, word / 4 - first_word(heap));
}

/* Answers the index past the object. */
static uint32_t print_object(FILE *out, const phachunoi_heap *heap, uint32_t at) {
  uint32_t header = heap->words[at], end = at + (header & 0x7fffffffu) / 2 + 1;
  int untraced = header >> 31 != 0;
  fprintf(out, "@%" PRIu32 " %s:", at - first_word(heap), untraced ? "untraced" : "traced");
  for (at++; at < end; at++)
    if (untraced) fprintf(out, " %08" PRIx32, heap->words[at]); /* raw words are no values */
    else print_value(out, heap, heap->words[at]);
  fputc('\n', out);
  return end;
}

/* A line a root, then a line an object, garbage too: collect first. Of a heap that is not sound it says only that: its
   headers could lead anywhere. */
static void print_image(FILE *out, const phachunoi_heap *heap) {
  uint32_t at = first_word(heap);
  size_t i;
  if (phachunoi_check(PHACHUNOI_LENT(heap)).value == 0) {
    fputs("not sound\n", out);
    return;
  }
  for (i = 0; i < heap->root_count; i++) {
    fprintf(out, "root %zu:", i);
    print_value(out, heap, heap->roots[i]);
    fputc('\n', out);
  }
  while (at < heap->record.free) at = print_object(out, heap, at);
}

/* ---- one structure, by two ways ---- */

enum { TOP, LINK, TEXT, ROOTS }; /* root numbers */

static uint32_t few_words[PHACHUNOI_WORDS(16)], few_roots[ROOTS];
static uint32_t many_words[PHACHUNOI_WORDS(100)], many_roots[ROOTS];

static void must(enum phachunoi_refusal refusal) {
  if (refusal == PHACHUNOI_DONE) return;
  fprintf(stderr, "image: %s\n", phachunoi_refusal_text(refusal));
  exit(1);
}

/* The top holds the link twice and function 3; the link holds the top, -10 and the text; the text is "hello". */
static void join(phachunoi_heap *heap) {
  must(phachunoi_heap_store(heap, TOP, 0, LINK));
  must(phachunoi_heap_store(heap, TOP, 1, LINK));
  must(phachunoi_heap_store(heap, LINK, 0, TOP));
  must(phachunoi_heap_store(heap, LINK, 2, TEXT));
  must(phachunoi_heap_raw_write(heap, TEXT, 0, 0x6c6c6568));
  must(phachunoi_heap_raw_write(heap, TEXT, 1, 0x0000006f));
  must(phachunoi_heap_set_code(heap, TEXT, PHACHUNOI_CODE_FLOOR + 2 * 3));
  must(phachunoi_heap_store(heap, TOP, 2, TEXT));
  must(phachunoi_heap_set_integer(heap, TEXT, -10));
  must(phachunoi_heap_store(heap, LINK, 1, TEXT));
  must(phachunoi_heap_set_null(heap, LINK));
}

static void build(phachunoi_heap *few, phachunoi_heap *many) {
  must(phachunoi_heap_begin(few, few_words, 16, few_roots, ROOTS));
  must(phachunoi_heap_allocate_traced(few, 3, LINK));
  must(phachunoi_heap_allocate_untraced(few, 2, TEXT));
  must(phachunoi_heap_allocate_traced(few, 3, TOP));
  join(few);
  must(phachunoi_heap_begin(many, many_words, 100, many_roots, ROOTS));
  must(phachunoi_heap_allocate_untraced(many, 2, TEXT));
  must(phachunoi_heap_allocate_traced(many, 1, TOP)); /* garbage, as soon as TOP holds something else */
  must(phachunoi_heap_allocate_traced(many, 3, TOP));
  must(phachunoi_heap_allocate_traced(many, 3, LINK));
  join(many);
}

static void show(const char *when, const phachunoi_heap *heap) {
  printf("%s, S = %zu, half %c\n", when, heap->word_count / 2, heap->record.half == PHACHUNOI_A ? 'A' : 'B');
  print_image(stdout, heap);
}

int main(void) {
  phachunoi_heap few, many;
  phachunoi_counts counts;
  build(&few, &many);
  show("built", &few);
  show("built", &many);
  must(phachunoi_heap_collect(&few, &counts));
  must(phachunoi_heap_collect(&many, &counts));
  show("collected", &few);
  show("collected", &many);
  must(phachunoi_heap_collect(&many, &counts));
  show("collected again", &many);
  return 0;
}
