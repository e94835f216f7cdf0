/* A value as text: builds a tuple by calls, writes it as Standard ML writes it, and shows what has no text; then reads
   texts, and what is none. */
#include <stdio.h>
#include <stdlib.h>
#include <string.h>

#include "phachunoi.h"

enum { WHOLE, PART, WORK, ROOTS }; /* root numbers */

static uint32_t words[PHACHUNOI_WORDS(32)], roots[ROOTS];

/* An interpreter would tell its user. */
static void must(enum phachunoi_refusal refusal) {
  if (refusal == PHACHUNOI_DONE) return;
  fprintf(stderr, "text: %s\n", phachunoi_refusal_text(refusal));
  exit(1);
}

static void put_integer(phachunoi_heap *heap, size_t object, size_t field, int value) {
  must(phachunoi_heap_set_integer(heap, WORK, value));
  must(phachunoi_heap_store(heap, object, field, WORK));
}

/* The text, as far as there are bytes for it, or why there is none. No zero byte ends it: its length is told. */
static void show(phachunoi_heap *heap, size_t root, size_t bytes) {
  char text[100];
  size_t length;
  enum phachunoi_refusal refusal = phachunoi_heap_write(heap, root, text, bytes, &length);
  if (refusal == PHACHUNOI_DONE) printf("%.*s\n", (int)length, text);
  else printf("in %u bytes: %s\n", (unsigned)bytes, phachunoi_refusal_text(refusal));
}

/* Reads a text and writes again what was read, or says why it cannot. */
static void go_round(phachunoi_heap *heap, const char *text) {
  enum phachunoi_refusal refusal = phachunoi_heap_read(heap, PART, text, strlen(text));
  if (refusal == PHACHUNOI_DONE) show(heap, PART, 100);
  else printf("%s: %s\n", text, phachunoi_refusal_text(refusal));
}

int main(void) {
  phachunoi_heap heap;
  phachunoi_counts counts;
  must(phachunoi_heap_begin(&heap, words, 32, roots, ROOTS));
  must(phachunoi_heap_allocate_traced(&heap, 2, PART));
  put_integer(&heap, PART, 0, 23);
  put_integer(&heap, PART, 1, -42);
  show(&heap, PART, 100);
  must(phachunoi_heap_allocate_traced(&heap, 3, WHOLE)); /* the same part twice, and an object of one field */
  must(phachunoi_heap_store(&heap, WHOLE, 0, PART));
  must(phachunoi_heap_store(&heap, WHOLE, 1, PART));
  must(phachunoi_heap_allocate_traced(&heap, 1, PART));
  must(phachunoi_heap_store(&heap, WHOLE, 2, PART));
  show(&heap, WHOLE, 100); /* the new object's field is null, and null has no text */
  show(&heap, WHOLE, 10);  /* the bytes run out before null is met */
  put_integer(&heap, PART, 0, 7);
  must(phachunoi_heap_collect(&heap, &counts));
  show(&heap, WHOLE, 100);
  go_round(&heap, "(1,(2,3),{1=()})");
  go_round(&heap, "(1, 2)"); /* there are no blanks in a text */
  go_round(&heap, "(1,2,3,4,5,6,7,8,9,10,11,12,13,14,15,16,17,18,19,20,21,22,23,24)");
  return 0;
}
