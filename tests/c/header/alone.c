/* The header by itself: compiled, and not run, as C99, C11 and C++11 with every warning an error. */
#include "phachunoi.h"

/* Each inline function is named once, so that each is compiled. */
int uses_every_inline_function(phachunoi_heap *h);
int uses_every_inline_function(phachunoi_heap *h) {
  int yes = 0;
  uint32_t number = 0;
  phachunoi_counts counts = {0, 0, 0};
  size_t length = 0;
  char text[8];
  phachunoi_window window = phachunoi_heap_open(h, 0);
  uint32_t sum = phachunoi_heap_check(h, &yes) + phachunoi_heap_collect(h, &counts);
  sum += phachunoi_heap_allocate_traced(h, 1, 0) + phachunoi_heap_allocate_untraced(h, 1, 0);
  sum += phachunoi_heap_set_integer(h, 0, PHACHUNOI_INTEGER_MIN) + phachunoi_heap_set_null(h, 0);
  sum += phachunoi_heap_set_code(h, 0, PHACHUNOI_CODE_FLOOR);
  sum += phachunoi_heap_copy(h, 0, 0) + phachunoi_heap_load(h, 0, 0, 0) + phachunoi_heap_store(h, 0, 0, 0);
  sum += phachunoi_heap_raw_read(h, 0, 0, &number) + phachunoi_heap_raw_write(h, 0, 0, 7);
  sum += phachunoi_heap_same(h, 0, 0, &yes) + phachunoi_heap_inspect(h, 0).refusal;
  sum += phachunoi_heap_word(h, window, 0, &number) + phachunoi_heap_write(h, 0, text, sizeof text, &length);
  sum += phachunoi_heap_read(h, 0, text, length);
  sum += phachunoi_heap_begin(h, h->words, (h->word_count - 1) / 2, h->roots, h->root_count);
  return phachunoi_refusal_text(sum)[0];
}
