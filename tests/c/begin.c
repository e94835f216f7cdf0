/* The header's struct: `begin` lends, clears and refuses; the other inline functions are judged with every call. */
#include <string.h>

#include "judge.h"
#include "parts.h"
#include "phachunoi.h"

#define HALF 8

static uint32_t words[PHACHUNOI_WORDS(HALF)];
static uint32_t roots[3];

static void dirty(void) {
  memset(words, 0x5a, sizeof words);
  memset(roots, 0x5a, sizeof roots);
}

static int all_are(const uint32_t *run, size_t n, uint32_t word) {
  size_t i = 0;
  while (i < n && run[i] == word) i++;
  return i == n;
}

static void refuses(size_t half, size_t root_count, const char *wrong) {
  phachunoi_heap h;
  dirty();
  expect(phachunoi_heap_begin(&h, words, half, roots, root_count) == PHACHUNOI_SHAPE, wrong);
  expect(all_are(words, PHACHUNOI_WORDS(HALF), 0x5a5a5a5au) && all_are(roots, 3, 0x5a5a5a5au), "a refused begin writes");
}

void struct_begin(void) {
  phachunoi_heap h;
  int sound = 0;
  judge_part("the header's struct");
  dirty();
  expect(phachunoi_heap_begin(&h, words, HALF, roots, 2) == PHACHUNOI_DONE, "begin is refused");
  expect(all_are(words, PHACHUNOI_WORDS(HALF), 0) && all_are(roots, 2, 0), "begin clears words and roots");
  expect(roots[2] == 0x5a5a5a5au, "begin clears a root too many");
  expect(h.record.half == PHACHUNOI_A && h.record.free == 1, "begin's record");
  expect(phachunoi_heap_check(&h, &sound) == PHACHUNOI_DONE && sound == 1, "begin's heap is sound");
  refuses(0, 2, "a half of no words");
  refuses(PHACHUNOI_MAX_HALF + 1, 2, "a half too large");
  refuses((size_t)1 << 63, 2, "a half whose words overflow");
  refuses(HALF, PHACHUNOI_MAX_ROOTS + 1, "too many roots");
}
