/* The words and tests of documents 01 and 02 in plain C, for the baselines and the twins. */
#ifndef RULES_H
#define RULES_H

#include <stddef.h>
#include <stdint.h>
#include <string.h>

#define RARELY(x) __builtin_expect(!!(x), 0)

/* Of two functions that call each other: the one that is cheap in most cases, and the one for the rest. */
#define IN_PLACE inline __attribute__((always_inline))
#define APART __attribute__((noinline))

static inline uint32_t count_of(uint32_t header) { return (header & 0x7fffffffu) >> 1; }

#define CODE_FLOOR 16777216u

static inline int is_code(uint32_t word) { return (word & 1) == 0 && word >= CODE_FLOOR; }

static inline int is_address(uint32_t word) { return (word & 1) == 0 && word != 0 && word < CODE_FLOOR; }

static inline uint32_t half_size(size_t words) { return (uint32_t)(words - 1) / 2; }

static inline uint32_t first_word(size_t words, uint32_t half) { return half ? half_size(words) + 1 : 1; }

/* The free words of a half. */
static inline uint32_t spare(size_t words, uint32_t half, uint32_t free) {
  return first_word(words, half) + half_size(words) - free;
}

static inline int bad_length(size_t words) { return words % 2 == 0 || words - 3 > 2097153 - 3; }

static inline int bad_shape(size_t words, size_t root_count, uint32_t half, uint32_t free) {
  if (bad_length(words) || root_count > 65536 || half > 1) return 1;
  return free - first_word(words, half) > half_size(words); /* a free index below the half wraps round */
}

/* Whether a word names an object of the used words from `first` to `free`; 0 lies below every first word. */
static inline int names(const uint32_t *heap, uint32_t first, uint32_t free, uint32_t word) {
  uint32_t at = word / 4;
  if (word % 4 != 0 || at - first >= free - first || heap[at] % 2 == 1) return 0;
  return count_of(heap[at]) < free - at;
}

/* Up to four zeros straight, more by the C library. */
static inline void clear_words(uint32_t *word, uint32_t n) {
  if (n > 4) {
    memset(word, 0, n * sizeof *word);
    return;
  }
  if (n == 0) return;
  word[0] = 0;
  if (n == 1) return;
  word[1] = 0;
  if (n == 2) return;
  word[2] = 0;
  if (n == 3) return;
  word[3] = 0;
}

/* A new object at the free words. Answers the next free word. */
static inline uint32_t place(uint32_t *heap, uint32_t free, uint32_t n, int untraced) {
  heap[free] = (uint32_t)untraced << 31 | n << 1;
  clear_words(heap + free + 1, n);
  return free + n + 1;
}

#endif
