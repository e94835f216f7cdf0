/* Words, objects and refusals as documents 01 and 02 have them, for the files of the model and for tests that
   look at a heap's words. */
#ifndef WORDS_H
#define WORDS_H

#include "model.h"

enum { SHAPE = 1, ROOT, COUNT, RANGE, OBJECT, KIND, FIELD, DAMAGED, ROOM, VALUE, DEEP, TEXT };

#define LONGEST 2097153u
#define MOST_FIELDS 1073741823u

static inline uint32_t half_size(const struct state *s) { return (uint32_t)((s->words - 1) / 2); }

static inline uint32_t first_word(const struct state *s, uint32_t half) { return half == 0 ? 1 : half_size(s) + 1; }

static inline uint32_t fields_of(uint32_t header) { return (header & 0x7fffffffu) >> 1; }

static inline int untraced(uint32_t header) { return (header >> 31) != 0; }

/* Integers, null and code words, which a collection neither follows nor changes. */
static inline int plain(uint32_t word) { return word % 2 == 1 || word == 0 || model_is_code(word); }

static inline int bad_length(size_t words) { return words % 2 == 0 || words < 3 || words > LONGEST; }

static inline int bad_shape(const struct state *s) {
  if (bad_length(s->words) || s->root_count > 65536 || s->half > 1) return 1;
  return s->free < first_word(s, s->half) || s->free > first_word(s, s->half) + half_size(s);
}

/* "A word names an object when .." */
static inline int names(const struct state *s, uint32_t word) {
  uint32_t index = word / 4;
  if (word % 2 != 0 || word == 0 || word % 4 != 0) return 0;
  if (index < first_word(s, s->half) || index >= s->free) return 0;
  if (s->heap[index] % 2 != 0) return 0;
  return (uint64_t)index + fields_of(s->heap[index]) + 1 <= s->free;
}

/* 2v + 1 back to v, by the value and not by the bits. */
static inline int32_t integer_of(uint32_t word) {
  int64_t twice = word < 0x80000000u ? (int64_t)word : (int64_t)word - 4294967296;
  return (int32_t)((twice - 1) / 2);
}

#endif
