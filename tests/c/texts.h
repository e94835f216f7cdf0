/* Texts of Standard ML as document 02's Q-2 has them, for the model's heap and for the graph: a writer and a reader
 * that know nothing of words, and the heap's values as the writer sees them.
 */
#ifndef TEXTS_H
#define TEXTS_H

#include "model.h"

#define LONGEST_TEXT 262144u /* bytes; no test lends more */

/* A value as a text sees it. NO_KIND is a word of no kind; NO_TEXT is null, a code word or an untraced object. */
enum sort { NO_KIND, NO_TEXT, WHOLE_NUMBER, TUPLE };

struct looked_at {
  enum sort sort;
  int64_t number;
  uint32_t fields;
};

/* Where values live: how to look at one, and at its fields. `in` is what they live in. */
struct values {
  struct looked_at (*look)(const void *in, const void *value);
  const void *(*field)(const void *in, const void *value, uint32_t number);
};

/* How a text ends: with refusal 0 at its length; or with the first fault from the left, and where that is. */
struct text_end {
  uint32_t refusal;
  size_t at;
};

/* Writes to `text` what fits before the end. */
struct text_end write_text(const struct values *values, const void *in, const void *value, char *text, size_t bytes);

/* The text of a root, SHAPE and ROOT included; not to the bytes lent, but kept until the next call. */
struct text_end text_of_root(const struct state *s, size_t root, size_t bytes);

/* The call: to the bytes lent, if all goes well. */
uint32_t model_write(struct state *s, size_t root, size_t *length);

/* What a text says: its values, in the order in which their texts begin, each an integer or a tuple; and the words that
   they need, n + 1 for each tuple of n fields. Or the first fault from the left. Good until the next call. */
struct text_read {
  uint32_t refusal;
  const struct looked_at *values;
  uint64_t words;
};

struct text_read read_text(const char *text, size_t bytes);

#endif
