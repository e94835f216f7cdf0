/* Images, object by object: a header tells which of the words after it are values. */
#include "images.h"

#include <string.h>

static uint64_t pictured(const struct state *s, uint32_t word) {
  return plain(word) ? word : OBJECT_AT + (word / 4 - first_word(s, s->half));
}

/* Even headers, and counts that lead from one to the next up to the free index. */
static int objects_fill(const struct state *s) {
  uint64_t at = first_word(s, s->half);
  while (at < s->free && s->heap[at] % 2 == 0) at += (uint64_t)fields_of(s->heap[at]) + 1;
  return at == s->free;
}

static void add_object(struct image *image, const struct state *s, uint32_t at) {
  uint32_t k, header = s->heap[at];
  image->words[image->used++] = header;
  for (k = 1; k <= fields_of(header); k++)
    image->words[image->used++] = untraced(header) ? s->heap[at + k] : pictured(s, s->heap[at + k]);
}

static void add_objects(struct image *image, const struct state *s) {
  uint32_t at;
  for (at = first_word(s, s->half); at < s->free; at += fields_of(s->heap[at]) + 1) add_object(image, s, at);
}

int image_of(struct image *image, const struct state *s) {
  size_t r;
  if (bad_shape(s) || !objects_fill(s)) return 0;
  image->used = 0;
  image->root_count = s->root_count;
  add_objects(image, s);
  for (r = 0; r < s->root_count; r++) image->roots[r] = pictured(s, s->roots[r]);
  return 1;
}

int images_equal(const struct image *a, const struct image *b) {
  return a->used == b->used && a->root_count == b->root_count &&
         memcmp(a->words, b->words, a->used * sizeof a->words[0]) == 0 &&
         memcmp(a->roots, b->roots, a->root_count * sizeof a->roots[0]) == 0;
}
