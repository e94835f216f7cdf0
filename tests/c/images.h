/* The image of a heap: its used words and its roots, with each address as a place in the half. So heaps of any size and
 * half can be compared.
 */
#ifndef IMAGES_H
#define IMAGES_H

#include "words.h"

/* In an image, an address: with the words from the half's first word to the header. So the first object is not null. */
#define OBJECT_AT ((uint64_t)1 << 32)

struct image {
  size_t used, root_count;
  uint64_t words[LONGEST / 2], roots[65536];
};

/* Answers 0, and makes no image, if the shape is bad or objects do not fill the used words. */
int image_of(struct image *image, const struct state *s);
int images_equal(const struct image *a, const struct image *b);

#endif
