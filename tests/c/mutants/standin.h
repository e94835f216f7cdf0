/* What the files of the stand-in share: which mistake is made, what a call was lent, words and objects. */
#ifndef STANDIN_H
#define STANDIN_H

#include "phachunoi.h"

#ifndef MUTANT
#define MUTANT 0
#endif
#define BUG(number) (MUTANT == (number))
/* MUTANTS 181 */

typedef struct phachunoi_record record_t;
struct view { /* what a call was lent */
  uint32_t *heap;
  size_t words;
  uint32_t *roots;
  size_t root_count;
  record_t record;
};

#define VIEW struct view v = {(uint32_t *)heap, words, (uint32_t *)roots, root_count, record}
#define HEADER_COUNT(h) (((h)&0x7fffffffu) >> 1)

size_t half_of(const struct view *v);
size_t first_of(const struct view *v, uint32_t half);
size_t end_of(const struct view *v);
int shape_ok(const struct view *v);
int is_code(uint32_t word);
int plain(uint32_t word); /* odd, null or a code word */
int names(const struct view *v, uint32_t word);
int sound(const struct view *v);
phachunoi_counts collect(struct view *v, size_t dead); /* `dead` is a root that does not count, or none */

#endif
