/* Two heaps of one graph: of a heap without garbage, a second one with the objects at other places, garbage between
 * them, another size and some half.
 */
#ifndef REARRANGED_H
#define REARRANGED_H

#include "model.h"

/* How the last one differs from what it was made from. */
struct rearranged {
  int other_size, other_order, garbage_between, just_full;
};

/* The judged heap becomes one, settled. `packed` is sound, has no garbage and is not the judged heap itself. */
struct rearranged lend_rearranged(const struct state *packed);

/* In the last one, or in a copy of it: an integer in a root or in a field of an object that a root reaches. NULL if a
   few tries find none. */
uint32_t *live_integer(const struct state *s);

#endif
