/* Heaps at random whose values have texts, or almost: document 02's Q-2 asks for more than other heaps give. */
#ifndef TUPLES_H
#define TUPLES_H

#include "model.h"

void tuple_heap(struct state *s); /* lent a good length */

#endif
