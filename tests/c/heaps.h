/* Heaps at random, written word by word: sound ones, damage to them, noise, and P5. */
#ifndef HEAPS_H
#define HEAPS_H

#include "model.h"

void sound_heap(struct state *s);  /* lent a good length; some half, some objects, values, roots */
void stretched_heap(struct state *s); /* the same in the half that is set, with stretches of objects of one sort */
void damage(struct state *s);      /* one change that often makes a heap unsound, or its shape bad */
void noise(struct state *s);       /* words of no plan */
void p5_heap(struct state *s);     /* document 01's P5; lent 17 words and at least 2 roots; further roots are null */

#endif
