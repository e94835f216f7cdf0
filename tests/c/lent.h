/* Lent runs: heap words, roots and bytes inside larger blocks, with guards on both sides that no call may change. */
#ifndef LENT_H
#define LENT_H

#include "texts.h"

#define LENT_WORDS 2097160u /* above the longest heap, for lengths that must be refused */
#define LENT_ROOTS 65540u
#define GUARDS 16u

struct lent {
  struct state s;
  uint32_t heap_block[LENT_WORDS + 2 * GUARDS];
  uint32_t roots_block[LENT_ROOTS + 2 * GUARDS];
  char text_block[LONGEST_TEXT + 2 * GUARDS];
};

void lend(struct lent *l, size_t words, size_t root_count); /* all words and roots 0, half A, free 1, guards set */
void lend_copy(struct lent *l, const struct state *s);      /* as much as a state has, and what it has */
void copy_lent(struct lent *to, const struct lent *from);   /* the state; both were lent the same lengths */
int guards_hold(const struct lent *l);
int states_equal(const struct state *a, const struct state *b);

/* The bytes that a call is lent for a text, none for most. To be read, they hold the text; to be written, each holds
   what no text has, and what its neighbours do not, so that every byte written shows. */
void lend_bytes(struct lent *l, const struct call *c);
void fill_bytes(char *text, size_t bytes);
int bytes_equal(const struct lent *a, const struct lent *b); /* with their guards */

#endif
