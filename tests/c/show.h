/* Printing of states, calls and answers, for a case that differed; and what phachunoi_show.h writes, as text. */
#ifndef SHOW_H
#define SHOW_H

#include <stdio.h>

#include "lent.h"
#include "phachunoi.h"

#define LONGEST_SHOWN 16777216u

/* A function of phachunoi_show.h. */
typedef void shower(FILE *out, const phachunoi_heap *h, uint32_t *notes);

/* What it writes of a copy of a state, up to LONGEST_SHOWN characters, or that it changed the copy; good until the next
   call. */
const char *shown(shower *show, const struct state *s, int with_notes);

void show_state(const char *label, const struct state *s);
void show_call(const struct call *c);
void show_said(const char *label, struct said said, const struct state *after);
void show_first_difference(const struct state *model, const struct state *archive);
void show_bytes(const struct lent *model, const struct lent *archive); /* what differs of a text lent */

#endif
