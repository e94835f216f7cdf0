/* The object graph of demand 3: a session on objects that never move and never run out, with a limit on live words. */
#ifndef GRAPH_H
#define GRAPH_H

#include "model.h"

#define GRAPH_NO_LIMIT 0xffffffffu

void graph_start(size_t root_count, uint32_t half); /* half: ROOM is given when live and needed words exceed it */
struct said graph_call(const struct call *c);       /* session calls only */
const char *graph_bytes(void);                      /* what the last call left of the bytes lent for its text */

/* For those who make lists of calls: what a root holds, as inspect's kind; and an object's count of fields. */
struct said graph_holds(size_t root);

#endif
