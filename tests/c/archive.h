/* The archive behind the model's interface, so that one list of calls serves both. */
#ifndef ARCHIVE_H
#define ARCHIVE_H

#include "model.h"
#include "phachunoi.h"

phachunoi_heap heap_of(const struct state *s); /* the header's struct over the same words and roots */

/* through_struct: by the header's struct and inline functions, instead of the archive's own calls. */
struct said archive_call(struct state *s, const struct call *c, int through_struct);

#endif
