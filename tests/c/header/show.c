/* phachunoi_show.h by itself: compiled, and not run, as C99, C11 and C++11 with every warning an error. */
#include "phachunoi_show.h"

void uses_both_functions(FILE *out, const phachunoi_heap *h, uint32_t *room);
void uses_both_functions(FILE *out, const phachunoi_heap *h, uint32_t *room) {
  phachunoi_show_text(out, h, room);
  phachunoi_show_graph(out, h, room);
}
