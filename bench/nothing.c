/* The calls that do nothing: one function by many names. It answers "done" in the registers that any of their structs
   is returned in; but for collect's, which is too long for them, and which the caller lends the words for. */
#include "twins.h"

phachunoi_result nothing(void);
phachunoi_result nothing(void) {
  phachunoi_result r = {0, 0, {0, 0}};
  return r;
}

phachunoi_collected nothing_collect(uint32_t *heap, size_t word_count, uint32_t *roots, size_t root_count,
                                    phachunoi_record record) {
  phachunoi_collected c = {0, 0, 0, 0, {0, 0}};
  (void)heap, (void)word_count, (void)roots, (void)root_count, (void)record;
  return c;
}

#define BY_NAME(call) extern __typeof__(phachunoi_##call) nothing_##call __attribute__((alias("nothing")));
EACH_CALL_BUT_COLLECT(BY_NAME)
