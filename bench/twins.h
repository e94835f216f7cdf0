/* A twin in C of each exported call: the same words lent, the same tests in the same order, the same struct returned,
   written from documents 01 and 02 alone. And a call that does nothing, by the name and type of each: what it costs is
   what the arguments, the call, the return and a loop around them cost. */
#ifndef TWINS_H
#define TWINS_H

#include "phachunoi.h"

uint32_t twin_version(void);
phachunoi_result twin_fresh(uint32_t *heap, size_t word_count, phachunoi_record record);
phachunoi_answer twin_check(uint32_t *heap, size_t word_count, const uint32_t *roots, size_t root_count,
                            phachunoi_record record);
phachunoi_collected twin_collect(uint32_t *heap, size_t word_count, uint32_t *roots, size_t root_count,
                                 phachunoi_record record);
phachunoi_result twin_allocate_traced(uint32_t *heap, size_t word_count, uint32_t *roots, size_t root_count,
                                      phachunoi_record record, size_t fields, size_t to);
phachunoi_result twin_allocate_untraced(uint32_t *heap, size_t word_count, uint32_t *roots, size_t root_count,
                                        phachunoi_record record, size_t fields, size_t to);
phachunoi_answer twin_set_integer(const uint32_t *heap, size_t word_count, uint32_t *roots, size_t root_count,
                                  phachunoi_record record, size_t to, int64_t value);
phachunoi_answer twin_set_null(const uint32_t *heap, size_t word_count, uint32_t *roots, size_t root_count,
                               phachunoi_record record, size_t to);
phachunoi_answer twin_set_code(const uint32_t *heap, size_t word_count, uint32_t *roots, size_t root_count,
                               phachunoi_record record, size_t to, uint32_t word);
phachunoi_answer twin_copy(const uint32_t *heap, size_t word_count, uint32_t *roots, size_t root_count,
                           phachunoi_record record, size_t from, size_t to);
phachunoi_answer twin_load(const uint32_t *heap, size_t word_count, uint32_t *roots, size_t root_count,
                           phachunoi_record record, size_t object, size_t field, size_t to);
phachunoi_answer twin_store(uint32_t *heap, size_t word_count, const uint32_t *roots, size_t root_count,
                            phachunoi_record record, size_t object, size_t field, size_t from);
phachunoi_answer twin_raw_read(const uint32_t *heap, size_t word_count, const uint32_t *roots, size_t root_count,
                               phachunoi_record record, size_t object, size_t field);
phachunoi_answer twin_raw_write(uint32_t *heap, size_t word_count, const uint32_t *roots, size_t root_count,
                                phachunoi_record record, size_t object, size_t field, uint32_t number);
phachunoi_answer twin_same(const uint32_t *heap, size_t word_count, const uint32_t *roots, size_t root_count,
                           phachunoi_record record, size_t one, size_t other);
phachunoi_seen twin_inspect(const uint32_t *heap, size_t word_count, const uint32_t *roots, size_t root_count,
                            phachunoi_record record, size_t root);
phachunoi_window twin_open(const uint32_t *heap, size_t word_count, const uint32_t *roots, size_t root_count,
                           phachunoi_record record, size_t object);
phachunoi_answer twin_word(const uint32_t *heap, size_t word_count, phachunoi_window window, size_t field);
phachunoi_written twin_write(const uint32_t *heap, size_t word_count, const uint32_t *roots, size_t root_count,
                             phachunoi_record record, size_t root, char *text, size_t bytes);
phachunoi_result twin_read(uint32_t *heap, size_t word_count, uint32_t *roots, size_t root_count,
                           phachunoi_record record, size_t to, const char *text, size_t bytes);

#define EACH_CALL_BUT_COLLECT(of)                                                                             \
  of(version) of(fresh) of(check) of(allocate_traced) of(allocate_untraced) of(set_integer) of(set_null)      \
  of(set_code) of(copy) of(load) of(store) of(raw_read) of(raw_write) of(same) of(inspect) of(open) of(word)  \
  of(write) of(read)
#define NOTHING(call) extern __typeof__(phachunoi_##call) nothing_##call;
EACH_CALL_BUT_COLLECT(NOTHING)
NOTHING(collect)

#endif
