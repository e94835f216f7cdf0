/* Calls at random, with arguments that are mostly good for the state they meet, and bad in every way now and then. */
#ifndef CALLS_H
#define CALLS_H

#include "model.h"

struct call call_of(enum op op, size_t a, size_t b, size_t c); /* plain arguments; numbers 0 */
struct call set_integer_of(size_t to, int64_t value);
struct call set_code_of(size_t to, uint32_t word);
struct call read_of(size_t to, const char *text, size_t bytes);
struct call random_call(const struct state *s);
struct call write_call(const struct state *s); /* of some root, with bytes that are often just enough or too few */
struct call read_call(const struct state *s);  /* of some text, broken now and then; it is kept until the next one */

#endif
