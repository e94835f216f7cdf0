/* A model of the heap in plain C, written from document 01 and document 02's, and from nothing else: what
 * each call must answer and leave.
 *
 * It is slow and simple on purpose. A collection lists the reachable objects first and writes the new half afterwards,
 * so that it shares no step with a collector that works in place.
 */
#ifndef MODEL_H
#define MODEL_H

#include <stddef.h>
#include <stdint.h>

/* What a call is lent, and what it leaves. */
struct state {
  uint32_t *heap;
  size_t words;
  uint32_t *roots;
  size_t root_count;
  uint32_t half, free;
  char *text; /* bytes lent for a text, if the call has one */
  size_t bytes;
};

enum op {
  FRESH, CHECK, COLLECT, NEW_TRACED, NEW_UNTRACED, SET_INTEGER, SET_NULL, SET_CODE, COPY, LOAD, STORE, RAW_READ,
  RAW_WRITE, SAME, INSPECT, OPEN, WORD, WRITE, READ, OPS
};

/* A call with its arguments; each op reads those that it needs.
   a: the root written, or the object's root, or the root copied, or the root whose text is asked for. b: the field
   number or the count, or how many bytes are lent for a text. c: a second root. text: what those bytes hold, if the
   call is to read them. */
struct call {
  enum op op;
  size_t a, b, c;
  int64_t integer;
  uint32_t number;    /* of a raw write; or the word to be set as a code word */
  uint32_t window[3]; /* refusal, first, count */
  const char *text;
};

/* The three numbers of a collection. */
struct counts {
  uint32_t live;      /* "the total of n + 1 over reachable objects" */
  uint32_t objects;   /* "the live objects" */
  uint32_t addresses; /* "the object addresses met in roots and in fields of live traced objects" */
};

/* Everything that a call can answer; what it does not name is 0. */
struct said {
  uint32_t refusal;
  uint32_t value; /* sound, the word, yes */
  uint32_t kind;
  int32_t integer;
  uint32_t count;
  uint32_t first;
  uint32_t code;
  size_t length; /* of a text */
  struct counts counts;
};

struct said model_call(struct state *s, const struct call *c);
int model_sound(const struct state *s);
int model_is_code(uint32_t word);

#endif
