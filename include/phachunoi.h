/* Phachunoi: a heap of two halves in words that the host lends, with a copying collector.
 *
 * Part 1  limits and numbers: refusals, halves, kinds.
 * Part 2  what the calls return.
 * Part 3  the calls of the archive libphachunoi.a. PROVED: each does what is written here, for all inputs.
 *         What is trusted besides stands in docs/EMBEDDING.md.
 * Part 4  a struct that keeps words, roots and record together. NOT PROVED: plain C over part 3.
 * A heap as text or as a graph, to look at: phachunoi_show.h.
 *
 * Words. A heap is 2S + 1 words of 32 bits, S from 1 to PHACHUNOI_MAX_HALF. Word 0 is reserved and holds 0; half A is
 * words 1 to S, half B is words S + 1 to 2S. One half is current, the other idle. Roots are 0 to PHACHUNOI_MAX_ROOTS
 * words. A word of a root, or of a field of a traced object, is a value:
 *
 *     odd                                      the integer v, as 2v + 1
 *     0                                        null
 *     even, from PHACHUNOI_CODE_FLOOR up       a code word: the host's own, never followed, never changed
 *     other even                               the address of an object: 4 times the index of its header
 *
 *     header    31  30 ................ 1  0       bit 31: 1 for an untraced object, whose fields are raw words
 *               u   n, the count of fields  0      the n fields are the words after the header
 *
 * The host's duties. The proof is about calls that are lent what they ask for:
 *   - `heap` points to `word_count` words and `roots` to `root_count` words, aligned, not null (even when empty), not
 *     overlapping, and not touched by anything else during the call; so does `text`, if any, to `bytes` bytes;
 *   - after each call that returns a record, refused or not, the host keeps that record and passes it to the next call;
 *   - an address, an index or a window is dead after the next call marked "moves objects": keep values in roots.
 * A host that writes heap words or roots itself, or makes up a record, still gets an answer from every call: the one
 * written here. No call prints, allocates memory, keeps a pointer, ends the process or loops for ever.
 */
#ifndef PHACHUNOI_H
#define PHACHUNOI_H

#include <stddef.h>
#include <stdint.h>

#ifdef __cplusplus
extern "C" {
#endif

/* Put in front of every call of part 3; a host may define it. */
#ifndef PHACHUNOI_API
#define PHACHUNOI_API
#endif

/* ---- Part 1: limits and numbers ------------------------------------------------------------------------------- */

#define PHACHUNOI_VERSION_MAJOR 0
#define PHACHUNOI_VERSION_MINOR 6
#define PHACHUNOI_VERSION_PATCH 0
#define PHACHUNOI_VERSION_NUMBER 6000 /* major * 1000000 + minor * 1000 + patch */

#define PHACHUNOI_MAX_HALF 1048576u /* words in a half, S */
#define PHACHUNOI_MAX_ROOTS 65536u
#define PHACHUNOI_MAX_FIELDS 1073741823u
#define PHACHUNOI_INTEGER_MIN (-1073741824)
#define PHACHUNOI_INTEGER_MAX 1073741823
#define PHACHUNOI_CODE_FLOOR 16777216u /* every even word from here up is a code word */
#define PHACHUNOI_MAX_DEPTH 64 /* objects nested in a text; the root's object is the first */
#define PHACHUNOI_WORDS(S) (2u * (size_t)(S) + 1u) /* words to lend for halves of S */

/* Why a call was refused. The numbers are names and no order. Of the refusals that apply, the first in this order is
   given: SHAPE, ROOT, COUNT, RANGE, OBJECT, KIND, FIELD, VALUE, DEEP, TEXT, DAMAGED, ROOM; a call on a text goes by the
   place in the text first. Every refusal but ROOM changes no word, no root, no record and no byte; ROOM leaves words,
   roots and record as the collection left them. In a refused answer every number but the refusal and the record
   is 0. */
enum phachunoi_refusal {
  PHACHUNOI_DONE = 0,    /* not refused */
  PHACHUNOI_SHAPE = 1,   /* the heap's length is even, below 3 or above 2,097,153; or more than 65,536 roots; or the
                            record's half is neither A nor B; or its free index lies outside the half */
  PHACHUNOI_ROOT = 2,    /* a root number is not below the number of roots */
  PHACHUNOI_COUNT = 3,   /* more than 1,073,741,823 fields are asked for */
  PHACHUNOI_RANGE = 4,   /* an integer is below -1,073,741,824 or above 1,073,741,823; or a word to be set as a code
                            word is odd or below 16,777,216 */
  PHACHUNOI_OBJECT = 5,  /* the root that must name an object does not; or a word to be written is no value */
  PHACHUNOI_KIND = 6,    /* a traced call on an untraced object, or the reverse */
  PHACHUNOI_FIELD = 7,   /* the field number is not below the object's count of fields */
  PHACHUNOI_DAMAGED = 8, /* a collection is called for and the heap is not sound */
  PHACHUNOI_ROOM = 9,    /* after the collection the words needed still do not fit */
  PHACHUNOI_VALUE = 10,  /* a value to be written has no text: it is null, a code word or an untraced object; or what
                            is to be read is no text, or has an integer outside the range above */
  PHACHUNOI_DEEP = 11,   /* an object would be the 65th nested */
  PHACHUNOI_TEXT = 12    /* the bytes run out before the text ends */
};

enum phachunoi_half { PHACHUNOI_A = 0, PHACHUNOI_B = 1 };

/* What a root holds. */
enum phachunoi_kind {
  PHACHUNOI_NULL = 0,
  PHACHUNOI_INTEGER = 1,
  PHACHUNOI_TRACED = 2,
  PHACHUNOI_UNTRACED = 3,
  PHACHUNOI_CODE = 4
};

/* ---- Part 2: what the calls return ---------------------------------------------------------------------------- */

/* The heap's record: the current half, and the index of the next free word. Hosts begin with a zeroed one and `fresh`,
   and pass on whole what a call returned; later versions may add entries. */
typedef struct phachunoi_record {
  uint32_t half;
  uint32_t free;
} phachunoi_record;

/* The answer of fresh, allocate and read, with the record to pass to the next call. `value` is 0: none of them names an
   answer. */
typedef struct phachunoi_result {
  uint32_t refusal;
  uint32_t value;
  phachunoi_record record;
} phachunoi_result;

/* The answer of collect, with the record to pass to the next call. Three numbers to tune a heap by:

     live         the total of n + 1 over the reachable objects: the words in use now, and the least S that holds them
     objects      the reachable objects; live / objects is their mean size, with the header
     addresses    the object addresses met in roots and in fields of reachable traced objects. Each meeting counts;
                  code words, nulls, integers, raw words and what garbage holds do not. Each object is met once to be
                  copied: addresses - objects is how often one was met again, 0 where nothing is shared. */
typedef struct phachunoi_collected {
  uint32_t refusal;
  uint32_t live;
  uint32_t objects;
  uint32_t addresses;
  phachunoi_record record;
} phachunoi_collected;

/* The answer of every other call but inspect, open and write. `value` is 0 where a call names no answer. */
typedef struct phachunoi_answer {
  uint32_t refusal;
  uint32_t value;
} phachunoi_answer;

/* The answer of inspect: `integer` counts for an integer, `count` (of fields) for an object, `code` for a code word;
   else they are 0. Refusal and kind have 16 bits each, so that the struct is returned in two registers. */
typedef struct phachunoi_seen {
  uint16_t refusal;
  uint16_t kind;
  int32_t integer;
  uint32_t count;
  uint32_t code;
} phachunoi_seen;

/* A window on an object: its fields are heap[first] to heap[first + count - 1]. A refused window has no words. */
typedef struct phachunoi_window {
  uint32_t refusal;
  uint32_t first;
  uint32_t count;
} phachunoi_window;

/* The answer of write: the bytes of the text, 0 where it is refused. Both have the width of a size, so that there is no
   gap. */
typedef struct phachunoi_written {
  size_t refusal;
  size_t length;
} phachunoi_written;

/* The archive lays these out as written, in entries of 64 bits, of 32 and of 16, with no gaps; a compiler that does
   otherwise stops here. */
typedef char phachunoi_layout_as_in_the_archive
    [sizeof(phachunoi_record) == 8 && offsetof(phachunoi_record, free) == 4 && sizeof(phachunoi_result) == 16 &&
             offsetof(phachunoi_result, value) == 4 && offsetof(phachunoi_result, record) == 8 &&
             sizeof(phachunoi_collected) == 24 && offsetof(phachunoi_collected, live) == 4 &&
             offsetof(phachunoi_collected, objects) == 8 && offsetof(phachunoi_collected, addresses) == 12 &&
             offsetof(phachunoi_collected, record) == 16 && sizeof(phachunoi_answer) == 8 &&
             offsetof(phachunoi_answer, value) == 4 && sizeof(phachunoi_seen) == 16 &&
             offsetof(phachunoi_seen, kind) == 2 && offsetof(phachunoi_seen, integer) == 4 &&
             offsetof(phachunoi_seen, count) == 8 && offsetof(phachunoi_seen, code) == 12 &&
             sizeof(phachunoi_window) == 12 && offsetof(phachunoi_window, first) == 4 &&
             offsetof(phachunoi_window, count) == 8 && sizeof(phachunoi_written) == 16 &&
             offsetof(phachunoi_written, length) == 8 && sizeof(size_t) == 8
         ? 1
         : -1];

/* ---- Part 3: the calls of the archive (proved) ----------------------------------------------------------------- */

/* Every call but version, fresh and word begins with heap, word_count, roots, root_count, record, and can answer SHAPE.
   Fresh, collect, allocate and read return the record to pass to the next call, refused or not. Every other call leaves
   the record that it was given, and returns none. A call that names no answer says "done"; whether it collected is not
   told. `to` is a root that is written, `from` and `object` are roots that are read; the same root may be named
   twice. Unless a call is marked as moving objects, every object stays where it is. */

/* The archive's PHACHUNOI_VERSION_NUMBER. A host compares it with the header's. */
PHACHUNOI_API uint32_t phachunoi_version(void);

/* Clears all heap words; then half A is current and empty. It neither sees nor changes roots: set them to null (0) too.
   The record handed in does not matter; a refused fresh returns it. All objects are gone.
   Refusals: SHAPE, for the heap's length only. */
PHACHUNOI_API phachunoi_result phachunoi_fresh(uint32_t *heap, size_t word_count, phachunoi_record record);

/* Is the heap sound? value is 1 if it is, 0 if not. Sound: no SHAPE; word 0 is 0; the idle half and the free words are
   0; objects fill the used words exactly; each root and each field of a traced object is an integer, null, a code word
   or the address of one of those objects. It may mark in an idle half that is all 0, but no word differs afterwards.
   Refusals: SHAPE. */
PHACHUNOI_API phachunoi_answer phachunoi_check(uint32_t *heap, size_t word_count, const uint32_t *roots,
                                               size_t root_count, phachunoi_record record);

/* Copies the reachable objects to the other half, breadth-first from root 0 on, packed; renames every address in roots
   and fields; clears all other words. Answers live words, live objects and addresses met. MOVES OBJECTS.
   Collecting again at once moves each object S words on or back, in the same order, and tells the same numbers; a third
   time leaves exactly what the first left.
   Refusals: SHAPE, DAMAGED. */
PHACHUNOI_API phachunoi_collected phachunoi_collect(uint32_t *heap, size_t word_count, uint32_t *roots,
                                                    size_t root_count, phachunoi_record record);

/* A new object of `fields` fields, all 0 (null), traced or untraced; root `to` gets its address. It needs fields + 1
   words. If they are not free it collects first, and all roots count as live then, the old value of `to` too.
   MAY MOVE OBJECTS.
   Refusals: SHAPE, ROOT, COUNT, DAMAGED, ROOM. */
PHACHUNOI_API phachunoi_result phachunoi_allocate_traced(uint32_t *heap, size_t word_count, uint32_t *roots,
                                                         size_t root_count, phachunoi_record record, size_t fields,
                                                         size_t to);
PHACHUNOI_API phachunoi_result phachunoi_allocate_untraced(uint32_t *heap, size_t word_count, uint32_t *roots,
                                                           size_t root_count, phachunoi_record record, size_t fields,
                                                           size_t to);

/* Root `to` becomes the integer `value`. Looks at no heap word. Refusals: SHAPE, ROOT, RANGE. */
PHACHUNOI_API phachunoi_answer phachunoi_set_integer(const uint32_t *heap, size_t word_count, uint32_t *roots,
                                                     size_t root_count, phachunoi_record record, size_t to,
                                                     int64_t value);

/* Root `to` becomes null. Looks at no heap word. Refusals: SHAPE, ROOT. */
PHACHUNOI_API phachunoi_answer phachunoi_set_null(const uint32_t *heap, size_t word_count, uint32_t *roots,
                                                  size_t root_count, phachunoi_record record, size_t to);

/* Root `to` becomes the code word `word`, any even word from PHACHUNOI_CODE_FLOOR up: a host's function, by number.
   Looks at no heap word. Refusals: SHAPE, ROOT, RANGE. */
PHACHUNOI_API phachunoi_answer phachunoi_set_code(const uint32_t *heap, size_t word_count, uint32_t *roots,
                                                  size_t root_count, phachunoi_record record, size_t to,
                                                  uint32_t word);

/* Root `to` gets the word of root `from`, whatever it is. Looks at no heap word. Refusals: SHAPE, ROOT. */
PHACHUNOI_API phachunoi_answer phachunoi_copy(const uint32_t *heap, size_t word_count, uint32_t *roots,
                                              size_t root_count, phachunoi_record record, size_t from, size_t to);

/* Root `to` gets a field of the traced object that root `object` names. Fields count from 0.
   Refusals: SHAPE, ROOT, OBJECT, KIND, FIELD. */
PHACHUNOI_API phachunoi_answer phachunoi_load(const uint32_t *heap, size_t word_count, uint32_t *roots,
                                              size_t root_count, phachunoi_record record, size_t object, size_t field,
                                              size_t to);

/* A field of the traced object that root `object` names gets the word of root `from`.
   Refusals: SHAPE, ROOT, OBJECT, KIND, FIELD. */
PHACHUNOI_API phachunoi_answer phachunoi_store(uint32_t *heap, size_t word_count, const uint32_t *roots,
                                               size_t root_count, phachunoi_record record, size_t object, size_t field,
                                               size_t from);

/* value is a field of the untraced object that root `object` names. Changes nothing.
   Refusals: SHAPE, ROOT, OBJECT, KIND, FIELD. */
PHACHUNOI_API phachunoi_answer phachunoi_raw_read(const uint32_t *heap, size_t word_count, const uint32_t *roots,
                                                  size_t root_count, phachunoi_record record, size_t object,
                                                  size_t field);

/* A field of the untraced object that root `object` names becomes `number`, any 32 bits.
   Refusals: SHAPE, ROOT, OBJECT, KIND, FIELD. */
PHACHUNOI_API phachunoi_answer phachunoi_raw_write(uint32_t *heap, size_t word_count, const uint32_t *roots,
                                                   size_t root_count, phachunoi_record record, size_t object,
                                                   size_t field, uint32_t number);

/* value is 1 if the two roots hold equal words (the same integer, null, the same code word, or the same object), else
   0. Changes nothing and looks at no heap word. Refusals: SHAPE, ROOT. */
PHACHUNOI_API phachunoi_answer phachunoi_same(const uint32_t *heap, size_t word_count, const uint32_t *roots,
                                              size_t root_count, phachunoi_record record, size_t one, size_t other);

/* What a root holds. Changes nothing.
   Refusals: SHAPE, ROOT, OBJECT (an even word, not 0 and no code word, that names no object). */
PHACHUNOI_API phachunoi_seen phachunoi_inspect(const uint32_t *heap, size_t word_count, const uint32_t *roots,
                                               size_t root_count, phachunoi_record record, size_t root);

/* A window on the object, of either kind, that root `object` names. Changes nothing. The window is two numbers and
   holds nothing: it is dead after the next call that moves objects. Refusals: SHAPE, ROOT, OBJECT. */
PHACHUNOI_API phachunoi_window phachunoi_open(const uint32_t *heap, size_t word_count, const uint32_t *roots,
                                              size_t root_count, phachunoi_record record, size_t object);

/* value is the word at a field number of a window: heap[first + field], where field is below count and the word lies in
   the heap. It goes by those two numbers, which are 0 in a refused window, and by nothing else. Changes nothing.
   Refusals: FIELD. */
PHACHUNOI_API phachunoi_answer phachunoi_word(const uint32_t *heap, size_t word_count, phachunoi_window window,
                                              size_t field);

/* The value of a root as Standard ML text, in the `bytes` bytes at `text`: an integer is decimal, with ~ for minus; a
   traced object is () with no fields, {1=v} with one, (v,w) and so on with more. No blanks, and no zero byte behind it.
   What is shared is written out each time. `length` is the count of the text's bytes; none past it changes. Changes no
   word and no root. However long the text would be, the call ends where the bytes run out.
   Refusals: SHAPE, ROOT; then the first fault from the left, and of two at one place the first of: OBJECT (an even
   word, not 0 and no code word, that names no object), VALUE, DEEP, TEXT. A value's place is where its text would
   begin. */
PHACHUNOI_API phachunoi_written phachunoi_write(const uint32_t *heap, size_t word_count, const uint32_t *roots,
                                                size_t root_count, phachunoi_record record, size_t root, char *text,
                                                size_t bytes);

/* Root `to` becomes the value of a text, the `bytes` bytes at `text`, which do not change. It reads exactly the texts
   that write can write. Each tuple becomes a new traced object, in the order in which their texts begin, and needs as
   many words as it has fields and one more; an integer needs none. If the words are not free it collects first, and all
   roots count as live then, the old value of `to` too. MAY MOVE OBJECTS.
   Refusals: SHAPE, ROOT; then the first fault of the text from the left, be it VALUE (a byte, or the end, where no text
   goes on; a digit that makes an integer too large) or DEEP (the byte that opens the 65th nested tuple); then DAMAGED,
   ROOM. */
PHACHUNOI_API phachunoi_result phachunoi_read(uint32_t *heap, size_t word_count, uint32_t *roots, size_t root_count,
                                              phachunoi_record record, size_t to, const char *text, size_t bytes);

/* ---- Part 4: a heap in one struct (NOT PROVED) ----------------------------------------------------------------- */

/* Everything below is inline C that only keeps the arguments of part 3 together and the record up to date. Each
   function answers PHACHUNOI_DONE or the refusal, and writes a further answer through its last pointer, refused or
   not; inspect and open return their structs. */
typedef struct phachunoi_heap {
  uint32_t *words;
  size_t word_count;
  uint32_t *roots;
  size_t root_count;
  phachunoi_record record;
} phachunoi_heap;

/* Words, roots and record, as most calls want them. */
#define PHACHUNOI_LENT(h) (h)->words, (h)->word_count, (h)->roots, (h)->root_count, (h)->record

/* A line on a refusal, for messages to people. */
static inline const char *phachunoi_refusal_text(uint32_t refusal) {
  switch (refusal) {
  case PHACHUNOI_DONE: return "done";
  case PHACHUNOI_SHAPE: return "shape: the lengths or the record are not those of a heap";
  case PHACHUNOI_ROOT: return "root: there is no root of that number";
  case PHACHUNOI_COUNT: return "count: more fields than an object can have";
  case PHACHUNOI_RANGE: return "range: the integer is too large or too small, or the word is no code word";
  case PHACHUNOI_OBJECT: return "object: the root names no object, or a word to be written is no value";
  case PHACHUNOI_KIND: return "kind: the object is of the other kind, traced or untraced";
  case PHACHUNOI_FIELD: return "field: the object has no field of that number";
  case PHACHUNOI_DAMAGED: return "damaged: the heap is not sound and cannot be collected";
  case PHACHUNOI_ROOM: return "no room: the words needed do not fit, even after a collection";
  case PHACHUNOI_VALUE: return "value: what is to be written has no text, or what is to be read is none";
  case PHACHUNOI_DEEP: return "deep: more objects nested than a text may have";
  case PHACHUNOI_TEXT: return "text: the bytes run out before the text ends";
  default: return "no refusal has this number";
  }
}

static inline enum phachunoi_refusal phachunoi_heap_keep(phachunoi_heap *h, phachunoi_result r) {
  h->record = r.record;
  return (enum phachunoi_refusal)r.refusal;
}

static inline enum phachunoi_refusal phachunoi_heap_said(phachunoi_answer a) {
  return (enum phachunoi_refusal)a.refusal;
}

/* Lends words and roots for the struct's life, clears both and starts with an empty heap. `words` points to
   PHACHUNOI_WORDS(half) words. On a refusal the roots are untouched. */
static inline enum phachunoi_refusal phachunoi_heap_begin(phachunoi_heap *h, uint32_t *words, size_t half,
                                                          uint32_t *roots, size_t root_count) {
  enum phachunoi_refusal refusal;
  size_t i;
  h->words = words;
  h->word_count = PHACHUNOI_WORDS(half);
  h->roots = roots;
  h->root_count = root_count;
  h->record.half = PHACHUNOI_A;
  h->record.free = 0;
  if (half > PHACHUNOI_MAX_HALF || root_count > PHACHUNOI_MAX_ROOTS) return PHACHUNOI_SHAPE;
  refusal = phachunoi_heap_keep(h, phachunoi_fresh(h->words, h->word_count, h->record));
  if (refusal != PHACHUNOI_DONE) return refusal;
  for (i = 0; i < root_count; i++) roots[i] = 0;
  return PHACHUNOI_DONE;
}

static inline enum phachunoi_refusal phachunoi_heap_check(phachunoi_heap *h, int *sound) {
  phachunoi_answer a = phachunoi_check(PHACHUNOI_LENT(h));
  *sound = (int)a.value;
  return phachunoi_heap_said(a);
}

/* The numbers of a collection, as phachunoi_collected has them. */
typedef struct phachunoi_counts {
  uint32_t live;
  uint32_t objects;
  uint32_t addresses;
} phachunoi_counts;

/* Moves objects. */
static inline enum phachunoi_refusal phachunoi_heap_collect(phachunoi_heap *h, phachunoi_counts *counts) {
  phachunoi_collected c = phachunoi_collect(PHACHUNOI_LENT(h));
  counts->live = c.live;
  counts->objects = c.objects;
  counts->addresses = c.addresses;
  h->record = c.record;
  return (enum phachunoi_refusal)c.refusal;
}

/* May move objects. */
static inline enum phachunoi_refusal phachunoi_heap_allocate_traced(phachunoi_heap *h, size_t fields, size_t to) {
  return phachunoi_heap_keep(h, phachunoi_allocate_traced(PHACHUNOI_LENT(h), fields, to));
}

/* May move objects. */
static inline enum phachunoi_refusal phachunoi_heap_allocate_untraced(phachunoi_heap *h, size_t fields, size_t to) {
  return phachunoi_heap_keep(h, phachunoi_allocate_untraced(PHACHUNOI_LENT(h), fields, to));
}

static inline enum phachunoi_refusal phachunoi_heap_set_integer(phachunoi_heap *h, size_t to, int64_t value) {
  return phachunoi_heap_said(phachunoi_set_integer(PHACHUNOI_LENT(h), to, value));
}

static inline enum phachunoi_refusal phachunoi_heap_set_null(phachunoi_heap *h, size_t to) {
  return phachunoi_heap_said(phachunoi_set_null(PHACHUNOI_LENT(h), to));
}

static inline enum phachunoi_refusal phachunoi_heap_set_code(phachunoi_heap *h, size_t to, uint32_t word) {
  return phachunoi_heap_said(phachunoi_set_code(PHACHUNOI_LENT(h), to, word));
}

static inline enum phachunoi_refusal phachunoi_heap_copy(phachunoi_heap *h, size_t from, size_t to) {
  return phachunoi_heap_said(phachunoi_copy(PHACHUNOI_LENT(h), from, to));
}

static inline enum phachunoi_refusal phachunoi_heap_load(phachunoi_heap *h, size_t object, size_t field, size_t to) {
  return phachunoi_heap_said(phachunoi_load(PHACHUNOI_LENT(h), object, field, to));
}

static inline enum phachunoi_refusal phachunoi_heap_store(phachunoi_heap *h, size_t object, size_t field, size_t from) {
  return phachunoi_heap_said(phachunoi_store(PHACHUNOI_LENT(h), object, field, from));
}

static inline enum phachunoi_refusal phachunoi_heap_raw_read(const phachunoi_heap *h, size_t object, size_t field,
                                                             uint32_t *number) {
  phachunoi_answer a = phachunoi_raw_read(PHACHUNOI_LENT(h), object, field);
  *number = a.value;
  return phachunoi_heap_said(a);
}

static inline enum phachunoi_refusal phachunoi_heap_raw_write(phachunoi_heap *h, size_t object, size_t field,
                                                              uint32_t number) {
  return phachunoi_heap_said(phachunoi_raw_write(PHACHUNOI_LENT(h), object, field, number));
}

static inline enum phachunoi_refusal phachunoi_heap_same(const phachunoi_heap *h, size_t one, size_t other, int *same) {
  phachunoi_answer a = phachunoi_same(PHACHUNOI_LENT(h), one, other);
  *same = (int)a.value;
  return phachunoi_heap_said(a);
}

static inline phachunoi_seen phachunoi_heap_inspect(const phachunoi_heap *h, size_t root) {
  return phachunoi_inspect(PHACHUNOI_LENT(h), root);
}

static inline phachunoi_window phachunoi_heap_open(const phachunoi_heap *h, size_t object) {
  return phachunoi_open(PHACHUNOI_LENT(h), object);
}

static inline enum phachunoi_refusal phachunoi_heap_word(const phachunoi_heap *h, phachunoi_window window, size_t field,
                                                         uint32_t *word) {
  phachunoi_answer a = phachunoi_word(h->words, h->word_count, window, field);
  *word = a.value;
  return phachunoi_heap_said(a);
}

static inline enum phachunoi_refusal phachunoi_heap_write(const phachunoi_heap *h, size_t root, char *text,
                                                          size_t bytes, size_t *length) {
  phachunoi_written w = phachunoi_write(PHACHUNOI_LENT(h), root, text, bytes);
  *length = w.length;
  return (enum phachunoi_refusal)w.refusal;
}

/* May move objects. */
static inline enum phachunoi_refusal phachunoi_heap_read(phachunoi_heap *h, size_t to, const char *text, size_t bytes) {
  return phachunoi_heap_keep(h, phachunoi_read(PHACHUNOI_LENT(h), to, text, bytes));
}

#ifdef __cplusplus
}
#endif
#endif
