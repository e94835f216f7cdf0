/* The twin of the reader: a recursive parser in plain C, as fast as it goes with the duties of document 02's Q-2. It
   judges the whole text first; then the words are free, or a collection makes them so; then it counts the fields of
   each tuple, and then places the objects. Counts are kept in the last of the words that the text will fill: the
   objects placed never reach those still to be used, since each that is left takes a word at least. */
#include "baseline.h"
#include "rules.h"
#include "twins.h"

enum { DEPTH = 64 };

static inline int is_digit(char byte) { return (unsigned char)(byte - '0') < 10; }

/* ---- judging: the place behind a value, or NULL and why ---- */

struct judging {
  const char *end;
  size_t words;
  uint32_t refusal;
};

static __attribute__((noinline, cold)) const char *refuse(struct judging *j, uint32_t refusal) {
  j->refusal = refusal;
  return NULL;
}

/* No integer in range has more than ten digits, so that the range is asked for once. */
static inline const char *judge_integer(struct judging *j, const char *at) {
  uint64_t v = 0, most = PHACHUNOI_INTEGER_MAX;
  const char *tenth;
  if (*at == '~') {
    at++;
    most++;
    if (RARELY(at == j->end || *at == '0')) return refuse(j, PHACHUNOI_VALUE);
  } else if (*at == '0') {
    return at + 1;
  }
  if (RARELY(!is_digit(*at))) return refuse(j, PHACHUNOI_VALUE);
  tenth = j->end - at > 10 ? at + 10 : j->end;
  do v = 10 * v + (uint64_t)(*at++ - '0');
  while (at < tenth && is_digit(*at));
  if (RARELY(v > most || (at < j->end && is_digit(*at)))) return refuse(j, PHACHUNOI_VALUE);
  return at;
}

static IN_PLACE const char *judge_value(struct judging *j, const char *at, unsigned left);

static APART const char *judge_record(struct judging *j, const char *at, unsigned left) {
  if (RARELY(j->end - at < 3 || at[1] != '1' || at[2] != '=')) return refuse(j, PHACHUNOI_VALUE);
  at = judge_value(j, at + 3, left);
  if (RARELY(at == NULL)) return at;
  if (RARELY(at == j->end || *at != '}')) return refuse(j, PHACHUNOI_VALUE);
  j->words += 2;
  return at + 1;
}

static APART const char *judge_tuple(struct judging *j, const char *at, unsigned left) {
  size_t fields = 0;
  if (at + 1 < j->end && at[1] == ')') {
    j->words++;
    return at + 2;
  }
  do { /* behind an opening parenthesis or a comma */
    at = judge_value(j, at + 1, left);
    fields++;
    if (RARELY(at == NULL)) return at;
    if (RARELY(at == j->end)) return refuse(j, PHACHUNOI_VALUE);
  } while (*at == ',');
  if (RARELY(fields < 2 || *at != ')')) return refuse(j, PHACHUNOI_VALUE);
  j->words += fields + 1;
  return at + 1;
}

static IN_PLACE const char *judge_value(struct judging *j, const char *at, unsigned left) {
  if (RARELY(at == j->end)) return refuse(j, PHACHUNOI_VALUE);
  if (*at != '(' && *at != '{') return judge_integer(j, at);
  if (RARELY(left == 0)) return refuse(j, PHACHUNOI_DEEP);
  return *at == '(' ? judge_tuple(j, at, left - 1) : judge_record(j, at, left - 1);
}

/* ---- counting: the fields of each tuple, in the order in which they open ---- */

/* Fills the words before `end`, from the right: the text is taken backwards, and what is open counts its commas.
   Answers where the first count stands. */
static uint32_t *count_fields(const char *text, const char *at, uint32_t *end) {
  uint32_t open[DEPTH + 1], *top = open;
  while (at > text) {
    char byte = *--at;
    if (is_digit(byte)) continue; /* most are */
    if (byte == ',') ++*top;
    else if (byte == ')') *++top = at[-1] != '(';
    else if (byte == '}') *++top = 1;
    else if (byte == '(' || byte == '{') *--end = *top--;
  }
  return end;
}

/* ---- placing what was judged ---- */

struct placing {
  const char *at;
  uint32_t *heap, free;
  const uint32_t *count;
};

/* An integer that is all of the text. */
static inline uint32_t whole_integer(const char *at, const char *end) {
  int minus = *at == '~';
  uint32_t v = 0;
  for (at += minus; at < end; at++) v = 10 * v + (uint32_t)(*at - '0');
  return (minus ? -v : v) << 1 | 1;
}

/* One in a tuple: some other byte ends it. */
static inline uint32_t take_integer(struct placing *p) {
  const char *at = p->at;
  int minus = *at == '~';
  uint32_t v = 0;
  at += minus;
  do v = 10 * v + (uint32_t)(*at++ - '0');
  while (is_digit(*at));
  p->at = at;
  return (minus ? -v : v) << 1 | 1;
}

static IN_PLACE uint32_t take_value(struct placing *p);

static APART uint32_t take_tuple(struct placing *p) {
  uint32_t n = *p->count++, *object = p->heap + p->free, *field = object + 1, address = 4 * p->free;
  *object = 2 * n;
  p->free += n + 1;
  p->at += *p->at == '{' ? 3 : 1;
  for (object += n; field <= object; field++, p->at++) *field = take_value(p);
  p->at += n == 0;
  return address;
}

static IN_PLACE uint32_t take_value(struct placing *p) {
  return *p->at == '(' || *p->at == '{' ? take_tuple(p) : take_integer(p);
}

/* ---- the call ---- */

static inline phachunoi_result resulted(uint32_t refusal, phachunoi_record record) {
  phachunoi_result r = {refusal, 0, record};
  return r;
}

static __attribute__((noinline, cold)) uint32_t make_room(uint32_t *heap, size_t word_count, uint32_t *roots,
                                                          size_t root_count, phachunoi_record *record, size_t words) {
  struct state s = {heap, word_count, roots, root_count, record->half, record->free, NULL, 0};
  struct counts untold; /* a read says "done" and nothing more */
  uint32_t refusal = full_collect(&s, &untold);
  if (refusal != 0) return refusal;
  record->half = s.half;
  record->free = s.free;
  return words > spare(word_count, s.half, s.free) ? PHACHUNOI_ROOM : PHACHUNOI_DONE;
}

phachunoi_result twin_read(uint32_t *heap, size_t word_count, uint32_t *roots, size_t root_count,
                           phachunoi_record record, size_t to, const char *text, size_t bytes) {
  struct judging j = {text + bytes, 0, PHACHUNOI_VALUE};
  struct placing p = {text, heap, 0, NULL};
  uint32_t refusal;
  if (RARELY(bad_shape(word_count, root_count, record.half, record.free))) return resulted(PHACHUNOI_SHAPE, record);
  if (RARELY(to >= root_count)) return resulted(PHACHUNOI_ROOT, record);
  if (RARELY(judge_value(&j, text, DEPTH) != j.end)) return resulted(j.refusal, record);
  if (RARELY(j.words > spare(word_count, record.half, record.free))) {
    refusal = make_room(heap, word_count, roots, root_count, &record, j.words);
    if (refusal != PHACHUNOI_DONE) return resulted(refusal, record);
  }
  p.free = record.free;
  if (j.words == 0) {
    roots[to] = whole_integer(text, j.end);
    return resulted(PHACHUNOI_DONE, record);
  }
  p.count = count_fields(text, j.end, heap + record.free + j.words);
  roots[to] = take_tuple(&p);
  record.free = p.free;
  return resulted(PHACHUNOI_DONE, record);
}
