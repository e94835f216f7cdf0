/* Texts, written from document 02's Q-2: "A value's text calls for its tuple's text, and that for its fields' values,
   to a depth of 64." Whatever comes first from the left ends the text, so the order of refusals needs no rule of its
   own; at one place a value is looked at before its first byte is put. */
#include "texts.h"

#include <inttypes.h>
#include <stdio.h>
#include <string.h>

#include "words.h"

/* ---- the writer ---- */

struct writer {
  const struct values *values;
  const void *in;
  char *text;
  size_t bytes, at;
};

static uint32_t put(struct writer *w, const char *piece) {
  for (; *piece != 0; piece++) {
    if (w->at == w->bytes) return TEXT;
    w->text[w->at++] = *piece;
  }
  return 0;
}

static uint32_t write_value(struct writer *w, const void *value, int depth_left);

static uint32_t write_integer(struct writer *w, int64_t v) {
  char digits[24];
  snprintf(digits, sizeof digits, "%" PRId64, v);
  if (digits[0] == '-') digits[0] = '~';
  return put(w, digits);
}

/* "`()` for no fields, `{1=v}` for one, `(v,w)` and so on for more" */
static uint32_t write_tuple(struct writer *w, const void *value, uint32_t fields, int depth_left) {
  uint32_t k, refusal = put(w, fields == 1 ? "{1=" : "(");
  for (k = 0; k < fields && refusal == 0; k++) {
    if (k > 0) refusal = put(w, ",");
    if (refusal == 0) refusal = write_value(w, w->values->field(w->in, value, k), depth_left);
  }
  return refusal != 0 ? refusal : put(w, fields == 1 ? "}" : ")");
}

static uint32_t write_value(struct writer *w, const void *value, int depth_left) {
  struct looked_at seen = w->values->look(w->in, value);
  if (seen.sort == NO_KIND) return OBJECT;
  if (seen.sort == NO_TEXT) return VALUE;
  if (seen.sort == WHOLE_NUMBER) return write_integer(w, seen.number);
  if (depth_left == 0) return DEEP; /* it would be the 65th nested */
  return write_tuple(w, value, seen.fields, depth_left - 1);
}

struct text_end write_text(const struct values *values, const void *in, const void *value, char *text, size_t bytes) {
  struct writer w = {values, in, text, bytes, 0};
  struct text_end end;
  end.refusal = write_value(&w, value, 64);
  end.at = w.at;
  return end;
}

/* ---- the heap's values: pointers to their words ---- */

static struct looked_at look(const void *in, const void *value) {
  const struct state *s = in;
  uint32_t word = *(const uint32_t *)value;
  struct looked_at seen = {NO_TEXT, 0, 0};
  if (word % 2 == 1) return seen.sort = WHOLE_NUMBER, seen.number = integer_of(word), seen;
  if (plain(word)) return seen;
  if (!names(s, word)) return seen.sort = NO_KIND, seen;
  if (untraced(s->heap[word / 4])) return seen;
  seen.sort = TUPLE;
  seen.fields = fields_of(s->heap[word / 4]);
  return seen;
}

static const void *field(const void *in, const void *value, uint32_t number) {
  const struct state *s = in;
  return s->heap + *(const uint32_t *)value / 4 + 1 + number;
}

static char kept[LONGEST_TEXT];

struct text_end text_of_root(const struct state *s, size_t root, size_t bytes) {
  static const struct values words = {look, field};
  struct text_end end = {0, 0};
  if (bad_shape(s)) return end.refusal = SHAPE, end;
  if (root >= s->root_count) return end.refusal = ROOT, end;
  return write_text(&words, s, &s->roots[root], kept, bytes);
}

uint32_t model_write(struct state *s, size_t root, size_t *length) {
  struct text_end end = text_of_root(s, root, s->bytes);
  if (end.refusal != 0) return end.refusal;
  memcpy(s->text, kept, end.at);
  *length = end.at;
  return 0;
}

/* ---- the reader ---- */

struct reader {
  const char *text;
  size_t bytes, at, count;
  uint64_t words;
};

static struct looked_at found[LONGEST_TEXT];

static int next_is(const struct reader *r, char byte) { return r->at < r->bytes && r->text[r->at] == byte; }

static int next_is_digit(const struct reader *r) {
  return r->at < r->bytes && r->text[r->at] >= '0' && r->text[r->at] <= '9';
}

/* Takes a byte if it is the next one. */
static int take(struct reader *r, char byte) {
  int there = next_is(r, byte);
  r->at += (size_t)there;
  return there;
}

static uint32_t read_value(struct reader *r, int depth_left);

/* "integers with `~` for minus and no leading zeros"; a digit that makes one too large is where it is out of range. */
static uint32_t read_integer(struct reader *r, struct looked_at *into) {
  int64_t sign = take(r, '~') ? -1 : 1, v = 0;
  into->sort = WHOLE_NUMBER;
  into->number = 0;
  if (sign == 1 && take(r, '0')) return 0;
  if (!next_is_digit(r) || next_is(r, '0')) return VALUE;
  for (; next_is_digit(r); r->at++) {
    v = 10 * v + (r->text[r->at] - '0');
    if (sign * v < -1073741824 || sign * v > 1073741823) return VALUE;
  }
  into->number = sign * v;
  return 0;
}

static uint32_t read_record(struct reader *r, int depth_left) {
  uint32_t refusal;
  if (!take(r, '1') || !take(r, '=')) return VALUE;
  refusal = read_value(r, depth_left);
  if (refusal != 0) return refusal;
  return take(r, '}') ? 0 : VALUE;
}

/* After `(`: nothing, or two fields and more. */
static uint32_t read_fields(struct reader *r, int depth_left, uint32_t *fields) {
  uint32_t refusal;
  if (take(r, ')')) return 0;
  do {
    refusal = read_value(r, depth_left);
    if (refusal != 0) return refusal;
    ++*fields;
  } while (take(r, ','));
  return *fields >= 2 && take(r, ')') ? 0 : VALUE;
}

static uint32_t read_tuple(struct reader *r, int depth_left, struct looked_at *into) {
  uint32_t refusal;
  if (depth_left == 0) return DEEP; /* it would be the 65th nested */
  into->sort = TUPLE;
  into->fields = 0;
  if (take(r, '{')) {
    into->fields = 1;
    refusal = read_record(r, depth_left - 1);
  } else {
    r->at++;
    refusal = read_fields(r, depth_left - 1, &into->fields);
  }
  r->words += (uint64_t)into->fields + 1;
  return refusal;
}

static uint32_t read_value(struct reader *r, int depth_left) {
  if (next_is(r, '(') || next_is(r, '{')) return read_tuple(r, depth_left, &found[r->count++]);
  if (next_is(r, '~') || next_is_digit(r)) return read_integer(r, &found[r->count++]);
  return VALUE;
}

struct text_read read_text(const char *text, size_t bytes) {
  struct reader r = {text, bytes, 0, 0, 0};
  struct text_read read;
  read.refusal = read_value(&r, 64);
  if (read.refusal == 0 && r.at < bytes) read.refusal = VALUE;
  read.values = found;
  read.words = r.words;
  return read;
}
