/* Calls at random: how often each op comes, and how its arguments are chosen. */
#include "calls.h"

#include <string.h>

#include "codes.h"
#include "grammar.h"
#include "random.h"
#include "texts.h"

struct call call_of(enum op op, size_t a, size_t b, size_t c) {
  struct call call;
  memset(&call, 0, sizeof call);
  call.op = op;
  call.a = a;
  call.b = b;
  call.c = c;
  call.text = "";
  return call;
}

struct call set_integer_of(size_t to, int64_t value) {
  struct call call = call_of(SET_INTEGER, to, 0, 0);
  call.integer = value;
  return call;
}

struct call set_code_of(size_t to, uint32_t word) {
  struct call call = call_of(SET_CODE, to, 0, 0);
  call.number = word;
  return call;
}

struct call read_of(size_t to, const char *text, size_t bytes) {
  struct call call = call_of(READ, to, bytes, 0);
  call.text = text;
  return call;
}

/* Numbers that a narrowing or an overflow would take for small ones. */
static size_t far_off(size_t near) {
  switch (below(5)) {
  case 0: return near + 4294967296u;
  case 1: return (size_t)-1 - below(3);
  case 2: return ((size_t)1 << 62) + near;
  case 3: return ((size_t)1 << 63) + near;
  default: return (size_t)random_bits();
  }
}

static size_t root_number(const struct state *s) {
  size_t r = below((uint32_t)s->root_count);
  if (one_in(40)) return s->root_count + below(2);
  return one_in(100) ? far_off(r) : r;
}

static uint32_t half_of(const struct state *s) { return s->words < 3 ? 1 : (uint32_t)((s->words - 1) / 2); }

/* A guess at the header that a root names; 0 if it names nothing in the heap. */
static uint32_t header_at(const struct state *s, size_t r) {
  uint32_t word = r < s->root_count ? s->roots[r] : 1;
  return word % 4 == 0 && word / 4 < s->words ? s->heap[word / 4] : 0;
}

static int holds_code(const struct state *s, size_t r) { return r < s->root_count && model_is_code(s->roots[r]); }

/* A root for a field call: one that names an object with fields of the right kind, now and then one that holds a code
   word, if a few tries find it. */
static size_t object_root(const struct state *s, int raw) {
  size_t r = root_number(s);
  int code = one_in(12), tries;
  for (tries = 0; tries < 6; tries++, r = root_number(s)) {
    uint32_t header = header_at(s, r);
    if (code ? holds_code(s, r) : header > 1 && (header >> 31 != 0) == (raw != 0)) return r;
  }
  return r;
}

static size_t field_number(const struct state *s, size_t r) {
  uint32_t n = (header_at(s, r) & 0x7fffffffu) / 2;
  size_t f = below(n);
  if (one_in(12)) return n + below(2);
  return one_in(100) ? far_off(f) : f;
}

static size_t field_count(const struct state *s) {
  uint32_t size = half_of(s);
  switch (below(24)) {
  case 0: return 1073741823u + below(3) - 1;
  case 1: return far_off(below(3));
  case 2: return size + below(3) - 1;
  case 3: return below(size + 1);
  case 4: /* around what is free */
    return (s->half == 0 ? 1 : size + 1) + size - s->free + below(3) - 2;
  default: return below(5);
  }
}

static int64_t integer(void) {
  switch (below(8)) {
  case 0: return -1073741824 + (int64_t)below(5) - 2;
  case 1: return 1073741823 + (int64_t)below(5) - 2;
  case 2: return (int64_t)random_bits();
  case 3: return one_in(2) ? INT64_MIN + below(2) : INT64_MAX - below(2);
  case 4: return 4294967296 + (int64_t)below(100);
  default: return (int64_t)below(2147483647) - 1073741824;
  }
}

/* Often the window that `open` would give on some root; else numbers of no plan. */
static void random_window(const struct state *s, struct call *c) {
  size_t r = object_root(s, one_in(2));
  struct said w;
  struct call open = call_of(OPEN, r, 0, 0);
  struct state same = *s;
  w = model_call(&same, &open);
  c->window[0] = w.refusal;
  c->window[1] = w.first;
  c->window[2] = w.count;
  if (one_in(8)) c->window[1] = one_in(2) ? below((uint32_t)s->words + 3) : (uint32_t)random_bits();
  if (one_in(8)) c->window[2] = one_in(2) ? below((uint32_t)s->words + 3) : (uint32_t)random_bits();
  c->b = below(c->window[2] + 1);
  if (one_in(50)) c->b = far_off(c->b);
}

/* None; a few; around where the text of a root ends or has its first fault; more than enough for most. */
static size_t bytes_for(const struct state *s, size_t root) {
  size_t end = text_of_root(s, root, 600).at;
  switch (below(8)) {
  case 0: return below(3);
  case 1: return below(12);
  case 2: return end == 0 ? 0 : below((uint32_t)end);
  case 3: return end + 1 + below(300);
  case 4: return end == 0 ? 0 : end - 1;
  case 5: return end + 1;
  default: return end;
  }
}

struct call write_call(const struct state *s) {
  struct call c = call_of(WRITE, root_number(s), 0, 0);
  c.b = bytes_for(s, c.a);
  return c;
}

/* Fields of a flat tuple whose words are about those free, or about a half. */
static uint32_t fields_that_fit(const struct state *s) {
  uint32_t size = half_of(s), end = (s->half == 0 ? 1 : size + 1) + size, free = end > s->free ? end - s->free : 0;
  uint32_t words = one_in(2) ? free + below(3) : size + below(3);
  return words < 2 ? 0 : words > 600 ? 600 : words - 2;
}

struct call read_call(const struct state *s) {
  static char text[2000];
  size_t bytes;
  switch (below(8)) {
  case 0: bytes = nested_text(text, 58 + below(10)); break;
  case 1: bytes = random_text(text, 0, 0); break;
  case 2: bytes = random_text(text, 1900, below(half_of(s) + 1)); break;
  case 3:
  case 4: bytes = flat_text(text, fields_that_fit(s)); break;
  default: bytes = random_text(text, 300, 1 + below(6));
  }
  if (one_in(4)) bytes = broken_text(text, bytes);
  return read_of(root_number(s), text, bytes);
}

static enum op random_op(void) {
  static const uint8_t weights[OPS] = {1, 4, 4, 40, 16, 12, 4, 12, 12, 24, 32, 12, 12, 8, 12, 8, 8, 20, 24};
  uint32_t left, op = 0, total = 0;
  for (op = 0; op < OPS; op++) total += weights[op];
  left = below(total);
  for (op = 0; left >= weights[op]; op++) left -= weights[op];
  return (enum op)op;
}

struct call random_call(const struct state *s) {
  struct call c = call_of(random_op(), 0, 0, 0);
  int raw = c.op == RAW_READ || c.op == RAW_WRITE;
  if (c.op == NEW_TRACED || c.op == NEW_UNTRACED) c.b = field_count(s);
  c.a = c.op == LOAD || c.op == STORE || raw ? object_root(s, raw) : root_number(s);
  c.c = root_number(s);
  if (c.op == LOAD || c.op == STORE || raw) c.b = field_number(s, c.a);
  if (c.op == SET_INTEGER) c.integer = integer();
  c.number = c.op == SET_CODE ? asked_code() : (uint32_t)random_bits();
  if (c.op == WORD) random_window(s, &c);
  return c.op == WRITE ? write_call(s) : c.op == READ ? read_call(s) : c;
}
