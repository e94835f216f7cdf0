/* Texts at random. They are made from left to right, as the grammar has them. */
#include "grammar.h"

#include <inttypes.h>
#include <stdio.h>
#include <string.h>

#include "random.h"

struct maker {
  char *text;
  size_t at, most;
  uint32_t tuples; /* still to be opened */
};

static void put(struct maker *m, const char *piece) {
  size_t length = strlen(piece);
  memcpy(m->text + m->at, piece, length);
  m->at += length;
}

static void put_integer(struct maker *m) {
  static const int32_t edges[] = {0, -1, 9, 10, -10, 1073741823, -1073741824, 1073741822, -1073741823, 1000000000};
  int32_t v = one_in(4) ? edges[below(sizeof edges / sizeof edges[0])] : (int32_t)below(200) - 100;
  char digits[16];
  if (one_in(6)) v = (int32_t)below(2147483648u) - 1073741824;
  snprintf(digits, sizeof digits, "%" PRId32, v);
  if (digits[0] == '-') digits[0] = '~';
  put(m, digits);
}

static void put_value(struct maker *m, uint32_t depth_left);

/* Each open tuple keeps 16 bytes for what it still has to say: an integer, its comma and its end. */
static void put_tuple(struct maker *m, uint32_t depth_left) {
  uint32_t fields = below(4), k;
  m->tuples--;
  m->most -= 16;
  put(m, fields == 1 ? "{1=" : "(");
  for (k = 0; k < fields && (k < 2 || m->at + 16 < m->most); k++) {
    if (k > 0) put(m, ",");
    put_value(m, depth_left - 1);
  }
  put(m, fields == 1 ? "}" : ")");
  m->most += 16;
}

static void put_value(struct maker *m, uint32_t depth_left) {
  int room = m->most >= 64 && m->at + 64 < m->most;
  if (room && depth_left > 0 && m->tuples > 0 && !one_in(3))
    put_tuple(m, depth_left);
  else
    put_integer(m);
}

size_t random_text(char *text, size_t most, uint32_t tuples) {
  struct maker m = {text, 0, most, tuples};
  if (tuples > 0 && most > 64)
    put_tuple(&m, 64);
  else
    put_integer(&m);
  return m.at;
}

size_t nested_text(char *text, uint32_t deep) {
  static const char *const opens[] = {"(", "{1=", "(7,", "(~1,", "("}, *const closes[] = {",7)", "}", ")", ",2)",
                                                                                          ",())"};
  uint8_t forms[80];
  struct maker m = {text, 0, 0, 0};
  uint32_t i;
  for (i = 0; i < deep && i < 80; i++) put(&m, opens[forms[i] = (uint8_t)below(5)]);
  put(&m, one_in(2) ? "5" : "()");
  while (i-- > 0) put(&m, closes[forms[i]]);
  return m.at;
}

size_t flat_text(char *text, uint32_t fields) {
  struct maker m = {text, 0, 0, 0};
  uint32_t k;
  put(&m, fields == 1 ? "{1=" : "(");
  for (k = 0; k < fields; k++) put(&m, k == 0 ? "8" : ",8");
  put(&m, fields == 1 ? "}" : ")");
  return m.at;
}

/* ---- broken ones ---- */

static char some_byte(void) { return TEXT_BYTES[below(sizeof TEXT_BYTES - 1)]; }

static size_t cut(char *text, size_t bytes, size_t at) {
  (void)text, (void)bytes;
  return at;
}

static size_t change(char *text, size_t bytes, size_t at) {
  if (at < bytes) text[at] = one_in(8) ? (char)random_bits() : some_byte();
  return bytes;
}

static size_t insert(char *text, size_t bytes, size_t at) {
  memmove(text + at + 1, text + at, bytes - at);
  text[at] = some_byte();
  return bytes + 1;
}

static size_t leave_out(char *text, size_t bytes, size_t at) {
  if (at == bytes) return bytes;
  memmove(text + at, text + at + 1, bytes - at - 1);
  return bytes - 1;
}

static size_t twice(char *text, size_t bytes, size_t at) {
  insert(text, bytes, at);
  if (at > 0) text[at] = text[at - 1];
  return bytes + 1;
}

size_t broken_text(char *text, size_t bytes) {
  static size_t (*const ways[])(char *, size_t, size_t) = {cut, change, insert, leave_out, twice};
  size_t at = one_in(4) ? bytes - below(2) : below((uint32_t)bytes + 1);
  if (at > bytes) at = bytes;
  return ways[below(5)](text, bytes, at);
}
