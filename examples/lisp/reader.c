/* Text to values: integers, strings, symbols, lists, and 'x for (quote x). A comment runs from ; to the line's end. */
#include <ctype.h>

#include "lisp.h"

static void skip_blanks(struct lisp *l) {
  int in_comment = 0;
  for (; l->at < l->end; l->at++) {
    if (*l->at == ';') in_comment = 1;
    if (*l->at == '\n') in_comment = 0;
    if (!in_comment && !isspace((unsigned char)*l->at)) return;
  }
}

int at_end(struct lisp *l) {
  skip_blanks(l);
  return l->at == l->end;
}

static enum fault read_list(struct lisp *l, slot to) {
  slot mark = height(l), value, tail;
  TRY(push(l, &value));
  TRY(push(l, &tail));
  TRY(set_nil(l, to));
  for (l->at++; !at_end(l) && *l->at != ')';) {
    TRY(read_value(l, value));
    TRY(append(l, value, to, tail));
  }
  if (l->at == l->end) return BAD_TEXT;
  l->at++;
  pop_to(l, mark);
  return FINE;
}

static enum fault read_quoted(struct lisp *l, slot to) {
  slot mark = height(l), rest;
  l->at++;
  TRY(push(l, &rest));
  TRY(read_value(l, to));
  TRY(make_pair(l, to, rest, rest));
  TRY(make_pair(l, QUOTE_SYMBOL, rest, to));
  pop_to(l, mark);
  return FINE;
}

/* The text is in the host's memory and does not move, so that the bytes can be copied after the allocation. */
static enum fault read_string(struct lisp *l, slot to) {
  const char *first = ++l->at;
  size_t i;
  while (l->at < l->end && *l->at != '"') l->at++;
  if (l->at == l->end) return BAD_TEXT;
  TRY(make_string(l, (size_t)(l->at - first), to));
  for (i = 0; first + i < l->at; i++) TRY(put_byte(l, to, i, first[i]));
  l->at++;
  return FINE;
}

static int ends_atom(char c) { return isspace((unsigned char)c) || c == '(' || c == ')' || c == ';' || c == '"'; }

/* The value of a run of digits, perhaps after a minus; returns 0 if the text is something else. */
static int is_integer(const char *text, size_t length, int64_t *value) {
  size_t i, first = length > 1 && text[0] == '-';
  *value = 0;
  for (i = first; i < length; i++) {
    if (!isdigit((unsigned char)text[i])) return 0;
    if (*value <= PHACHUNOI_INTEGER_MAX) *value = *value * 10 + (text[i] - '0'); /* more is out of range anyway */
  }
  if (first) *value = -*value;
  return 1;
}

static enum fault read_atom(struct lisp *l, slot to) {
  const char *first = l->at;
  int64_t value;
  while (l->at < l->end && !ends_atom(*l->at)) l->at++;
  if (is_integer(first, (size_t)(l->at - first), &value)) return set_integer(l, to, value);
  return intern(l, first, (size_t)(l->at - first), to);
}

enum fault read_value(struct lisp *l, slot to) {
  if (at_end(l) || *l->at == ')') return BAD_TEXT;
  if (*l->at == '(') return read_list(l, to);
  if (*l->at == '\'') return read_quoted(l, to);
  if (*l->at == '"') return read_string(l, to);
  return read_atom(l, to);
}
