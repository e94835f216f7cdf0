/* The reader: every short string of bytes; texts whole, cut, and changed byte by byte; depth, range, room and damage;
   and that what was read is written again as it was. */
#include <stdio.h>
#include <string.h>

#include "calls.h"
#include "grammar.h"
#include "judge.h"
#include "parts.h"
#include "random.h"

static char text[LONGEST_TEXT];

static uint32_t read_bytes(const char *bytes, size_t length) {
  struct call read = read_of(0, bytes, length);
  return judge_call(&read).refusal;
}

static uint32_t read_on_fresh(const char *bytes, size_t length) {
  struct call fresh = call_of(FRESH, 0, 0, 0);
  judge_call(&fresh);
  return read_bytes(bytes, length);
}

/* Read, and then written: the same bytes. */
static void goes_round(const char *bytes, size_t length) {
  struct call write = call_of(WRITE, 0, length, 0);
  struct said said;
  expect(read_on_fresh(bytes, length) == 0, "a text is refused");
  said = judge_call(&write);
  expect(said.refusal == 0 && said.length == length && memcmp(judged()->text, bytes, length) == 0,
         "what was read is written otherwise");
}

/* ---- the form ---- */

/* All strings of up to four of these bytes. */
static void short_strings(void) {
  static const char bytes[] = "(){}1=,~0";
  uint32_t length, number, rest, i, all = 1, accepted = 0;
  judge_lend(201, 1);
  for (length = 0; length <= 4; length++, all *= sizeof bytes - 1)
    for (number = 0; number < all; number++) {
      for (i = 0, rest = number; i < length; i++, rest /= sizeof bytes - 1) text[i] = bytes[rest % (sizeof bytes - 1)];
      accepted += read_on_fresh(text, length) == 0;
    }
  expect(accepted == 16 + 7 + 1, "integers, negative ones and () are the texts of up to four such bytes");
}

/* Cut before every byte; each byte another one; and another one before it. */
static void broken_everywhere(const char *whole) {
  size_t length = strlen(whole), at, i;
  judge_lend(201, 1);
  goes_round(whole, length);
  for (at = 0; at < length; at++) read_on_fresh(whole, at);
  for (at = 0; at <= length; at++)
    for (i = 0; i < sizeof TEXT_BYTES; i++) { /* with the zero byte behind them */
      memcpy(text, whole, length);
      text[at] = TEXT_BYTES[i];
      read_on_fresh(text, at < length ? length : length + 1);
      memcpy(text + at + 1, whole + at, length - at);
      read_on_fresh(text, length + 1);
    }
}

static void forms(void) {
  static const char *const texts[] = {"0",
                                      "7",
                                      "~1",
                                      "1073741823",
                                      "~1073741824",
                                      "()",
                                      "{1=0}",
                                      "{1=()}",
                                      "(1,~2)",
                                      "((),())",
                                      "(1,2,3,4,5,6)",
                                      "((),{1=3},(4,5))",
                                      "{1={1={1=~10}}}",
                                      "(((1,2),3),(4,{1=(5,6)}),100)"};
  size_t i;
  for (i = 0; i < sizeof texts / sizeof texts[0]; i++) broken_everywhere(texts[i]);
}

/* ---- integers ---- */

static void integer_read(int64_t v) {
  int bad = v < -1073741824 || v > 1073741823;
  sprintf(text, "%s%lld", v < 0 ? "~" : "", (long long)(v < 0 ? -v : v));
  expect(read_on_fresh(text, strlen(text)) == (bad ? 10u : 0u), "VALUE at an integer");
  if (!bad) expect(judged()->roots[0] == (uint32_t)(2 * v + 1), "an integer is read as another");
}

/* Around the ends of the range, of 32 and 64 bits, and where digits are added; then digits without end. */
static void integers(void) {
  static const int64_t edges[] = {1073741823, 2147483647, 4294967295, 4294967296 + 7, 10737418230, INT64_MAX - 2};
  int64_t power, step;
  size_t i;
  judge_lend(17, 1);
  for (i = 0; i < sizeof edges / sizeof edges[0]; i++)
    for (step = -2; step <= 2; step++) {
      integer_read(edges[i] + step);
      integer_read(-(edges[i] + step));
    }
  for (power = 1; power <= 10000000000; power *= 10)
    for (step = -1; step <= 1; step++) {
      integer_read(power + step);
      if (power + step != 0) integer_read(-(power + step));
    }
  for (i = 20; i < 100; i += 7) { /* the low bits of some of these are a small integer */
    memset(text, '0', i);
    text[0] = '1';
    expect(read_on_fresh(text, i) == 10, "VALUE at an integer of many digits");
  }
  expect(read_on_fresh("18446744073709551617", 20) == 10, "2^64 + 1 is no 1");
}

/* ---- depth ---- */

/* So many times the opening bytes of one form, then a core. */
static uint32_t nested(const char *open, uint32_t deep, const char *core) {
  size_t at = 0, each = strlen(open);
  for (; deep > 0; deep--, at += each) memcpy(text + at, open, each);
  memcpy(text + at, core, strlen(core));
  return read_on_fresh(text, at + strlen(core));
}

/* Where the 65th opens, DEEP; where no text can go on before that, or nothing is left, VALUE. */
static void depths(void) {
  static const char *const opens[] = {"(", "{1=", "(7,"};
  static const char *const deep[] = {"()", "{2=1}", "(1)", "{", "(", "((", "(}", "{1=1,", "( )"};
  static const char *const breach[] = {"", ")", "}", "~", "~0", "00", "1073741824(", "1(", " (", ",", "=", "x("};
  size_t i, k;
  uint32_t count;
  judge_lend(2001, 1);
  for (i = 0; i < 3; i++) {
    for (k = 0; k < sizeof deep / sizeof deep[0]; k++)
      expect(nested(opens[i], 64, deep[k]) == 11, "64 open tuples and one more: DEEP");
    for (k = 0; k < sizeof breach / sizeof breach[0]; k++)
      if (i != 0 || breach[k][0] != ')') expect(nested(opens[i], 64, breach[k]) == 10, "64 open tuples: VALUE");
    for (count = 1; count <= 70; count++) expect(nested(opens[i], count, "") == (count > 64 ? 11u : 10u), "cut off");
  }
  for (count = 60; count < 70; count++) {
    size_t length = nested_text(text, count);
    expect((read_on_fresh(text, length) == 0) == (read_text(text, length).refusal == 0), "many levels");
  }
}

/* ---- room ---- */

/* In each small half, each size of text into an empty root, beside garbage, and over a value that counts as live. */
static void rooms(void) {
  uint32_t half, words, old;
  for (half = 1; half <= 9; half++)
    for (words = 1; words <= half + 2; words++)
      for (old = 0; old < half; old++) {
        struct call keep = call_of(NEW_TRACED, 0, old, 0), drop = call_of(SET_NULL, 0, 0, 0);
        size_t length = flat_text(text, words - 1);
        judge_lend(2 * (size_t)half + 1, 1);
        judge_call(&keep);
        expect(read_bytes(text, length) == (old + 1 + words > half ? 9u : 0u), "ROOM: the old value counts as live");
        judge_lend(2 * (size_t)half + 1, 1);
        judge_call(&keep);
        judge_call(&drop);
        expect(read_bytes(text, length) == (words > half ? 9u : 0u), "ROOM: garbage does not count");
        expect(judged()->half == (old + 1 + words > half), "collected only where the words are not free");
      }
}

/* An unsound heap: what fits is read, an integer always; else DAMAGED, but for faults of the text. */
static void damaged(void) {
  uint32_t free;
  for (free = 1; free <= 9; free++) {
    judge_lend(17, 2);
    judged()->heap[0] = 8;
    judged()->free = free;
    judged()->roots[1] = 6;
    judge_settle();
    expect(read_bytes("12", 2) == 0, "an integer is read whatever the heap");
    expect(read_bytes("(1,2", 4) == 10, "VALUE comes before DAMAGED");
    expect(read_bytes("(1,2)", 5) == (free > 6 ? 8u : 0u), "DAMAGED only where a collection is called for");
  }
}

/* ---- large texts ---- */

/* A text that fills its half, one word short, and with a fault near its end. */
static void large(void) {
  size_t length = flat_text(text, 100000);
  judge_lend(2 * 100001 + 1, 1);
  goes_round(text, length);
  judge_lend(2 * 100000 + 1, 1);
  expect(read_bytes(text, length) == 9, "a tuple too wide for its heap");
  text[length - 2] = ',';
  expect(read_bytes(text, length) == 10, "a fault at the end of a long text");
}

/* No tuple's text begins with another text: wherever it is cut, VALUE. */
static void cut_everywhere(size_t length) {
  size_t at;
  for (at = 0; at < length; at++) expect(read_on_fresh(text, at) == 10, "a text that is cut off is accepted");
}

static void random_rounds(uint32_t texts) {
  judge_lend(4001, 1);
  while (texts-- > 0) {
    size_t length = one_in(8) ? nested_text(text, 1 + below(63)) : random_text(text, 70 + below(1000), below(100));
    goes_round(text, length);
    if (length < 300 && (text[0] == '(' || text[0] == '{') && one_in(20)) cut_everywhere(length);
    read_on_fresh(text, broken_text(text, length));
  }
}

void reading(uint32_t texts) {
  judge_part("reading");
  short_strings();
  forms();
  integers();
  depths();
  rooms();
  damaged();
  large();
  random_rounds(texts);
}
