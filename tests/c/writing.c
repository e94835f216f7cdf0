/* The writer, shape by shape, each text in every number of bytes from none to one more than enough. */
#include <string.h>

#include "calls.h"
#include "judge.h"
#include "parts.h"

static void begin(void) { judge_lend(2001, 2); }

/* A new object, written into the heap word by word. */
static uint32_t object(uint32_t header, const uint32_t *fields, uint32_t count) {
  struct state *s = judged();
  uint32_t at = s->free;
  s->heap[at] = header;
  memcpy(s->heap + at + 1, fields, count * sizeof fields[0]);
  s->free += count + 1;
  return 4 * at;
}

static uint32_t tuple(const uint32_t *fields, uint32_t count) { return object(2 * count, fields, count); }

/* The word's text must end like this, wherever the bytes run out before. */
static void ends(uint32_t word, uint32_t refusal, size_t at, const char *wrong) {
  struct text_end end;
  size_t bytes;
  judged()->roots[0] = word;
  judge_settle();
  end = text_of_root(judged(), 0, LONGEST_TEXT);
  expect(end.refusal == refusal && end.at == at, wrong);
  for (bytes = 0; bytes <= at + 1; bytes++) {
    struct call write = call_of(WRITE, 0, bytes, 0);
    expect(judge_call(&write).refusal == (bytes < at ? 12u : refusal), wrong);
  }
}

static void has_text(uint32_t word, const char *text) {
  ends(word, 0, strlen(text), text);
  expect(memcmp(judged()->text, text, strlen(text)) == 0, text);
}

static uint32_t integer_word(int64_t v) { return (uint32_t)(2 * v + 1); }

/* Where the count of digits changes, with both signs, and the ends of the range. */
static void integers(void) {
  int64_t power, v, digits = 1;
  begin();
  has_text(integer_word(0), "0");
  has_text(integer_word(1073741823), "1073741823");
  has_text(integer_word(-1073741824), "~1073741824");
  has_text(integer_word(-1), "~1");
  has_text(integer_word(-10), "~10");
  has_text(integer_word(1002003), "1002003");
  for (power = 10; power <= 1000000000; power *= 10, digits++)
    for (v = power - 1; v <= power; v++) {
      ends(integer_word(v), 0, (size_t)(digits + (v == power)), "digits of an integer");
      ends(integer_word(-v), 0, (size_t)(digits + (v == power) + 1), "digits of a negative integer");
    }
}

static void shapes(void) {
  uint32_t fields[6], i;
  begin();
  for (i = 0; i < 6; i++) fields[i] = integer_word(i);
  has_text(tuple(fields, 0), "()");
  has_text(tuple(fields, 1), "{1=0}");
  has_text(tuple(fields, 2), "(0,1)");
  has_text(tuple(fields, 6), "(0,1,2,3,4,5)");
  fields[0] = tuple(fields, 0);
  fields[1] = tuple(fields, 1);
  fields[2] = tuple(fields, 2);
  has_text(fields[2], "((),{1=()})");
  has_text(tuple(fields, 5), "((),{1=()},((),{1=()}),3,4)");
  fields[0] = integer_word(-12);
  has_text(tuple(fields, 1), "{1=~12}");
}

/* A word that has no text, as a root, then in a field behind some bytes, in the first one, in the only one. */
static void without_text(uint32_t word, uint32_t refusal) {
  uint32_t fields[4];
  fields[0] = integer_word(-5);
  fields[1] = tuple(fields, 0);
  fields[2] = word;
  fields[3] = word;
  ends(word, refusal, 0, "a root without a text");
  ends(tuple(fields, 3), refusal, 7, "a last field without a text"); /* (~5,(), */
  ends(tuple(fields + 2, 2), refusal, 1, "a first field without a text");
  ends(tuple(fields + 2, 1), refusal, 3, "an only field without a text");
}

static void no_texts(void) {
  uint32_t raw = integer_word(7);
  begin();
  without_text(0, 10);
  without_text(16777216, 10);
  without_text(4294967294u, 10);
  without_text(object(0x80000000u, &raw, 0), 10);
  without_text(object(0x80000002u, &raw, 1), 10);
  without_text(16777214, 5);
  without_text(2, 5);
  without_text(6, 5);
  without_text(4 * 1001, 5); /* in the idle half */
  without_text(4 * 1000, 5); /* among the free words */
  judged()->heap[judged()->free - 1] = 3;
  without_text(4 * (judged()->free - 1), 5); /* a header with bit 0 set */
}

/* A way to nest: which of how many fields holds the next object, and the bytes before and behind that. */
struct form {
  uint32_t at, fields;
  size_t before, behind;
};

/* So many objects around a word; the other fields are 8. Answers the outermost. */
static uint32_t nested(uint32_t word, uint32_t deep, const struct form *f) {
  uint32_t each[3], i;
  for (i = 0; i < 3; i++) each[i] = integer_word(8);
  for (i = 0; i < deep; i++) {
    each[f->at] = word;
    word = tuple(each, f->fields);
  }
  return word;
}

/* 64 nested and not 65; what has no text, or is no value, is told as such even in place of the 65th. */
static void depths_of(const struct form *f) {
  size_t place = 64 * f->before, around = f->before + f->behind;
  uint32_t none, raw = 1;
  begin();
  ends(nested(3, 63, f), 0, 63 * around + 1, "63 nested");
  ends(nested(3, 64, f), 0, 64 * around + 1, "64 nested");
  begin();
  ends(nested(3, 65, f), 11, place, "65 nested are DEEP");
  ends(nested(3, 66, f), 11, place, "66 nested are DEEP");
  begin();
  none = tuple(&raw, 0);
  ends(nested(none, 63, f), 0, 63 * around + 2, "() is the 64th nested");
  ends(nested(none, 64, f), 11, place, "() is the 65th nested");
  begin();
  ends(nested(0, 64, f), 10, place, "null in the 64th nested");
  ends(nested(object(0x80000000u, &raw, 0), 64, f), 10, place, "an untraced object is VALUE, be it the 65th");
  ends(nested(6, 64, f), 5, place, "OBJECT comes before DEEP");
}

static void depths(void) {
  static const struct form forms[] = {{0, 1, 3, 1}, {1, 2, 3, 1}, {0, 3, 1, 5}}; /* {1=v} (8,v) (v,8,8) */
  size_t i;
  for (i = 0; i < sizeof forms / sizeof forms[0]; i++) depths_of(&forms[i]);
}

/* All fields of a level are the level below: of 64 levels the text has more bytes than there are, and the call still
   ends; of a few it is written out whole. */
static void shared(void) {
  static const uint32_t sizes[] = {0, 1, 63, 64, 65, 66, 127, 128, 1000, 10000};
  uint32_t level, i, both[2] = {3, 3};
  begin();
  for (level = 1; level <= 70; level++) {
    both[0] = both[1] = tuple(both, 2);
    if (level <= 4) ends(both[0], 0, ((size_t)1 << level) * 4 - 3, "shared objects are written out each time");
    judged()->roots[0] = both[0];
    judge_settle();
    for (i = 0; i < sizeof sizes / sizeof sizes[0] && level >= 63; i++) {
      struct call write = call_of(WRITE, 0, sizes[i], 0);
      expect(judge_call(&write).refusal == (level > 64 && sizes[i] >= 64 ? 11u : 12u), "many levels of shared objects");
    }
  }
}

/* One object of many fields, which fills its half. */
static void wide(void) {
  static uint32_t ones[100000];
  uint32_t i;
  for (i = 0; i < 100000; i++) ones[i] = 3;
  judge_lend(2 * 100001 + 1, 1);
  judged()->roots[0] = tuple(ones, 100000);
  judge_settle();
  for (i = 0; i < 3; i++) {
    struct call write = call_of(WRITE, 0, 200000 + i, 0);
    expect(judge_call(&write).refusal == (i == 0 ? 12u : 0u), "a tuple of 100,000 fields");
  }
}

void writing(void) {
  judge_part("writing");
  integers();
  shapes();
  no_texts();
  depths();
  shared();
  wide();
}
