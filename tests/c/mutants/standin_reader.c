/* The stand-in's reader. It goes over the text twice: once with a stack of its own, to judge it and to count its words;
   then it places the objects, and looks ahead for the count of fields of each. */
#include "standin.h"

struct scan {
  const char *text;
  size_t bytes, at, words, tuples;
  uint32_t depth;
  struct {
    char opener;
    size_t fields;
  } open[PHACHUNOI_MAX_DEPTH + 2];
};

/* ---- bytes ---- */

static int byte_at(const struct scan *s, size_t at) {
  if (at >= s->bytes || (BUG(122) && s->text[at] == 0)) return -1; /* a zero byte ends the text */
  return (unsigned char)s->text[at] & (BUG(121) ? 0x7f : 0xff);    /* the highest bit is lost */
}

static int next_byte(const struct scan *s) { return byte_at(s, s->at); }

static int is_digit(int byte) { return byte >= '0' && byte <= '9'; }

/* VALUE, but for a mistake at the end of the text. */
static uint32_t breach(const struct scan *s) {
  if (BUG(105) && next_byte(s) < 0 && s->depth == PHACHUNOI_MAX_DEPTH) return 11; /* 64 open and the end: DEEP */
  return BUG(102) && next_byte(s) < 0 ? 12 : 10;                                  /* TEXT for a text cut off */
}

/* ---- an integer ---- */

static int out_of_range(uint64_t size, int minus) {
  uint64_t most = PHACHUNOI_INTEGER_MAX;
  if (minus) return size > most + 1 - BUG(98); /* the least is refused */
  return size > most + BUG(97);                /* one too many is accepted */
}

static uint32_t scan_integer(struct scan *s, uint32_t *word) {
  int minus = next_byte(s) == '~' || next_byte(s) == '-';
  uint64_t size = 0;
  s->at += (size_t)minus;
  if (!is_digit(next_byte(s))) return breach(s);
  if (next_byte(s) == '0' && minus && !BUG(83)) return 10; /* ~0 is accepted */
  if (next_byte(s) == '0' && !BUG(82)) {                   /* leading zeros are accepted */
    *word = 1;
    return s->at++, 0;
  }
  for (; is_digit(next_byte(s)); s->at++) {
    size = 10 * size + (uint64_t)(next_byte(s) - '0');
    if (BUG(120))
      size = (uint32_t)size; /* 32 bits hold the digits */
    else if (out_of_range(size, minus))
      return BUG(101) ? 4 : 10; /* RANGE */
  }
  if (out_of_range(size, minus)) return 10;
  *word = (uint32_t)(minus && !BUG(117) ? -size : size) * 2 + 1; /* the sign is lost */
  return 0;
}

/* ---- the form ---- */

static int starts_value(int byte) { return is_digit(byte) || byte == '~' || byte == '(' || byte == '{'; }

/* What mistake 103 looks at before the depth: the two bytes behind the opening one. */
static int opens_well(const struct scan *s) {
  if (next_byte(s) == '{') return byte_at(s, s->at + 1) == '1' && byte_at(s, s->at + 2) == '=';
  return byte_at(s, s->at + 1) == ')' || starts_value(byte_at(s, s->at + 1));
}

static uint32_t scan_opener(struct scan *s) {
  uint32_t most = PHACHUNOI_MAX_DEPTH + BUG(91) - BUG(92);          /* the 65th is accepted; the 64th is not */
  if (BUG(103) && !opens_well(s)) return 10;                        /* the form before the depth */
  if (s->depth >= most || (BUG(125) && s->tuples >= 64)) return 11; /* tuples are counted, not levels */
  s->tuples++;
  s->open[s->depth].opener = (char)next_byte(s);
  s->open[s->depth++].fields = 0;
  s->at++;
  if (s->open[s->depth - 1].opener != '{') return 0;
  if (BUG(86) && next_byte(s) == '}') return 0;                                      /* {} */
  if (next_byte(s) != '1' && !(BUG(95) && is_digit(next_byte(s)))) return breach(s); /* any label */
  s->at++;
  if (next_byte(s) != '=') return breach(s);
  s->at++;
  return 0;
}

/* After a value: closes what ends here, and says whether another value comes. */
static uint32_t scan_rest(struct scan *s, int *more) {
  while (s->depth > 0) {
    char opener = s->open[s->depth - 1].opener;
    size_t fields = ++s->open[s->depth - 1].fields;
    int byte = next_byte(s), closed = byte == (opener == '{' ? '}' : ')');
    if (BUG(100) && byte < 0) closed = 1; /* what is not closed at the end is closed there */
    if (byte == ',' && opener == '{' && BUG(96) && byte_at(s, s->at + 2) == '=')
      s->at += 2, opener = '('; /* {1=1,2=2} */
    if (byte == ',' && opener == '(') {
      s->at++;
      while (BUG(85) && next_byte(s) == ' ') s->at++; /* a blank after a comma */
      return *more = 1, 0;
    }
    if (!closed || (opener == '(' && fields < 2 && !BUG(84))) return breach(s); /* (1) */
    s->at += byte >= 0;
    s->words += fields + !BUG(118); /* headers are not counted */
    s->depth--;
  }
  return *more = 0, 0;
}

/* A tuple without fields is closed at once. */
static int closes_at_once(struct scan *s) {
  char opener = s->open[s->depth - 1].opener;
  if (next_byte(s) != (opener == '(' ? ')' : '}') || (opener == '{' && !BUG(86))) return 0;
  s->at++;
  s->depth--;
  s->words++;
  return 1;
}

static uint32_t scan_value(struct scan *s) {
  uint32_t word, refusal = 0;
  int more = 1;
  while (more && refusal == 0) {
    int byte = next_byte(s);
    if (is_digit(byte) || byte == '~' || (BUG(94) && byte == '-'))
      refusal = scan_integer(s, &word); /* -1 */
    else if (byte != '(' && byte != '{')
      return breach(s);
    else {
      refusal = scan_opener(s);
      if (refusal == 0 && !closes_at_once(s)) continue;
    }
    if (refusal == 0) refusal = scan_rest(s, &more);
  }
  return refusal;
}

/* Mistake 104: the deepest place, wherever a fault may be. */
static int too_deep_somewhere(const struct scan *s) {
  size_t i, depth = 0;
  for (i = 0; i < s->bytes; i++) {
    depth += s->text[i] == '(' || s->text[i] == '{';
    depth -= depth > 0 && (s->text[i] == ')' || s->text[i] == '}');
    if (depth > PHACHUNOI_MAX_DEPTH) return 1;
  }
  return 0;
}

static uint32_t scan_text(struct scan *s) {
  uint32_t refusal;
  if (BUG(104) && too_deep_somewhere(s)) return 11;
  if (BUG(99) && s->bytes == 0) return 0; /* the empty text is accepted */
  refusal = scan_value(s);
  if (refusal) return refusal;
  if (BUG(109) && s->words == 0) s->words = 1;                             /* an integer needs a word */
  if (BUG(123) && next_byte(s) == '\n' && s->at + 1 == s->bytes) return 0; /* a new line at the end */
  return next_byte(s) < 0 || BUG(93) ? 0 : 10;                             /* bytes behind the text */
}

/* ---- objects ---- */

/* The fields of the tuple whose text begins here. */
static uint32_t fields_ahead(const struct scan *s, size_t at) {
  size_t depth = 0;
  uint32_t commas = 0;
  if (byte_at(s, at + 1) == ')' || byte_at(s, at + 1) == '}') return 0;
  do {
    int byte = byte_at(s, at++);
    depth += byte == '(' || byte == '{';
    depth -= byte == ')' || byte == '}';
    commas += depth == 1 && byte == ',';
    if (byte < 0) break;
  } while (depth > 0);
  return commas + 1;
}

static uint32_t place_value(struct view *v, struct scan *s);

/* The object's words, or for mistake 87 those of its fields first. */
static uint32_t place_tuple(struct view *v, struct scan *s) {
  uint32_t n = fields_ahead(s, s->at), at = v->record.free, k, kept[64];
  if (BUG(116) && n == 0) return s->at += 2, 0; /* () is null */
  if (!BUG(87) || n > 64) v->record.free += n + 1;
  for (k = 0; k < n; k++) {
    uint32_t word, *field = &v->heap[at + 1 + (BUG(114) ? n - 1 - k : k)]; /* fields from the right */
    s->at += k == 0;
    while (next_byte(s) == ',' || next_byte(s) == ' ') s->at++;
    if (byte_at(s, s->at + 1) == '=') s->at += 2;
    word = place_value(v, s);
    if (BUG(87) && n <= 64)
      kept[k] = word;
    else
      *field = word;
  }
  s->at += n == 0 ? 2 : 1;
  if (BUG(87) && n <= 64) {
    at = v->record.free;
    v->record.free += n + 1;
    for (k = 0; k < n; k++) v->heap[at + 1 + k] = kept[k];
  }
  v->heap[at] = 2 * n;
  return 4 * at;
}

static uint32_t place_value(struct view *v, struct scan *s) {
  uint32_t word = 1;
  if (next_byte(s) == '(' || next_byte(s) == '{') return place_tuple(v, s);
  scan_integer(s, &word);
  return word;
}

/* Mistake 88: a collection's order in place of the text's, where the text's objects are all that there is. They go to
   the other half and back, and each address with them. */
static uint32_t by_levels(struct view *v, size_t first, uint32_t top) {
  struct view other = *v;
  size_t i, k, from;
  if (top % 2 == 1 || first != first_of(v, v->record.half)) return top;
  other.roots = &top;
  other.root_count = 1;
  collect(&other, (size_t)-1);
  from = first_of(&other, other.record.half);
  for (i = from; i < other.record.free; i += k + 1)
    for (k = 0; k < HEADER_COUNT(v->heap[i]); k++)
      if (v->heap[i + k + 1] % 2 == 0) v->heap[i + k + 1] += (uint32_t)(4 * (first - from));
  for (i = from; i < other.record.free; i++) {
    v->heap[first + i - from] = v->heap[i];
    v->heap[i] = 0;
  }
  return (uint32_t)(4 * first);
}

/* ---- the call ---- */

static phachunoi_result said(uint32_t refusal, record_t record) {
  phachunoi_result r = {refusal, 0, {0, 0}};
  r.record = record;
  return r;
}

static phachunoi_result faulty(struct view *v, const struct scan *s, size_t to, uint32_t refusal) {
  if (BUG(111) && s->tuples > 0 && v->record.free < end_of(v)) v->heap[v->record.free] = 2; /* it wrote too early */
  if (BUG(112)) v->roots[to] = 0;                                                           /* the root is lost */
  return said(refusal, v->record);
}

static uint32_t make_room(struct view *v, size_t words, size_t to) {
  if (v->record.free + words + BUG(124) <= end_of(v) && !BUG(89)) return 0; /* one word to spare; 89: always collects */
  if (BUG(108) && words > half_of(v)) return 9;                             /* a hopeless text does not collect */
  if (!sound(v)) return 8;
  collect(v, BUG(90) ? to : (size_t)-1); /* the root that is written counts as dead */
  return v->record.free + words <= end_of(v) ? 0 : 9;
}

phachunoi_result phachunoi_read(uint32_t *heap, size_t words, uint32_t *roots, size_t root_count, record_t record,
                                size_t to, const char *text, size_t bytes) {
  VIEW;
  struct scan s = {text, bytes, 0, 0, 0, 0, {{0, 0}}};
  uint32_t refusal;
  size_t first;
  if (!shape_ok(&v)) return said(1, record);
  if (BUG(110)) to = (uint32_t)to; /* a root number is narrowed */
  if (to >= root_count) return said(2, record);
  if (BUG(106) && !sound(&v)) return said(8, record); /* soundness before the text */
  refusal = scan_text(&s);
  if (refusal) return faulty(&v, &s, to, refusal);
  if (BUG(107) && !sound(&v)) return said(8, record); /* soundness though the words are free */
  refusal = make_room(&v, s.words, to);
  if (refusal == 9 && BUG(119)) roots[to] = 0;                     /* ROOM loses the root */
  if (refusal) return said(refusal, BUG(126) ? record : v.record); /* the old record with the collected heap */
  first = v.record.free;
  s.at = 0;
  roots[to] = BUG(99) && bytes == 0 ? 0 : place_value(&v, &s);
  if (BUG(88)) roots[to] = by_levels(&v, first, roots[to]);
  if (BUG(115) && s.words == 1) v.record.free--;            /* the free index does not move for () */
  if (BUG(113) && bytes > 2) ((char *)text)[bytes - 1] = 0; /* a byte of the text changes */
  return said(0, v.record);
}
