/* The stand-in's writer of texts. It goes over a value with a stack of its own, first without a pen. */
#include "standin.h"

#define NO_LIMIT ((size_t)100000) /* of mistake 60, which would not end */

/* ---- bytes ---- */

struct pen {
  char *text; /* NULL: only counts */
  size_t bytes, at;
};

static int put(struct pen *p, char byte) {
  if (p->at + BUG(80) >= p->bytes) return 0; /* one byte more than enough is asked for */
  if (p->text) p->text[p->at] = byte;
  p->at++;
  return 1;
}

static int put_all(struct pen *p, const char *bytes) {
  while (*bytes && put(p, *bytes)) bytes++;
  return *bytes == 0;
}

static int put_integer(struct pen *p, uint32_t word) {
  int64_t v = (int64_t)(int32_t)word >> 1;
  uint32_t size = (uint32_t)(v < 0 ? -v : v), unit = 1;
  if (BUG(50) && size < 10 && !put(p, '0')) return 0;  /* a leading zero */
  if (BUG(51) && v == 0 && !put(p, '~')) return 0;     /* ~0 */
  if (BUG(70) && v < 0) size = word >> 1, v = 1;       /* the sign is lost */
  if (v < 0 && !put(p, BUG(52) ? '-' : '~')) return 0; /* minus as C has it */
  while (size / unit >= 10) unit *= 10;
  for (; unit > 0; unit /= 10)
    if (!put(p, (char)('0' + size / unit % 10)) && !BUG(81)) return 0; /* digits that do not fit are left out */
  return 1;
}

/* ---- a value ---- */

struct open {
  uint32_t word, count, next; /* the object, its fields, the next one to be written */
};

struct walk {
  const struct view *v;
  struct pen *pen;
  struct open stack[PHACHUNOI_MAX_DEPTH + 1];
  uint32_t depth;
};

static uint32_t count_of(const struct view *v, uint32_t word) { return HEADER_COUNT(v->heap[word / 4]); }

static int holds_itself(const struct walk *w, uint32_t word) {
  uint32_t i;
  for (i = 0; i < w->depth; i++)
    if (w->stack[i].word == word) return 1;
  return 0;
}

/* Null, a code word, an untraced object. */
static int has_no_text(const struct view *v, uint32_t word) {
  if (word == 0) return !BUG(66) && !BUG(67);
  if (is_code(word)) return !BUG(65);         /* a code word is written as an integer */
  return v->heap[word / 4] >> 31 && !BUG(64); /* an untraced object is written as a tuple */
}

/* The fault of a value at its place, which comes before the bytes are asked for. */
static uint32_t fault_of(const struct walk *w, uint32_t word) {
  uint32_t most = PHACHUNOI_MAX_DEPTH + BUG(55) - BUG(56); /* the 65th is written; the 64th is not */
  int full = w->pen->at >= w->pen->bytes, deep = w->depth >= most;
  int object = word != 0 && !is_code(word), named = names(w->v, word);
  if (BUG(73) && deep && object) return 11;                             /* DEEP before OBJECT */
  if (object && !named) return BUG(58) && full ? 12 : BUG(74) ? 10 : 5; /* TEXT before OBJECT; VALUE instead */
  if (BUG(72) && deep && object) return 11;                             /* DEEP before VALUE */
  if (has_no_text(w->v, word)) return BUG(57) && full ? 12 : 10;        /* TEXT before VALUE */
  if (!object) return 0;                                                /* only by mistakes 65 to 67 */
  if (BUG(79) && holds_itself(w, word)) return 11;                      /* DEEP where a cycle is seen */
  if (BUG(76) && count_of(w->v, word) == 0) return 0;                   /* () takes no level */
  if (!deep) return 0;
  return BUG(59) && full ? 12 : 11; /* TEXT before DEEP */
}

static uint32_t put_value(struct walk *w, uint32_t word) {
  struct open *top = &w->stack[w->depth];
  uint32_t fault = word % 2 == 1 ? 0 : fault_of(w, word);
  if (fault) return fault;
  if (BUG(66) && word == 0) return put_all(w->pen, "()") ? 0 : 12; /* null is () */
  if (BUG(67) && word == 0) word = 1;                              /* null is 0 */
  if (word % 2 == 1 || is_code(word)) return put_integer(w->pen, word) ? 0 : 12;
  if (BUG(54) && count_of(w->v, word) == 0) return put_all(w->pen, "{}") ? 0 : 12; /* {} for no fields */
  if (BUG(76) && count_of(w->v, word) == 0) return put_all(w->pen, "()") ? 0 : 12;
  top->word = word;
  top->count = count_of(w->v, word);
  top->next = 0;
  w->depth++;
  return put_all(w->pen, top->count == 1 && !BUG(53) ? "{1=" : "(") ? 0 : 12; /* (v) for one field */
}

/* The next piece of the object on top: a field with its comma, or the end. */
static uint32_t go_on(struct walk *w) {
  struct open *top = &w->stack[w->depth - 1];
  const uint32_t *fields = w->v->heap + top->word / 4 + 1;
  uint32_t k = top->next++;
  if (k == top->count) {
    w->depth--;
    return put_all(w->pen, top->count == 1 && !BUG(53) && !BUG(71) ? "}" : ")") ? 0 : 12; /* {1=v) */
  }
  if (k > 0 && !put_all(w->pen, BUG(69) ? ", " : ",")) return 12;           /* a blank after a comma */
  if (BUG(68) && k > 0 && fields[k] % 2 == 0 && fields[k] == fields[k - 1]) /* what is shared is written once */
    return put_all(w->pen, "()") ? 0 : 12;
  return put_value(w, fields[k]);
}

static uint32_t write_value(const struct view *v, uint32_t word, struct pen *pen) {
  struct walk w = {v, pen, {{0, 0, 0}}, 0};
  uint32_t refusal = put_value(&w, word);
  while (refusal == 0 && w.depth > 0) refusal = go_on(&w);
  return refusal;
}

phachunoi_written phachunoi_write(const uint32_t *heap, size_t words, const uint32_t *roots, size_t root_count,
                                  record_t record, size_t root, char *text, size_t bytes) {
  VIEW;
  phachunoi_written w = {0, 0};
  struct pen pen = {BUG(61) ? text : NULL, BUG(60) ? NO_LIMIT : bytes, 0}; /* 61: it writes what it may refuse */
  if (!shape_ok(&v)) return w.refusal = 1, w;
  if (BUG(77)) root = (uint32_t)root; /* a root number is narrowed */
  if (root >= root_count) return w.refusal = 2, w;
  if (BUG(78) && !sound(&v)) return w.refusal = 8, w; /* soundness is asked for */
  w.refusal = write_value(&v, roots[root], &pen);
  if (w.refusal == 0 && pen.at > bytes) w.refusal = 12;     /* by mistake 60: the text is measured first */
  if (w.refusal) return w.length = BUG(75) ? pen.at : 0, w; /* a refused text has a length */
  pen.text = text;
  pen.at = 0;
  pen.bytes = bytes;
  write_value(&v, roots[root], &pen);
  w.length = pen.at;
  if (BUG(62) && pen.at < bytes) text[pen.at] = 0; /* a zero byte behind the text, where there is room */
  if (BUG(63)) text[pen.at] = 0;                   /* and where there is none */
  return w;
}
