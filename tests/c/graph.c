/* The object graph: nodes in a row, never freed. A value is null, a number, a code word or a node; no address. */
#include "graph.h"

#include <stdlib.h>
#include <string.h>

#include "lent.h"

enum { NIL, NUMBER, CODE, NODE }; /* what a value is */

struct value {
  int what;
  int64_t is; /* the integer, the code word, or the node's number */
};

struct node {
  int untraced;
  uint32_t count;
  size_t first; /* its fields are cells[first] on; a raw field is a cell's `is` */
};

#define NODES 20000
#define CELLS 200000

static struct value roots[64], cells[CELLS];
static struct node nodes[NODES];
static uint8_t seen[NODES];
static int64_t queue[NODES];
static size_t root_count, node_count, cell_count;
static uint32_t limit;

void graph_start(size_t count, uint32_t half) {
  memset(roots, 0, sizeof roots);
  root_count = count;
  node_count = cell_count = 0;
  limit = half;
}

/* ---- the numbers of a collection: words and nodes that are live, and edges to nodes ---- */

static size_t queued;

/* Answers the edges that lead to it here: one if it is a node, be it new or not. */
static uint32_t reach(struct value v) {
  if (v.what != NODE) return 0;
  if (!seen[v.is]) queue[queued++] = v.is;
  seen[v.is] = 1;
  return 1;
}

static uint32_t reach_fields(const struct node *n) {
  uint32_t k, edges = 0;
  if (n->untraced) return 0;
  for (k = 0; k < n->count; k++) edges += reach(cells[n->first + k]);
  return edges;
}

static struct counts count_live(void) {
  struct counts c = {0, 0, 0};
  size_t i;
  memset(seen, 0, node_count);
  queued = 0;
  for (i = 0; i < root_count; i++) c.addresses += reach(roots[i]);
  for (i = 0; i < queued; i++) {
    c.live += nodes[queue[i]].count + 1;
    c.addresses += reach_fields(&nodes[queue[i]]);
  }
  c.objects = (uint32_t)queued;
  return c;
}

/* ---- the calls ---- */

static int no_room(uint64_t words) { return limit != GRAPH_NO_LIMIT && count_live().live + words > limit; }

static struct value node(size_t n, int untraced) {
  struct value made = {NODE, (int64_t)node_count};
  if (node_count == NODES || cell_count + n > CELLS) abort(); /* a list too long for this file */
  nodes[node_count].untraced = untraced;
  nodes[node_count].count = (uint32_t)n;
  nodes[node_count++].first = cell_count;
  memset(cells + cell_count, 0, n * sizeof cells[0]);
  cell_count += n;
  return made;
}

static uint32_t new_node(size_t to, size_t n, int untraced) {
  if (to >= root_count) return 2;
  if (n > 1073741823) return 3;
  if (no_room((uint64_t)n + 1)) return 9;
  roots[to] = node(n, untraced);
  return 0;
}

static uint32_t field_call(const struct call *c, uint32_t *value) {
  int raw = c->op == RAW_READ || c->op == RAW_WRITE;
  const struct node *n;
  struct value *cell;
  if (c->a >= root_count || (!raw && c->c >= root_count)) return 2;
  if (roots[c->a].what != NODE) return 5;
  n = &nodes[roots[c->a].is];
  if (n->untraced != raw) return 6;
  if (c->b >= n->count) return 7;
  cell = &cells[n->first + c->b];
  if (c->op == LOAD) roots[c->c] = *cell;
  if (c->op == STORE) *cell = roots[c->c];
  if (c->op == RAW_READ) *value = (uint32_t)cell->is;
  if (c->op == RAW_WRITE) cell->is = c->number;
  return 0;
}

static uint32_t set_integer(size_t to, int64_t v) {
  if (to >= root_count) return 2;
  if (v < -1073741824 || v > 1073741823) return 4;
  roots[to].what = NUMBER;
  roots[to].is = v;
  return 0;
}

static uint32_t set_null(size_t to) {
  if (to >= root_count) return 2;
  roots[to].what = NIL;
  roots[to].is = 0;
  return 0;
}

static uint32_t set_code(size_t to, uint32_t word) {
  if (to >= root_count) return 2;
  if (word % 2 == 1 || word < 16777216) return 4;
  roots[to].what = CODE;
  roots[to].is = word;
  return 0;
}

static uint32_t two_roots(const struct call *c, uint32_t *value) {
  if (c->a >= root_count || c->c >= root_count) return 2;
  if (c->op == COPY) roots[c->c] = roots[c->a];
  else *value = roots[c->a].what == roots[c->c].what && roots[c->a].is == roots[c->c].is;
  return 0;
}

/* ---- texts: values are told by pointers to them ---- */

static char bytes_left[LONGEST_TEXT], tried[LONGEST_TEXT];

const char *graph_bytes(void) { return bytes_left; }

static struct looked_at look(const void *in, const void *value) {
  const struct value *v = value;
  struct looked_at seen_as = {NO_TEXT, 0, 0};
  (void)in;
  if (v->what == NUMBER) return seen_as.sort = WHOLE_NUMBER, seen_as.number = v->is, seen_as;
  if (v->what != NODE || nodes[v->is].untraced) return seen_as;
  return seen_as.sort = TUPLE, seen_as.fields = nodes[v->is].count, seen_as;
}

static const void *field(const void *in, const void *value, uint32_t number) {
  const struct value *v = value;
  (void)in;
  return &cells[nodes[v->is].first + number];
}

static uint32_t write_root(size_t root, size_t bytes, size_t *length) {
  static const struct values values = {look, field};
  struct text_end end;
  fill_bytes(bytes_left, bytes);
  if (root >= root_count) return 2;
  end = write_text(&values, NULL, &roots[root], tried, bytes);
  if (end.refusal != 0) return end.refusal;
  memcpy(bytes_left, tried, end.at);
  *length = end.at;
  return 0;
}

static struct value value_of(const struct looked_at **next) {
  const struct looked_at *v = (*next)++;
  struct value value = {NUMBER, v->number};
  uint32_t k;
  if (v->sort == WHOLE_NUMBER) return value;
  value = node(v->fields, 0);
  for (k = 0; k < v->fields; k++) cells[nodes[value.is].first + k] = value_of(next);
  return value;
}

static uint32_t read_root(size_t to, const char *text, size_t bytes) {
  struct text_read read;
  if (to >= root_count) return 2;
  read = read_text(text, bytes);
  if (read.refusal != 0) return read.refusal;
  if (no_room(read.words)) return 9;
  roots[to] = value_of(&read.values);
  return 0;
}

/* ---- all calls ---- */

struct said graph_holds(size_t root) {
  struct said r = {0};
  if (root >= root_count) return r.refusal = 2, r;
  if (roots[root].what == NUMBER) return r.kind = 1, r.integer = (int32_t)roots[root].is, r;
  if (roots[root].what == CODE) return r.kind = 4, r.code = (uint32_t)roots[root].is, r;
  if (roots[root].what == NIL) return r;
  r.kind = nodes[roots[root].is].untraced ? 3 : 2;
  r.count = nodes[roots[root].is].count;
  return r;
}

struct said graph_call(const struct call *c) {
  struct said r = {0};
  switch (c->op) {
  case CHECK: r.value = 1; break;
  case COLLECT: r.counts = count_live(); break;
  case NEW_TRACED:
  case NEW_UNTRACED: r.refusal = new_node(c->a, c->b, c->op == NEW_UNTRACED); break;
  case SET_INTEGER: r.refusal = set_integer(c->a, c->integer); break;
  case SET_NULL: r.refusal = set_null(c->a); break;
  case SET_CODE: r.refusal = set_code(c->a, c->number); break;
  case COPY:
  case SAME: r.refusal = two_roots(c, &r.value); break;
  case LOAD:
  case STORE:
  case RAW_READ:
  case RAW_WRITE: r.refusal = field_call(c, &r.value); break;
  case INSPECT: return graph_holds(c->a);
  case WRITE: r.refusal = write_root(c->a, c->b, &r.length); break;
  case READ: r.refusal = read_root(c->a, c->text, c->b); break;
  default: abort(); /* fresh and the window are no session calls */
  }
  return r;
}
