/* The images that examples/image.c prints: a few exactly; then of heaps of every sort, read back. What is read must be
   all of the image, so that no two images have one text. A heap that is not sound has none. */
#include <stdlib.h>
#include <string.h>

#include "calls.h"
#include "example.h"
#include "heaps.h"
#include "images.h"
#include "judge.h"
#include "parts.h"
#include "samples.h"

static struct image printed, image;
static uint64_t sound_heaps, damaged_heaps, long_images; /* the last have 100 words or more */

/* ---- exactly ---- */

static void is_printed(const char *text) {
  expect(strcmp(shown(example_image, judged(), 0), text) == 0, "an image is printed otherwise");
}

static void p5_before_and_after(void) {
  struct call collect = call_of(COLLECT, 0, 0, 0);
  judge_lend(17, 2);
  p5_heap(judged());
  judge_settle();
  is_printed("root 0: @5\nroot 1: @2\n@0 traced: 0\n@2 traced: @2 10\n@5 traced:\n");
  judge_call(&collect);
  is_printed("root 0: @0\nroot 1: @1\n@0 traced:\n@1 traced: @1 10\n");
  judge_call(&collect);
  is_printed("root 0: @0\nroot 1: @1\n@0 traced:\n@1 traced: @1 10\n");
  judged()->roots[1] = 16;
  is_printed("not sound\n");
}

/* Values at the ends of their kinds, and raw words that look like each kind, in half B; then nothing at all. */
static void every_kind(void) {
  static const uint32_t used[] = {0x80000008u, 0, 52, 0xffffffffu, 16777216, 0x80000000u, 2, 72}; /* from word 13 on */
  static const uint32_t roots[] = {1, 3, 0xffffffffu, 0x7fffffffu, 0x80000001u, 0, 16777216, 4294967294u, 52, 76};
  judge_lend(25, 10);
  memcpy(judged()->heap + 13, used, sizeof used);
  memcpy(judged()->roots, roots, sizeof roots);
  judged()->half = 1;
  judged()->free = 21;
  is_printed("root 0: 0\nroot 1: 1\nroot 2: -1\nroot 3: 1073741823\nroot 4: -1073741824\nroot 5: null\n"
             "root 6: code 16777216\nroot 7: code 4294967294\nroot 8: @0\nroot 9: @6\n"
             "@0 untraced: 00000000 00000034 ffffffff 01000000\n@5 untraced:\n@6 traced: @5\n");
  judge_lend(3, 0);
  is_printed("");
  judge_lend(4, 0);
  is_printed("not sound\n");
}

/* ---- read back ---- */

/* What stands between blanks, and whether it ends its line. */
struct token {
  char text[32];
  int last;
};

static struct token next_token(const char **text) {
  struct token t;
  size_t length = strcspn(*text, " \n");
  snprintf(t.text, sizeof t.text, "%.*s", (int)length, *text);
  t.last = (*text)[length] != ' ';
  *text += length + ((*text)[length] != 0);
  return t;
}

/* A value, of one or two tokens; answers whether it ends its line. */
static int read_value(const char **text, uint64_t *value) {
  struct token t = next_token(text);
  if (strcmp(t.text, "null") == 0) return *value = 0, t.last;
  if (t.text[0] == '@') return *value = OBJECT_AT + strtoul(t.text + 1, NULL, 10), t.last;
  if (strcmp(t.text, "code") != 0) return *value = (uint32_t)(2 * strtol(t.text, NULL, 10) + 1), t.last;
  t = next_token(text);
  return *value = strtoul(t.text, NULL, 10), t.last;
}

static int read_raw(const char **text, uint64_t *value) {
  struct token t = next_token(text);
  expect(strlen(t.text) == 8, "a raw word has not eight digits");
  return *value = strtoul(t.text, NULL, 16), t.last;
}

/* After "@k": the kind, then as many words as the line has. */
static void read_object(const char **text) {
  struct token kind = next_token(text);
  int raw = strcmp(kind.text, "untraced:") == 0, last = kind.last;
  size_t header = printed.used++;
  expect(raw || strcmp(kind.text, "traced:") == 0, "an object is of another kind");
  while (!last && printed.used < LONGEST / 2)
    last = (raw ? read_raw : read_value)(text, &printed.words[printed.used++]);
  printed.words[header] = (uint32_t)raw << 31 | 2 * (uint32_t)(printed.used - header - 1);
}

/* Roots by rising number, and objects each where the last one ended. */
static void read_line(const char **text) {
  struct token t = next_token(text);
  if (strcmp(t.text, "root") != 0) {
    expect(t.text[0] == '@' && strtoul(t.text + 1, NULL, 10) == printed.used, "an object is left out");
    read_object(text);
    return;
  }
  expect(printed.used == 0 && strtoul(next_token(text).text, NULL, 10) == printed.root_count, "a root is left out");
  expect(read_value(text, &printed.roots[printed.root_count++]), "a root has two values");
}

static void read_back(const char *text) {
  printed.used = printed.root_count = 0;
  while (*text != 0) read_line(&text);
  expect(image_of(&image, judged()) && images_equal(&image, &printed), "an image is not all of a heap");
  long_images += image.used >= 100;
}

/* ---- all of it ---- */

static void print_some_heap(void) {
  const char *text;
  lend_some_heap();
  text = shown(example_image, judged(), 0);
  *(model_sound(judged()) ? &sound_heaps : &damaged_heaps) += 1;
  if (model_sound(judged())) read_back(text);
  else expect(strcmp(text, "not sound\n") == 0, "an image of a heap that is not sound");
}

/* A hundred more, so that a few heaps meet each sort too. */
void printing(uint32_t heaps) {
  static const struct counted each[] = {
      {"sound", &sound_heaps}, {"not sound", &damaged_heaps}, {"images of 100 words or more", &long_images}};
  uint32_t i;
  judge_part("images printed");
  p5_before_and_after();
  every_kind();
  for (i = 0; i < heaps + 100; i++) print_some_heap();
  judge_met("images", each, sizeof each / sizeof each[0], heaps / 20);
}
