/* Code words at random: the edges come often. */
#include "codes.h"

#include "random.h"

#define FLOOR 16777216u
#define LARGEST 4294967294u

uint32_t code_word(void) {
  switch (below(6)) {
  case 0: return FLOOR;
  case 1: return FLOOR + 2 * below(100);
  case 2: return LARGEST;
  default: return FLOOR + 2 * below((LARGEST - FLOOR) / 2 + 1);
  }
}

static uint32_t no_code_word(void) {
  switch (below(4)) {
  case 0: return 0;
  case 1: return FLOOR - 1 - below(4);
  case 2: return code_word() + 1;
  default: return 2 * below(FLOOR / 2);
  }
}

uint32_t asked_code(void) { return one_in(3) ? no_code_word() : code_word(); }

uint32_t around_floor(void) { return FLOOR - 4 + 2 * below(4); }
