/* Every single bit of P5's words, roots and record, flipped: check and collect agree, and a refusal changes nothing. */
#include "calls.h"
#include "heaps.h"
#include "judge.h"
#include "parts.h"
#include "samples.h"

/* The bits of P5 in one row. */
void flipped_p5(uint32_t bit) {
  struct state *s = judged();
  uint32_t word = bit / 32, one = 1u << (bit % 32);
  p5_heap(s);
  if (word < 17) s->heap[word] ^= one;
  else if (word < 19) s->roots[word - 17] ^= one;
  else if (word == 19) s->half ^= one;
  else s->free ^= one;
  judge_settle();
}

void bit_flips(void) {
  struct call check = call_of(CHECK, 0, 0, 0), collect = call_of(COLLECT, 0, 0, 0);
  struct call allocate = call_of(NEW_TRACED, 1, 4, 0);
  struct said checked, collected;
  uint32_t bit;
  judge_part("every bit of P5");
  judge_lend(17, 2);
  for (bit = 0; bit < P5_BITS; bit++) {
    flipped_p5(bit);
    checked = judge_call(&check);
    collected = judge_call(&collect);
    if (checked.refusal != 0) expect(collected.refusal == checked.refusal, "check and collect refuse differently");
    else expect(collected.refusal == (checked.value ? 0u : 8u), "check and collect disagree");
    flipped_p5(bit);
    judge_call(&allocate);
  }
}
