/* How a collection grows: with the half, half of it used by a list, and with the live words of the largest half. */
#include <stdio.h>

#include "contenders.h"
#include "workloads.h"

/* A list of objects of three fields: four words each, so that every half is used to the word. */
static void grow(size_t half, uint32_t live) {
  struct state start;
  char name[40];
  size_t times = rounds_counting() ? 1 : 1 + 2000000 / (half + 4 * (size_t)live);
  list_heap(&start, half, live / 4, 3);
  snprintf(name, sizeof name, "%zu/%u", half, live);
  measure("growth", name, &start, contenders, GROWING, times);
}

int main(int argc, char **argv) {
  uint32_t half, eighth;
  rounds_begin(argc, argv);
  for (half = 1024; half <= 1048576; half *= 2) grow(half, half / 2);
  for (eighth = 0; eighth <= 8; eighth++)
    if (eighth != 4) grow(1048576, eighth * 131072);
  return 0;
}
