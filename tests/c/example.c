/* The example's print_image, taken as it stands: hosts copy it from there. */
#include "example.h"

#define main main_of_example
#include "image.c"
#undef main

void example_image(FILE *out, const phachunoi_heap *h, uint32_t *notes) {
  (void)notes;
  print_image(out, h);
}
