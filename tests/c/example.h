/* examples/image.c as a function of the tests. */
#ifndef EXAMPLE_H
#define EXAMPLE_H

#include "show.h"

shower example_image; /* notes are not used */

#endif
