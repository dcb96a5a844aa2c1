/* What is done with a trace when its program has ended. */
#ifndef FINISH_H
#define FINISH_H

#include "shared.h"
#include <stdbool.h>

/* Cuts the files behind their last whole line, drops posts that nobody took, and numbers the other trays from 0 on.
 * False where that can't be done; errno says why. */
bool finish_trace(const struct slot *slot);

#endif
