/* One call of the compiled kernel, as a frame asks for it. What each kind is asked and answers is described at the top
 * of tests/model/wire.py. */
#ifndef CALLS_H
#define CALLS_H

#include "frames.h"

/* No kind answers more numbers than this. */
enum { MOST_NUMBERS = 16 };

/* Makes the call on the frame's own memory, writes the numbers answered, and says how many they are. */
uint32_t call(const Frame *f, uint64_t *out);

#endif
