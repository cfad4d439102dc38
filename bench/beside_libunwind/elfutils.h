/* Walks with elfutils up the same stack as dwcheck. */
#ifndef ELFUTILS_H
#define ELFUTILS_H

#include "walks.h"

typedef struct Dwfl Dwfl;

/* Lets elfutils open the files that this process has mapped. Returns NULL on failure. `start` must
   exist until elfutils_end is called. */
Dwfl *elfutils_begin(const WalkStart *start);
/* Walks, and writes the addresses of the frames, the innermost first, at most `room`. Returns how
   many there are. */
size_t elfutils_walk(Dwfl *dwfl, uint64_t *addresses, size_t room);
void elfutils_end(Dwfl *dwfl);

#endif
