/* The header of libunwind has the sizes and places for which our libraries are compiled: this file compiles, or it doesn't.
   WITH_LIBUNWIND takes libunwind's header in place of ours. */
#include "../unwind/layout.h"
