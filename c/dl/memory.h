/* Which memory a walk may read. */
#ifndef DWCHECK_DL_MEMORY_H
#define DWCHECK_DL_MEMORY_H

#include "find.h"

/* Whether the page that has this address can be read, which the kernel is asked; and whether it says that it can't. A
   sandbox may refuse to answer. */
DWCHECK_DL_HIDDEN bool dwcheck_dl_is_readable(uint64_t address);
DWCHECK_DL_HIDDEN bool dwcheck_dl_is_unreadable(uint64_t address);

/* Whether these bytes of code are at an address, the first of which may be read. */
DWCHECK_DL_HIDDEN bool dwcheck_dl_is_code(uint64_t address, const void *code, size_t length);

/* The memory of a frame whose stack pointer is `pointer`, with `below` bytes below it if they can be read: where the
   calling thread's own stack is known (dwcheck_dl_thread), up to its end, and else as many pages as are asked for.
   After an overflow the stack pointer is in pages that can't be read, and the block begins above them. */
DWCHECK_DL_HIDDEN dwcheck_block dwcheck_dl_stack_at(uint64_t pointer, uint64_t below, uint64_t pages);

/* The memory from `pointer` up to the end of the thread's own stack, if it is known and has `pointer`, and else up to
   the end of the page, which isn't asked for: it is the calling function's. */
DWCHECK_DL_HIDDEN dwcheck_block dwcheck_dl_own_stack(uint64_t pointer);

/* How many bytes the thread's own stack has below an address of it, if its bounds are known; else 0. */
DWCHECK_DL_HIDDEN uint64_t dwcheck_dl_own_below(uint64_t address);

/* Whether valgrind runs the program. */
DWCHECK_DL_HIDDEN bool dwcheck_dl_is_in_valgrind(void);

/* Whether a block goes up to the end of the thread's own stack, which is known. */
DWCHECK_DL_HIDDEN bool dwcheck_dl_is_own(const dwcheck_block *block);

/* Makes a block one that has the word below a canonical frame address, and the memory near it. It grows at its end or
   becomes one of another stack. Returns whether it has that word now and didn't before. */
DWCHECK_DL_HIDDEN bool dwcheck_dl_extend(dwcheck_block *block, uint64_t cfa);

/* Whether a block has `length` bytes at an address; if not, memory is asked for them, and the block may become
   another one. */
DWCHECK_DL_HIDDEN bool dwcheck_dl_has(dwcheck_block *block, uint64_t address, uint64_t length);

#endif
