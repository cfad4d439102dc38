/* Stack for calls that take much of it: a look-up takes some 48 KB, and an alternate stack may have 8. */
#ifndef DWCHECK_DL_ROOM_H
#define DWCHECK_DL_ROOM_H

#include "find.h"

/* What is known of the stack that a walk is made on. */
struct dwcheck_dl_room {
    uint64_t bytes; /* below the function that asked; 0 if that isn't known */
    bool is_alternate;
};

/* Asks: an alternate stack is known to the kernel, and the thread's own one to dwcheck_dl_thread. */
DWCHECK_DL_HIDDEN struct dwcheck_dl_room dwcheck_dl_room(void);

/* Calls a function where it has room for a look-up: here, if that is known; or else on a stack of this library. Returns
   whether it did: if walks have all of these stacks, a stack that is known to be too small isn't used. */
DWCHECK_DL_HIDDEN bool dwcheck_dl_call(struct dwcheck_dl_room room, void (*f)(void *data), void *data);

#endif
