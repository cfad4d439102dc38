/* What gcc's objects and the C library's static part do for a shared library. They aren't marked as protected, so this
   one does without them: it has a name under which the C library knows what it has registered, and gives that up before
   it is unloaded. */
#include "../unwind.h"

extern void *__dso_handle;
void __cxa_finalize(void *);
int __register_atfork(void (*prepare)(void), void (*parent)(void), void (*child)(void), void *);

HIDDEN void *__dso_handle = &__dso_handle;

void dwcheck_unwind_at_fork(void (*child)(void)) { __register_atfork(NULL, NULL, child, __dso_handle); }

__attribute__((destructor)) static void end(void) { __cxa_finalize(__dso_handle); }
