/* Which modules the loader had mapped when they were listed last: for systems where no other call finds the module of
   an address at any moment, such as musl, and glibc before 2.35. */
#ifndef DWCHECK_DL_LIST_H
#define DWCHECK_DL_LIST_H

#include "find.h"

#if defined __GLIBC__ && defined __GLIBC_PREREQ && !defined DWCHECK_DL_WITH_LIST
#define DWCHECK_DL_HAS_FIND_OBJECT __GLIBC_PREREQ(2, 35)
#else
#define DWCHECK_DL_HAS_FIND_OBJECT 0
#endif

/* Lists the modules again, outside of signal handlers. Where _dl_find_object is, it does nothing. Returns DWCHECK_DONE;
   or DWCHECK_NO_MEMORY, and then the old list is kept. */
DWCHECK_DL_HIDDEN uint32_t dwcheck_dl_list(void);

/* Writes the module of the list that has an address. Returns whether there is one. */
DWCHECK_DL_HIDDEN bool dwcheck_dl_find_listed(uint64_t address, struct dwcheck_dl_object *object);

#endif
