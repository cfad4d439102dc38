/* What the files of this folder share: libunwind-ptrace.so.0, accessors of a process that is stopped by ptrace. */
#ifndef DWCHECK_UNWIND_PTRACE_H
#define DWCHECK_UNWIND_PTRACE_H

#include "dwcheck-unwind.h"

#include <limits.h>
#include <stdbool.h>
#include <sys/types.h>

#define HIDDEN __attribute__((visibility("hidden")))

/* A module's search table, and the first word of the section that has it, by which it is known to be there still. */
struct table { uint64_t head; unw_dyn_info_t info; };

enum { TABLES = 16 };
/* What _UPT_create gives: a process, and the tables that were found in it last. */
struct process { pid_t pid; unsigned next; struct table tables[TABLES]; };

/* ---- accessors.c; registers.c has _UPT_access_reg ---- */

HIDDEN bool dwcheck_ptrace_read(pid_t pid, uint64_t address, void *bytes, size_t length);

/* ---- maps.c ---- */

/* A mapping of a process. `image` is where the beginning of the mapped file is, by another mapping; or 0. */
struct mapping { uint64_t first, end, offset, image; unsigned long device_major, device_minor, inode; char path[PATH_MAX]; };
HIDDEN bool dwcheck_ptrace_mapping(pid_t pid, uint64_t address, struct mapping *mapping);

/* ---- tables.c ---- */

/* The table of the module that has an address; NULL if there is none. */
HIDDEN struct table *dwcheck_ptrace_table(struct process *process, uint64_t address);

#endif
