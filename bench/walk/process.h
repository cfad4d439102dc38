/* Declarations for both files that modules.sh compiles: process.c, a program, and library.c, a
   library that the program calls and that calls back into the program. */
#ifndef PROCESS_H
#define PROCESS_H

#ifdef __clang__
#define APART __attribute__((noinline))
#else
#define APART __attribute__((noinline, noclone))
#endif

typedef int (*callback)(int);

/* Makes six frames. The innermost calls `call`. */
int through_library(int n, callback call);

#endif
