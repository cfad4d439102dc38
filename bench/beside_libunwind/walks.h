/* The functions of crates/dw_times that walks.c times, and the types of their arguments. A slice of
   the Rattle function is a pointer and a count here. */
#ifndef WALKS_H
#define WALKS_H

#include <stdbool.h>
#include <stddef.h>
#include <stdint.h>

/* A .debug_frame section, and the load address of its module. */
typedef struct {
    uint64_t load_address;
    const uint8_t *bytes;
    size_t count;
} LoadedSection;

/* The start of a walk: the address of the innermost frame; the registers, where contents[n] is the
   value of register n; and a block of memory that starts at address `base`. `times` is how often to
   walk, at least 1. The ABI is that of x86-64: registers 3, 6 and 12 to 15 are callee-saved, and
   register 7 is the stack pointer. */
typedef struct {
    uint64_t address;
    const uint64_t *contents;
    size_t register_count;
    uint64_t base;
    const uint8_t *stack;
    size_t stack_count;
    uint32_t times;
} WalkStart;

enum { CFA_NONE, CFA_VALUE, CFA_UNDEFINED, CFA_UNREADABLE, CFA_DIVISION_BY_ZERO };

/* A frame. `cfa` is 0 unless `cfa_kind` is CFA_VALUE. CFA_NONE means that no module covers the
   frame. */
typedef struct {
    uint64_t address;
    uint64_t cfa;
    uint32_t cfa_kind;
} WalkFrame;

enum { STOP_LIMIT, STOP_NOT_COVERED, STOP_RETURN_UNDEFINED, STOP_RETURN_UNREADABLE, STOP_RETURN_DIVISION_BY_ZERO };

/* The number of frames that were written, and why the walk ended (one of STOP_..). */
typedef struct {
    uint64_t count;
    uint32_t stop;
} WalkEnd;

/* Checks the sections, compiles their tables, walks, and writes the frames to `frames`, the
   innermost first, as many as fit. Returns false if a section is refused or memory runs out. */
bool bench_walk(const LoadedSection *sections, size_t section_count, const WalkStart *start, WalkFrame *frames, size_t frame_count,
                WalkEnd *end);

/* Checks a section and compiles its table. Then looks up the row of each address and reads all its
   rules, `times` times. Returns a checksum. */
uint64_t bench_read_by_table(const uint8_t *section, size_t size, const uint64_t *addresses, size_t count, uint32_t times);

/* Defined in libthrough.so: calls down(levels - 1). */
int through(int levels, int (*down)(int));

#ifdef __GNUC__
/* Both sections are needed: libunwind reads .eh_frame, and dwcheck's libraries .debug_frame. */
__asm__(".cfi_sections .eh_frame, .debug_frame");
#endif

#endif
