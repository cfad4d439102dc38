/* dwcheck-dl: the stack of this process, at once, at any moment. A walk needs nothing before it: not before main, in
   a signal handler, after dlopen, or in a thread that was just made. It finds the modules that the loader has mapped
   (the program, its libraries, those of dlmopen, the vDSO), looks up rows in their .eh_frame sections where they lie,
   and keeps the rows for later walks. It is plain C over the calls of dwcheck.h, for Linux on x86-64 and aarch64 with
   glibc 2.35 or later. It is tested and not proved. Compiled with an older glibc or with musl, it is tested less, and
   walks find the modules that the last dwcheck_dl_thread, dwcheck_dl_prepare or dwcheck_dl_update has listed.

   - Walks take no lock and allocate nothing; any thread may walk at any time, also in a signal handler that has
     interrupted another walk, and in the child of a fork. What they call is async-signal-safe: _dl_find_object of
     glibc, whose manual says so; memcpy, memcmp, memset and strlen, which POSIX lists; getauxval, which reads memory
     that doesn't change; and the system calls rt_sigprocmask and sigaltstack, under valgrind process_vm_readv, and in a
     static program without .eh_frame_hdr openat, pread64 and close.
   - On aarch64, walks by kept rows are plain C too; rows are found by proved look-ups. Signatures of return addresses
     are taken off as the processor says, by its instruction xpaclri.
   - Rows are kept in 19 caches of 36 KB, on aarch64 of 52 KB, of which only those that were used take memory. A walk has
     one for itself, and if walks have all of them, it looks up each frame. siglongjmp may leave a walk, and then its
     cache stays out of use; so does one in a child of a fork that another thread had then.
   - A module of which a frame is on the stack mustn't be unloaded meanwhile (dlclose); then its code would be gone,
     too. Other modules may come and go. A module is known by its place and its build id; without one, by its name,
     its program headers and the first KB of .eh_frame.
   - Memory is read only where it can be: the stack of a thread that has called dwcheck_dl_thread; else the kernel is
     asked about each page, in each walk. So stacks may overflow, and be those of sigaltstack, makecontext or other
     libraries.
   - A walk takes 1.1 KB of stack where all rows are kept, and 1.2 KB where one is looked up or has an expression, as
     tools/stack_use.py has measured; on aarch64, 1.2 KB and 1.4 KB where one is looked up. A look-up takes 48 KB more, on
     aarch64 54: of the thread's own or an alternate stack, if that is known to have room; else of one of six stacks of
     the library, so an alternate stack of 8 KB suffices, and on aarch64, where the kernel takes more of it, one of 16. If
     walks have all of them, and they stay in use like caches if siglongjmp leaves a walk, a stack that is known to be
     too small ends the walk, and any other is used itself.

   To link: cc .. $(pkg-config --cflags --libs dwcheck-dl); or by CMake, dwcheck::dl or dwcheck::dl_shared. */
#ifndef DWCHECK_DL_H
#define DWCHECK_DL_H

#include "dwcheck.h"

#ifdef __cplusplus
extern "C" {
#endif

/* ---- walks -------------------------------------------------------------------------------------------------------- */
/* Writes the return addresses of the calling thread's stack to `addresses`, at most `size`, and returns their number.
   The first is in the function that makes the call. So it can replace backtrace of <execinfo.h>. To find the line of
   a call, look up its return address minus 1. */
int dwcheck_dl_backtrace(void **addresses, int size);

/* The same from where a signal has interrupted the calling thread: `context` is the third argument of
   its handler. The first address is that of the interrupted instruction. If nothing can be executed there,
   since a null pointer (or an address below 4096) or another wrong one was called, the second address is in
   the function that made the call. The kernel says in the context that fetching the instruction has
   faulted, so there mustn't be a row for it; and what the call has left as its return address, at the stack
   pointer or on aarch64 in x30, must follow a call, and be an address of code with rows, unless a null
   pointer was called. On aarch64, so does the caller follow where procedure linkage tables and the vDSO
   were interrupted, which have no rows. */
int dwcheck_dl_backtrace_from(const void *context, void **addresses, int size);

/* How a frame was found: by a row, or from what the kernel has saved for a signal; as the one that has called what is
   no function, or code without rows that has no frame (as above); by the frame pointer. The last two are guesses, and the
   frames after one of them rest on it. */
enum { DWCHECK_DL_BY_ROW = 0, DWCHECK_DL_BY_CALL = 1, DWCHECK_DL_BY_FRAME_POINTER = 2 };

/* Options: go on where no row covers a frame, by the chain of frame pointers, as in code of JIT compilers and Go. */
enum { DWCHECK_DL_FRAME_POINTERS = 1 };

/* More reasons why a walk stops, beside DWCHECK_STOP_LIMIT, NOT_COVERED, RETURN_UNDEFINED (at the end of the stack),
   RETURN_UNREADABLE and RETURN_DIVISION_BY_ZERO. REFUSED: the FDE of the last frame is refused, or needs more room than
   there is. STACK: what is left of the stack is known to be too small to look up the row of the last frame, and other
   walks have the stacks of the library. */
enum { DWCHECK_DL_STOP_REFUSED = 16, DWCHECK_DL_STOP_STACK = 17 };

/* What is asked of a walk. `context` is NULL, or as for dwcheck_dl_backtrace_from. `options` are those above. `marks`
   is NULL, or points to as many bytes as there may be frames: each becomes how the frame was found. `stop` becomes
   the reason why there are no more frames. */
typedef struct dwcheck_dl_request {
    const void *context;
    uint8_t *marks;
    uint32_t options, stop;
    uint64_t reserved;
} dwcheck_dl_request;

/* Walks as the calls above do, as `request` asks. */
int dwcheck_dl_walk(dwcheck_dl_request *request, void **addresses, int size);

/* Where a walk is at a frame: on x86-64, as dwcheck.h says. On aarch64, with the contents of sp and of x19 to x30. x30 is
   0 in a frame that has made a call: what the call has put there isn't the frame's own. */
#if defined(__aarch64__)
typedef struct dwcheck_dl_place { uint64_t address, key, stack_pointer, x19_to_x30[12]; } dwcheck_dl_place;
typedef struct dwcheck_dl_frame { dwcheck_dl_place place; uint64_t cfa; } dwcheck_dl_frame;
#else
typedef dwcheck_register_place dwcheck_dl_place;
typedef dwcheck_register_frame dwcheck_dl_frame;
#endif

/* The same, and writes each frame with its address, the contents of the stack pointer and of the callee-saved registers,
   and its CFA, which is 0 if it isn't known. In a frame that was found by the frame pointer, the other callee-saved
   registers have the contents of the frame before. */
int dwcheck_dl_frames(dwcheck_dl_request *request, dwcheck_dl_frame *frames, int size);

/* The module that has an address: its first address, the one after its last, what is added to an address as linked, and
   the name of its file, which is valid until it is unloaded ("" for registered code). Signal handlers may make the
   call. Returns DWCHECK_DONE; or DWCHECK_NONE if there is no such module. */
typedef struct dwcheck_dl_loaded { uint64_t first, end, load_address; const char *name; } dwcheck_dl_loaded;
uint32_t dwcheck_dl_module_at(uint64_t address, dwcheck_dl_loaded *module);

/* The memory that can be read from `address` on, as a block for a walk: up to the end of the pages without
   a gap, at most 2,048 of them (8 MB). It has length 0 if the address can't be read. Takes a system call
   for each page. Nothing may unmap that memory before the walk is done. Signal handlers may make the
   call. */
dwcheck_block dwcheck_dl_stack(uint64_t address);

/* ---- calls outside of signal handlers, none of which is needed ----------------------------------------------------- */
/* Learns where the calling thread's own stack is, so that its walks don't ask the kernel. Call it once in each
   thread, on the thread's own stack, outside of signal handlers; it may allocate and read files. Returns
   DWCHECK_DONE; DWCHECK_NONE if the call was made on another stack; or DWCHECK_NO_MEMORY. */
uint32_t dwcheck_dl_thread(void);

/* Reads .debug_frame of the modules that are loaded, from their files: for code without rows in .eh_frame, such as C
   code compiled with -fno-asynchronous-unwind-tables -g. In later walks, as in dwcheck_process_add_both, the row of an
   address is that of .debug_frame, or if that has none, that of .eh_frame; and where .debug_frame has a row, .eh_frame
   doesn't say that a frame is a signal frame. A file is used if it is still the one that was loaded: if its notes, with
   the build id, are those in memory, or without a build id, also its code. Its section is used if it isn't compressed,
   and has no fault; and of the section the FDEs of code that the module has, but for those whose CIE has an
   augmentation. Without these, a module has the rows of .eh_frame alone. Call it again after dlopen of such modules.
   - Modules of other namespaces than the caller's (dlmopen) aren't prepared. A file is found by its name: not if that is
     relative and the program has changed its folder since, nor if the program was started as an argument of the loader.
     Separate files of debug information (.gnu_debuglink) aren't looked for.
   - If siglongjmp has left a walk, which keeps its cache, what is replaced later isn't freed any more: neither by this
     call, nor by those that register code.
   It takes locks, also the loader's, and allocates, so no signal handler may call it, nor the child of a fork in a program
   with threads, nor a callback of dl_iterate_phdr. It takes 1 KB of stack more than dwcheck_module_check. Returns
   DWCHECK_DONE; or DWCHECK_NO_MEMORY, and then some modules may have been left out. */
uint32_t dwcheck_dl_prepare(void);

/* Makes walks use a section in the format of .eh_frame, of `length` bytes, for code that the loader doesn't know: of
   a JIT compiler, or of a module of the caller's own. It lies from `first` up to and including `last`. The section's
   pointers count from where it lies, and addresses are as loaded. It must stay there until it is unregistered, and so
   must the code, as long as it may be on a stack. Its records are gone through for each new address, so make a
   section for each function or for a few. Both calls take a lock and allocate, and take time in proportion to what is
   registered. Returns DWCHECK_DONE; DWCHECK_BAD_RANGE if `first` is above `last`, or this is 2^64 - 1;
   DWCHECK_OVERLAPS if some of these addresses are registered; or DWCHECK_NO_MEMORY. */
uint32_t dwcheck_dl_register(uint64_t first, uint64_t last, const uint8_t *eh_frame, size_t length);

/* Takes back what was registered with this first address. Later walks don't use the section; those under way may, so
   free it only once no other thread is in a walk through that code. Returns DWCHECK_DONE; DWCHECK_NONE if nothing was
   registered so; or DWCHECK_NO_MEMORY. */
uint32_t dwcheck_dl_unregister(uint64_t first);

/* Does nothing (but see the beginning) and returns DWCHECK_DONE; `counts`, which may be NULL, becomes zeros. In
   versions before this one walks needed it after dlopen and dlclose; a later major version won't have it. */
typedef struct dwcheck_dl_counts { uint32_t modules, added, removed, left_out; } dwcheck_dl_counts;
uint32_t dwcheck_dl_update(dwcheck_dl_counts *counts);

#ifdef __cplusplus
}
#endif
#endif
