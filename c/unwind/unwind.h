/* What the files of this folder share: the state of a walk, and what each file does for the others. Modules are found
   as dwcheck-dl finds them (c/dl/find.h). */
#ifndef DWCHECK_UNWIND_INTERNAL_H
#define DWCHECK_UNWIND_INTERNAL_H

#include "dwcheck-unwind.h"
#include "../dl/rows.h"
#include "dwcheck.h"
#include <stdbool.h>
#include "processor.h"

#define HIDDEN __attribute__((visibility("hidden")))

/* ---- memory.c: what may be read ---- */

/* The memory that a walk may read: that near its stack pointer, and that of frames elsewhere. */
struct memory { dwcheck_block blocks[3]; };
enum { BLOCKS = 3 };

/* Makes sure that the memory has the stack at this stack pointer, if it can be read. */
HIDDEN void dwcheck_unwind_reach(struct memory *memory, uint64_t stack_pointer);
/* Adds memory above what there is, or at the word below `cfa` if that isn't 0. Returns whether there is more. */
HIDDEN bool dwcheck_unwind_extend(struct memory *memory, uint64_t stack_pointer, uint64_t cfa);
/* Whether the first block has these bytes, or if not, the kernel says that they can be read; at most a page. */
HIDDEN bool dwcheck_unwind_has(const struct memory *memory, uint64_t address, uint64_t length);
/* Whether these bytes, at most a page, can be read. */
HIDDEN bool dwcheck_unwind_can_read(uint64_t address, uint64_t length);
/* Reads a word, or returns false. */
HIDDEN bool dwcheck_unwind_read(uint64_t address, uint64_t *word);

/* How the words of a process are read: of this one, or of another. */
struct word_reader { bool (*read)(void *data, uint64_t address, uint64_t *word); void *data; };
HIDDEN extern const struct word_reader dwcheck_unwind_own_memory;

/* ---- modules.c: the sections of an address ---- */

/* The module of an address, or the registered table that has it. Returns whether there is one with rows. */
HIDDEN bool dwcheck_unwind_module_at(uint64_t address, struct dwcheck_dl_module *module);

/* ---- pool.c: caches of rows ---- */

struct cache;
/* A cache that no other walk uses until it is given back; NULL if all are in use. */
HIDDEN struct cache *dwcheck_unwind_claim(void);
HIDDEN void dwcheck_unwind_give_back(struct cache *cache);
HIDDEN dwcheck_dl_rows *dwcheck_unwind_rows(struct cache *cache);
/* The slot of the module that has an address, which is loaded; or -1. */
HIDDEN int dwcheck_unwind_slot(struct cache *cache, uint64_t address);
/* The slots of modules that can't be unloaded, so that walks needn't confirm them. */
HIDDEN uint64_t dwcheck_unwind_permanent(const struct cache *cache);
/* Keeps the row of an address of a slot's module. Returns what dwcheck_rows_fill returns. */
HIDDEN uint32_t dwcheck_unwind_fill(struct cache *cache, int slot, uint64_t address);
/* Calls a function that needs much stack, on the cache's own. Signals wait meanwhile. */
HIDDEN void dwcheck_unwind_on_stack(struct cache *cache, void (*function)(void *), void *data);
/* After this, no cache has rows. */
HIDDEN void dwcheck_unwind_flush(void);

/* ---- step.c: walks ---- */

/* A frame: its registers, of which those are known whose bits are set; the address to look up, plus 1; how it was
   found. */
struct frame {
    uint64_t values[REGISTERS], key, known;
    uint32_t guess, is_interrupted, is_last;
    uint64_t signal_context; /* where the kernel has saved registers, for the last handler that the walk has left; or 0 */
};

/* Where a register of a frame is: nowhere, and then it has the frame's value at most; in memory, at an address; or in
   another process where it was when that stopped, in the register of that number. */
enum place_kind { PLACE_NONE, PLACE_MEMORY, PLACE_REGISTER };
struct place { uint64_t at; enum place_kind kind; };

/* What a cursor of libunwind's is here. */
struct cursor {
    uint64_t mark; /* that it is one */
    ucontext_t *context;
    uint64_t steps;
    struct frame frame;
    struct memory memory;
    uint32_t is_exact, has_no_places;
};
_Static_assert(sizeof(struct cursor) <= sizeof(unw_cursor_t), "a cursor fits");

/* Moves a frame to its caller. Returns what unw_step does. If `places` isn't NULL, it has the places of the registers
   of the frame, and they become those of the caller. */
HIDDEN int dwcheck_unwind_step(struct cache *cache, struct frame *frame, struct memory *memory, struct place *places);
/* The same with the row of another address. */
HIDDEN int dwcheck_unwind_step_by(struct cache *cache, struct frame *frame, struct memory *memory, uint64_t key);
/* Writes the addresses of the frames from a place on, and returns their number. */
HIDDEN int dwcheck_unwind_addresses(void **addresses, int size, const dwcheck_dl_place *from);

/* ---- by_cursor.c: steps of a cursor of dwcheck.h; guess.c: frames without a row; handler.c: signals ---- */

HIDDEN int dwcheck_unwind_by_cursor(struct cache *cache, struct frame *frame, struct memory *memory, uint64_t key,
                                    struct place *places);
HIDDEN int dwcheck_unwind_guess(struct frame *frame, struct place *places, const struct word_reader *memory);
/* Leaves a signal handler: from the code to which it returns to what the signal has interrupted, by what the kernel has
   saved. Returns false if the frame's code is another. `has_row` says that a row covers it, so it can be read. */
HIDDEN bool dwcheck_unwind_leave_handler(struct frame *frame, struct memory *memory, struct place *places, bool has_row);
/* Ends a walk: the frame stays, and its address becomes 0. */
HIDDEN int dwcheck_unwind_end(struct frame *frame);

/* ---- registers.c: frames of contexts, and where registers are ---- */

HIDDEN void dwcheck_unwind_frame_of(struct frame *frame, const ucontext_t *context, bool is_exact);
/* The places of the registers of a cursor's frame. Returns whether they could be found. */
HIDDEN bool dwcheck_unwind_places(const struct cursor *cursor, struct place places[REGISTERS]);
/* Writes a place as unw_get_save_loc does. */
HIDDEN void dwcheck_unwind_put_place(struct place place, unw_save_loc_t *location);

/* ---- symbols.c, names.c, handlers.c, procedures.c, registered.c: what is known of an address ---- */

/* Writes the name of the function that is nearest to an address as linked, at or before it, by the symbol tables of an
   ELF file. Returns what unw_get_proc_name does. */
HIDDEN int dwcheck_unwind_symbol(const uint8_t *file, size_t length, uint64_t address, char *name, size_t size,
                                 unw_word_t *offset);
/* Copies as much of a name as fits, and says so if that isn't all. */
HIDDEN int dwcheck_unwind_put_name(const char *from, size_t most, char *name, size_t size);
/* Where an FDE and its CIE are in their process: what is added to the address of a byte here. And the memory there. */
struct in_process { uint64_t fde, cie; const struct word_reader *memory; };
/* Writes what an FDE of a section and its CIE say of exceptions. */
HIDDEN void dwcheck_unwind_handlers(const dwcheck_module *module, uint64_t offset, const dwcheck_record *fde,
                                    const struct in_process *in, unw_proc_info_t *info);
HIDDEN int dwcheck_unwind_name(uint64_t address, char *name, size_t size, unw_word_t *offset);
HIDDEN int dwcheck_unwind_file(uint64_t address, char *name, size_t size, unw_word_t *offset);
HIDDEN int dwcheck_unwind_procedure(uint64_t address, unw_proc_info_t *info);
HIDDEN const unw_dyn_info_t *dwcheck_unwind_registered(uint64_t address);
HIDDEN bool dwcheck_unwind_registered_table(uint64_t address, struct dwcheck_dl_module *module);

/* ---- calls.c: rows as they are passed on, and address spaces ---- */

/* A row, as unw_reg_states_iterate passes it on: one of its addresses, by which it is found again. */
struct row_state { uint64_t mark, address; };
#define ROW_MARK UINT64_C(0x776f722d6b636564)

struct kept_rows;
/* The accessors of a process, and for another process the rows that steps keep (remote/kept.c). The local address space
   is known by its address alone. */
struct unw_addr_space {
    unw_accessors_t accessors;
    unw_caching_policy_t policy;
    uint32_t generation; /* how often the rows were flushed */
    struct kept_rows *kept;
};

#if defined(__aarch64__)
/* Reads an instruction, or returns false. */
HIDDEN bool dwcheck_unwind_instruction_at(const struct word_reader *memory, uint64_t address, uint32_t *code);
#endif

/* ---- of each processor (x86_64/, aarch64/), registers.c ---- */

HIDDEN uint64_t *dwcheck_unwind_in_context(ucontext_t *context, int number);
/* The place of a frame, for walks with kept rows; and puts a frame where such a walk is, which keeps the registers of a
   place: the others stay as they are. */
HIDDEN dwcheck_dl_place dwcheck_unwind_place_of(const struct frame *frame);
HIDDEN void dwcheck_unwind_go_to(struct frame *frame, const dwcheck_dl_place *place);
/* Has a function called in each child of a fork, as long as this library is loaded. */
HIDDEN void dwcheck_unwind_at_fork(void (*child)(void));
/* Whether unw_is_signal_frame says so of a frame. */
HIDDEN bool dwcheck_unwind_is_signal_frame(const struct frame *frame);

/* ---- of each processor, context.S ---- */

/* Continues with these registers, by DWARF's numbers. */
HIDDEN _Noreturn void dwcheck_unwind_continue(const uint64_t registers[REGISTERS]);
/* Returns from a signal handler, whose kernel's context this is. */
HIDDEN _Noreturn void dwcheck_unwind_return_from_signal(void *context);
/* Calls a function with the stack pointer `top`. */
HIDDEN void dwcheck_unwind_call(void (*function)(void *), void *data, void *top);

#endif
