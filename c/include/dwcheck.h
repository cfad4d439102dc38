/* dwcheck: checks .eh_frame sections, and the .debug_frame and .debug_loclists sections of DWARF 5; unwinds stacks,
   looks up location lists, and evaluates expressions.

   Each call, but for the three that give texts and dwcheck_cursor_step_with, is proved to meet its contract, which is
   written at the function of the same name in crates/dwcheck_c/src; before that, a few lines of C replace NULL by an
   address (c/null.c). The proof assumes that the caller follows the rules below, and the library doesn't check that.

   Rules for the caller of every call:
   - Each pointer points to a whole, aligned value of its type. No other thread writes that value during the call. A
     value that a pointer without const points to overlaps no other argument. Values that pointers to const point to
     may overlap each other. A pointer that comes with a length points to that many elements. If the length is 0, it
     may be NULL, except for the `bytes` of a dwcheck_block. Pointers without a length, such as `fault`, `count`,
     `stop`, `size`, `row`, `state` and `context`, are never NULL.
   - A call that takes a process by a pointer to const only reads it. Any number of calls may read a process at once,
     in any threads. A call that takes a pointer without const changes the process, and no other call may use that
     process meanwhile. So a call that changes it comes before or after each call that reads it, and threads
     synchronize for that: by a lock, by an atomic of memory_order_seq_cst, or by a thread's start or join.
   - To add or remove modules while others read: (1) make another process by dwcheck_process_share, which copies no
     table; (2) change that one; (3) publish a pointer to it by an atomic, from which each reader takes the process
     that it reads next; (4) close the old process once all calls that read it have returned. c/tests/readers.c does so.
   - To move a process, copy the structure and set the old one to DWCHECK_CLOSED; a move is a change. A process has to
     be closed if a module was added to it, or if dwcheck_process_share made it from an open process, even if its
     modules have been removed.
   - malloc, realloc and free belong to one allocator, and the calling thread may call them. So neither a signal
     handler nor the child of a fork in a program with several threads makes a call that allocates or frees. Both may
     make the other calls that read a process, also one that the interrupted code, or another thread at the time of
     the fork, may be reading but not changing.
   - Those calls may be left by siglongjmp, since they hold no lock and no memory. What their pointers without const
     point to is then unspecified.
   - The proofs cover calls in threads, but not a call in a signal handler that interrupts another one with the same
     process, in the child of a fork, or that is left, nor later changes of a process on which a call was left:
     c/tests/readers.c tests all of these. Nor do they cover a walk over a live stack to which other threads write
     meanwhile.
   - The stack is large enough. As measured on x86-64, dwcheck_backtrace and dwcheck_backtrace_cached take 1.7 KB,
     dwcheck_unwind 7.2 KB and dwcheck_cursor_step 1.6 KB; if a rule is an expression, 3.7, 7.6 and 3.6 KB; and the
     first two take 18 KB if a register of 96 or more is known. dwcheck_row_in and dwcheck_step_in take 53 KB, and
     dwcheck_rows_fill 50 KB where a row isn't compact; else it takes 3.2 KB, as dwcheck_rows_fill_compact does.
     dwcheck_process_add and dwcheck_process_add_both take 52 KB, dwcheck_module_check and dwcheck_module_left_out
     48 KB, dwcheck_check and dwcheck_report 40 KB, dwcheck_cursor_step_with 21 KB, dwcheck_evaluate 12 KB,
     dwcheck_process_share 5 KB, and every other call less than 4 KB. A first call may take 3 KB more, in a program
     with libdwcheck.a that isn't linked with -Wl,-z,now.
   - Fields called `reserved` are set to 0. A later version may give them a meaning.

   A call writes its results only if it returns DONE, and `fault` only if it returns REFUSED, unless its comment says
   otherwise. Only calls that may return NO_MEMORY allocate memory, and dwcheck_cursor_step_with. Only these,
   dwcheck_process_remove and dwcheck_process_close free memory.

   A later version may add values to enumerations, so treat a value that you don't know as "something else". It may
   add fields to structures, but only in place of fields named `reserved`. Registers are given by their DWARF numbers.
   A target is a byte order and an address size of 4 or 8 bytes; w is the address size in bits. All modules of a
   process have the same target: that of the first one, until the process is closed. An address as linked is an
   address in the module's file. The address as loaded is where that place is in the process: the address as linked
   plus the module's load address, modulo 2^w. Contents of registers and values of a context are modulo 2^w. In all
   expressions, DW_OP_addr pushes an address as linked, while registers and memory contain addresses as loaded.

   To link: cc .. $(pkg-config --cflags --libs dwcheck), or name libdwcheck.a itself. */
#ifndef DWCHECK_H
#define DWCHECK_H

#include <stdbool.h>
#include <stddef.h>
#include <stdint.h>

#ifdef __cplusplus
extern "C" {
#endif

/* The version of the interface, 65536 * major + minor: of this header, and of the library. A program keeps working
   with a library of the same major version and the same or a later minor version. */
#define DWCHECK_VERSION 0x20000u
uint32_t dwcheck_version(void);

/* The statuses that calls return. Comments on calls leave out the prefix DWCHECK_. */
enum {
    DWCHECK_DONE = 0,       /* the call's results are written */
    DWCHECK_REFUSED = 1,    /* `fault` says why */
    DWCHECK_NO_MEMORY = 2,  /* malloc or realloc returned NULL */
    DWCHECK_NO_ROOM = 3,    /* the table of the section can take more than `room` bytes; or see dwcheck_row_in */
    DWCHECK_BAD_TARGET = 4, /* no such target, or the process is open for another one */
    DWCHECK_TOO_LONG = 5,   /* the section or expression has 2^32 bytes or more */
    DWCHECK_BAD_KIND = 6,   /* `kind` is no value that the call takes, be it of a section or of an expression */
    DWCHECK_NONE = 7,       /* what was looked up doesn't exist */
    DWCHECK_OVERLAPS = 8,   /* the module's range shares an address with another module's range */
    DWCHECK_BAD_RANGE = 9,  /* the module has no range that it could answer for */
    DWCHECK_NO_PLACE = 10,  /* a register that is known has no place in a cursor */
    DWCHECK_NO_TABLE = 11   /* the header has no search table of the usual form */
};

enum { DWCHECK_LITTLE = 0, DWCHECK_BIG = 1 }; /* byte orders */

/* The values of a fault's `within`: what its `offset` counts, from 0. */
enum {
    DWCHECK_IN_FRAME = 0,      /* bytes of the frame section */
    DWCHECK_IN_LISTS = 1,      /* bytes of the location list section */
    DWCHECK_IN_EXPRESSION = 2, /* bytes of the expression */
    DWCHECK_IN_ABI = 3,        /* elements of `kept`; kept_length stands for the stack pointer */
    DWCHECK_IN_EH_FRAME = 4    /* bytes of .eh_frame, in dwcheck_process_add_both alone */
};

/* Why an input is refused. `number` says what is wrong (docs/PROFILE.md lists the numbers), `offset` says where, and
   `within` says what the offset counts. */
typedef struct dwcheck_fault { uint32_t number, offset, within, reserved; } dwcheck_fault;

/* Writes the name of a fault, such as "NoSuchCie", to `text`, without a NUL at the end and as much as fits. Writes the
   length of the whole name, at most 22, to `size`. Returns DONE; or NONE if no fault has the number. */
uint32_t dwcheck_fault_name(uint32_t number, uint8_t *text, size_t text_length, size_t *size);

/* The text of a fault (the rule that it breaks, and where DWARF 5 or docs/PROFILE.md has it), of a status, and of the
   reason why a walk ends. NULL for other numbers. */
const char *dwcheck_fault_text(uint32_t number);
const char *dwcheck_status_text(uint32_t status);
const char *dwcheck_stop_text(uint32_t stop);

/* ---- sections ------------------------------------------------------------------------------------------------------ */
/* Checks a .debug_frame section and a .debug_loclists section, either of which may be empty. Returns DONE if both are
   well formed; REFUSED, with the first fault in `fault`, if one isn't; NO_MEMORY; or BAD_TARGET. A section of 2^32
   bytes or more is refused with fault 61, SectionTooLong. Checked are first the lengths, then the frame section, then
   the lists. The call allocates memory in proportion to the sections, and frees it. */
uint32_t dwcheck_check(const uint8_t *frame, size_t frame_length, const uint8_t *lists, size_t lists_length,
                       uint32_t order, uint32_t address_size, dwcheck_fault *fault);

/* What two sections contain. A number of rows of 2^64 or more is shown as 2^64 - 1. */
typedef struct dwcheck_counts { uint64_t cies, fdes, rows, frame_expressions, tables, lists, list_expressions; } dwcheck_counts;

/* An expression of a section: where it begins, its length in bytes, its section (as in a fault), what it is used for
   (DWCHECK_EXPRESSION_), its number of operations, and the greatest depth of its stack. */
typedef struct dwcheck_expression { uint64_t offset, length; uint32_t within, kind, operations, depth; } dwcheck_expression;

/* Checks as dwcheck_check does. DONE also writes what the sections contain to `counts`, and their expressions to
   `expressions`, those of the frame section first, as many as fit. */
uint32_t dwcheck_report(const uint8_t *frame, size_t frame_length, const uint8_t *lists, size_t lists_length,
                        uint32_t order, uint32_t address_size, dwcheck_counts *counts, dwcheck_expression *expressions,
                        size_t expressions_length, dwcheck_fault *fault);

/* ---- processes ----------------------------------------------------------------------------------------------------- */
/* A process: its modules, each a compiled .debug_frame or .eh_frame section, or both, with a load address. Its fields
   are private. If its bytes are all 0, it is closed: it has no module, and calls accept it. */
typedef struct dwcheck_process { void *opaque; uint64_t opaque_open; } dwcheck_process;
#ifdef __cplusplus
#define DWCHECK_CLOSED dwcheck_process{}
#else
#define DWCHECK_CLOSED ((dwcheck_process){0, 0}) /* a static process is closed without it */
#endif

/* What a module's section is (`kind`); in .eh_frame aarch64 has instructions of its own.
   DWCHECK_LEAVE_OUT may be or'ed to the number of an .eh_frame section. Then bad records are left out instead of
   refusing the section. A record is bad if it can't be read, if it is an FDE whose CIE is missing or bad, or if its
   program has a fault. All others keep their rows. dwcheck_module_left_out lists the bad ones; the call that adds the
   module doesn't say whether there were any. A walk ends at a function without rows. The module's range should be
   passed: without one it is that of what is kept. Two faults are still the section's: a record's length that is
   reserved or goes past the section's end, since nothing says where the next record begins; and 23, two FDEs that are
   kept and cover one address, since nothing says which of them is right. A wrong length that stays inside the section
   is believed. If the section has no fault, the flag changes nothing. It changes nothing either in calls that look at
   one record alone (dwcheck_record_at, dwcheck_row_in, dwcheck_step_in, dwcheck_rows_fill). */
enum { DWCHECK_DEBUG_FRAME = 0, DWCHECK_EH_FRAME = 1, DWCHECK_EH_FRAME_AARCH64 = 2, DWCHECK_LEAVE_OUT = 4 };

/* A module to be added: the executable or a library of the process.
   - `frame` and `frame_length` are the bytes of its section. They aren't needed after the module is added. `kind`
     says what the section is.
   - The other three fields at the end are for .eh_frame alone, and are addresses as linked. `section_address` is that
     of the section's first byte. text_start and data_start are what pointers relative to text and to data count from,
     or 0 if that isn't known: then a section with such a pointer is refused. Compilers don't write them.
   - `load_address` is what is added to an address as linked, modulo 2^w, to get the address as loaded: for a
     position-independent module, the dlpi_addr that dl_iterate_phdr gives; for any other module, 0.
   - If has_range isn't 0, the module answers for the addresses as loaded from `first` up to and including `last`, and
     for no others. Otherwise it answers for the addresses from the first to the last one that its section covers.
   - `cookie` is a number of the caller's own, such as a pointer. It is given back with the module's rows.
   - `room` bounds the number of bytes that the module's table stores; SIZE_MAX sets no bound. They are counted as 16
     for each row and for each gap after a row, 64 for each set of rules, 16 for each register's rule in a set, and 24
     for each expression and its length. A compiler's section takes some 1.5 times its length, a hostile one 700 times
     or more. NO_ROOM may come although the table would fit, since rows share their rules, but not if `room` is at
     least 80, plus 80 for each FDE and each row, plus 16 for each register's rule in a row, plus 24 for each
     expression and its length. `room` doesn't bound the memory that checking and compiling use, nor the 16 bytes for
     each stretch of code in which return addresses are signed (aarch64). NO_MEMORY also comes if the sets of rules
     that programs pass through, counted as above, would take more than `room` and more than 64 MB. */
typedef struct dwcheck_module {
    const uint8_t *frame; size_t frame_length;
    uint64_t load_address, first, last, cookie; size_t room;
    uint32_t order, address_size, has_range, kind;
    uint64_t section_address, text_start, data_start;
} dwcheck_module;

/* Checks a module's section, compiles all its rows into a table, and adds the module to the process. `id` becomes the
   module's id. Ids count up from 1, so a process doesn't give an id twice while it is open, even if the module is
   removed. A process that dwcheck_process_share makes counts on from the same number, so of two processes that share
   modules, only one should get new ones. No two modules may answer for the same address. Returns DONE; or the first of
   these for which there is a reason: TOO_LONG; BAD_KIND; BAD_TARGET; REFUSED with the first fault of the section, or
   with DWCHECK_LEAVE_OUT of the section as a whole; BAD_RANGE; OVERLAPS, and then `id` becomes the id of a module whose
   range shares an address with this one's; NO_ROOM. NO_MEMORY may come in place of any but the first three. BAD_RANGE
   means that `first` is above `last` or `last` is 2^w or more; or that has_range is 0, and the section covers no
   address, or covers addresses on both sides of the highest one, 2^w - 1, as loaded. Only DONE changes the process;
   OVERLAPS also writes `id`. The call takes O(n log n) time, where n is the number of bytes of the section's programs
   and of its rows, and moves the entries of the modules that lie at higher addresses. */
uint32_t dwcheck_process_add(dwcheck_process *process, const dwcheck_module *module, uint64_t *id, dwcheck_fault *fault);

/* Adds one module with both sections, as dwcheck_process_add does with one. The row of an address is that of
   .debug_frame, or if that has none, that of .eh_frame. Where .debug_frame has a row, an address is neither one of a
   signal frame nor one at which return addresses are signed. `module` has .debug_frame (its `kind` is
   DWCHECK_DEBUG_FRAME), and says what dwcheck_process_add uses of such a module. Of `eh_frame` only `frame`,
   frame_length, `kind`, which is one of .eh_frame, `room` and the three fields at the end are used. Each `room`
   bounds the table of its own section. Without a range, the module answers for the addresses from the first to the
   last one that either section covers. Returns DONE, or for the same reasons as dwcheck_process_add, in this order:
   TOO_LONG of either; BAD_KIND of either; BAD_TARGET of `module`; REFUSED with the first fault of .debug_frame, whose
   `within` is DWCHECK_IN_FRAME, or if that section has none, with the fault of .eh_frame, whose `within` is
   DWCHECK_IN_EH_FRAME; BAD_RANGE; OVERLAPS, which also writes `id`; NO_ROOM. NO_MEMORY may come in place of any but the
   first three. Only DONE changes the process. A .debug_frame that is refused costs the rows of .eh_frame, too: no
   records of it can be left out. Compilers for aarch64 that sign return addresses write such sections. Then
   dwcheck_process_add takes .eh_frame alone. */
uint32_t dwcheck_process_add_both(dwcheck_process *process, const dwcheck_module *module, const dwcheck_module *eh_frame,
                                  uint64_t *id, dwcheck_fault *fault);

/* Removes the module with this id. Returns DONE; or NONE if no module has it. The call allocates nothing, and frees
   the module's tables if no other process shares them. */
uint32_t dwcheck_process_remove(dwcheck_process *process, uint64_t id);

/* Closes `other`, which is a process or DWCHECK_CLOSED, and makes it a process with the modules of `process`. If
   `process` is closed, `other` is closed too. The modules keep their ids. The tables are shared, not copied, and are
   freed with the last process that has them. Adding modules to one of the two processes, or removing them, doesn't
   change the other. Returns DONE; or NO_MEMORY, and then `other` is unchanged. */
uint32_t dwcheck_process_share(const dwcheck_process *process, dwcheck_process *other);

/* Releases all modules and closes the process. A closed process may be closed again. */
void dwcheck_process_close(dwcheck_process *process);

/* A module of a process: its id, its cookie, its load address, and the first and the last address, as loaded, that it
   answers for. */
typedef struct dwcheck_loaded { uint64_t id, cookie, load_address, first, last; } dwcheck_loaded;

/* Writes the module that answers for `address`, an address as loaded, in O(log n) time among n modules. Returns DONE;
   or NONE if no module does. */
uint32_t dwcheck_module_at(const dwcheck_process *process, uint64_t address, dwcheck_loaded *module);

/* ---- the section of a module --------------------------------------------------------------------------------------- */
/* Checks a module's section as dwcheck_process_add does, but adds it nowhere. DONE writes what the section contains to
   `counts`, where exact copies of an FDE count once. Returns DONE, or for the same reasons as dwcheck_process_add
   TOO_LONG, BAD_KIND, BAD_TARGET, REFUSED or NO_MEMORY. Of an .eh_frame section that has no fault and no exact copies
   of FDEs, and whose FDEs lie within 2 GB of it, the call keeps only the CIEs with their rules, and eight bytes for each
   FDE, unless bad records are to be left out. Of `module`, this call and the next two use
   `frame`, frame_length, `order`, address_size, `kind`, and the three fields at the end. */
uint32_t dwcheck_module_check(const dwcheck_module *module, dwcheck_counts *counts, dwcheck_fault *fault);

/* A record that is left out: the offset of its first byte, and the first reason why it is. The fault's own offset may
   be at the record's end, where the next one begins. An FDE whose CIE isn't kept has NoSuchCie (9) at its CIE pointer. */
typedef struct dwcheck_left_out { uint64_t offset; dwcheck_fault fault; } dwcheck_left_out;

/* Checks a module's section whose kind has DWCHECK_LEAVE_OUT. DONE writes the number of records that are left out to
   `count`, and the records themselves to `left_out`, in the order of the section, as many as fit. With a left_out_length
   of 0 only the number is written. Each call checks the section again. Returns DONE; TOO_LONG; BAD_KIND if the kind
   hasn't that flag; BAD_TARGET; REFUSED with the fault of the section as a whole; or NO_MEMORY. */
uint32_t dwcheck_module_left_out(const dwcheck_module *module, dwcheck_left_out *left_out, size_t left_out_length,
                                 size_t *count, dwcheck_fault *fault);

/* A record of a section: a CIE, an FDE, or in .eh_frame a record of length 0. Its program is the bytes from
   `program` up to `next`, the offset after the record; an empty record has none, and `program` is its own offset. An
   FDE has the offset of its CIE, and covers the addresses as linked from `start` up to, but not including, `end`. A
   CIE has its version, its factors, and the register of the return address. Fields that a record doesn't have are 0. */
enum { DWCHECK_RECORD_CIE = 0, DWCHECK_RECORD_FDE = 1, DWCHECK_RECORD_EMPTY = 2 };
typedef struct dwcheck_record {
    uint64_t next, program, cie, start, end, code_alignment_factor;
    int64_t data_alignment_factor;
    uint32_t kind, version, return_reg, is_signal_frame;
} dwcheck_record;

/* Reads the record at `offset` of a module's section. The section's records are the one at offset 0, the one at the
   `next` of that, and so on. Returns DONE; NONE if the section has no byte at the offset; REFUSED if the record can't
   be read; TOO_LONG; BAD_KIND; or BAD_TARGET. Programs aren't checked, nor whether an FDE of .debug_frame has a CIE at
   the offset that it gives. */
uint32_t dwcheck_record_at(const dwcheck_module *module, uint64_t offset, dwcheck_record *record, dwcheck_fault *fault);

/* ---- the row of an address ----------------------------------------------------------------------------------------- */
/* How to find the value of register `reg` in the caller. The values of `kind` are below. If `kind` is one of the last
   two, the expression has `length` bytes, which dwcheck_rule_bytes gives. In the module's section they begin at
   `offset`. */
enum {
    DWCHECK_RULE_UNDEFINED = 1,     /* the value isn't available */
    DWCHECK_RULE_SAME_VALUE = 2,    /* the value that the register has now */
    DWCHECK_RULE_OFFSET = 3,        /* saved in memory at CFA + offset */
    DWCHECK_RULE_VAL_OFFSET = 4,    /* the number CFA + offset */
    DWCHECK_RULE_REGISTER = 5,      /* the value that register `source` has now */
    DWCHECK_RULE_EXPRESSION = 6,    /* saved in memory at the address that the expression gives */
    DWCHECK_RULE_VAL_EXPRESSION = 7 /* the value that the expression gives */
};
typedef struct dwcheck_rule { int64_t offset; uint64_t length; uint16_t reg, source; uint32_t kind; } dwcheck_rule;

#define DWCHECK_MAX_RULES 128
/* A row of the module with this id, cookie and load address. The row covers the addresses as linked from `start` up
   to, but not including, `end`. If cfa.kind is DWCHECK_RULE_VAL_OFFSET, the CFA is the value of register cfa.reg plus
   cfa.offset. If it is DWCHECK_RULE_VAL_EXPRESSION, the CFA is the value that an expression gives. return_reg is the
   register of the return address, and `count` the number of registers that have a rule, at most DWCHECK_MAX_RULES. */
typedef struct dwcheck_row {
    uint64_t id, cookie, load_address, start, end;
    dwcheck_rule cfa;
    uint32_t return_reg, count;
} dwcheck_row;

/* Writes the row that covers `address`, an address as loaded, from the module that answers for the address. The rules
   of registers go into `rules` in ascending order of registers, as many as fit. Returns DONE; or NONE if there is no
   such row. */
uint32_t dwcheck_row_at(const dwcheck_process *process, uint64_t address, dwcheck_row *row, dwcheck_rule *rules,
                        size_t rules_length);

/* Writes 1 to `is_signal_frame` if `address`, as loaded, is one of a signal frame, to which a signal handler returns,
   by the module's .eh_frame, else 0. A walk makes this test at each address that it looks up. The caller of a signal
   frame was interrupted, so a walk looks it up at its own address. Returns DONE. */
uint32_t dwcheck_is_signal_frame(const dwcheck_process *process, uint64_t address, uint32_t *is_signal_frame);

/* Writes 1 to `is_signed` if the return address of a frame is signed at `address`, as loaded, by the module's .eh_frame
   for aarch64 (DWCHECK_EH_FRAME_AARCH64), else 0. A walk makes this test at each address that it looks up, if the state
   has signed_bits, and only then takes them off the return address. Returns DONE. */
uint32_t dwcheck_is_signed(const dwcheck_process *process, uint64_t address, uint32_t *is_signed);

/* Writes the bytes of a rule's expression to `bytes`, as many as fit, and their number to `size`. The rule is that of
   register `reg`, or of the CFA if `reg` is DWCHECK_CFA_RULE, in the row that dwcheck_row_at gives for `address`.
   Returns DONE; or NONE if there is no row, or if the rule has no expression. */
#define DWCHECK_CFA_RULE 0x10000u
uint32_t dwcheck_rule_bytes(const dwcheck_process *process, uint64_t address, uint32_t reg, uint8_t *bytes,
                            size_t bytes_length, size_t *size);

/* ---- callers and walks --------------------------------------------------------------------------------------------- */
/* A block of memory that starts at address `base`. `bytes` is never NULL. */
typedef struct dwcheck_block { uint64_t base; const uint8_t *bytes; size_t length; } dwcheck_block;

/* The state of a stopped thread. The value of register n is contents[n] if contents[n] and known[n / 8] exist and bit
   n % 8 of known[n / 8] is set (bit 0 is the least significant); otherwise it isn't known. Memory is the bytes of the
   blocks; if two blocks contain an address, the byte of the first block counts. The ABI is `kept` (the callee-saved
   registers, 127 at most) and, if has_stack_pointer isn't 0, stack_pointer. The ABI applies to registers to which the
   row gives no rule: in the caller, a register in `kept` has the value that it has now, the stack pointer is the CFA,
   and any other register is undefined. The ABI names no register twice. `signed_bits` are the bits of a signed return
   address that have its signature (aarch64: the mask for code in NT_ARM_PAC_MASK). Walks take them off where the rows
   say that the return address is signed (dwcheck_is_signed), and nowhere else: so never in modules of another kind than
   DWCHECK_EH_FRAME_AARCH64, whose rows can't say it. */
typedef struct dwcheck_state {
    const uint64_t *contents; size_t contents_length;
    const uint8_t *known; size_t known_length;
    const dwcheck_block *blocks; size_t blocks_length;
    const uint16_t *kept; size_t kept_length;
    uint16_t stack_pointer, has_stack_pointer;
    uint32_t reserved;
    uint64_t signed_bits;
} dwcheck_state;

/* What is known of a CFA, a return address or a register. */
enum {
    DWCHECK_ANSWER_NOT_COVERED = 0,     /* no FDE covers the frame, which is the last of a walk */
    DWCHECK_ANSWER_VALUE = 1,           /* it is `value`, below 2^w */
    DWCHECK_ANSWER_UNDEFINED = 2,       /* its value isn't available */
    DWCHECK_ANSWER_UNREADABLE = 3,      /* it needs a register or memory that isn't known, or memory past 2^w - 1 */
    DWCHECK_ANSWER_DIVISION_BY_ZERO = 4 /* its expression divides by zero */
};
typedef struct dwcheck_answer { uint64_t value; uint32_t kind, reserved; } dwcheck_answer;
typedef struct dwcheck_register { uint64_t value; uint32_t kind, number; } dwcheck_register;

/* A caller. `cfa` is the canonical frame address of the frame that was called. `return_address` is where the caller
   continues, just after the call. `count` is the number of registers that have a rule from the row or the ABI, at most
   DWCHECK_MAX_REGISTERS. */
typedef struct dwcheck_caller { dwcheck_answer cfa, return_address; uint64_t count; } dwcheck_caller;

#define DWCHECK_MAX_REGISTERS 256
/* Writes the caller of the frame at `address`, an address as loaded, by the row that dwcheck_row_at gives for it. The
   address itself is looked up. So for the caller's own caller, pass the caller's return address, without its signed
   bits if dwcheck_is_signed wrote 1 for `address`, and minus 1 unless dwcheck_is_signal_frame did. The caller's
   registers go into `registers` in ascending order, as many as fit. Returns DONE; NONE if there is no row; or REFUSED
   if the ABI names too many registers or names one twice. */
uint32_t dwcheck_unwind(const dwcheck_process *process, uint64_t address, const dwcheck_state *state, dwcheck_caller *caller,
                        dwcheck_register *registers, size_t registers_length, dwcheck_fault *fault);

/* A frame: its address as loaded, and its canonical frame address (CFA). */
typedef struct dwcheck_frame { uint64_t address; dwcheck_answer cfa; } dwcheck_frame;

/* Why a walk ends. */
enum {
    DWCHECK_STOP_LIMIT = 0,            /* `frames` is full */
    DWCHECK_STOP_NOT_COVERED = 1,      /* there is no row for the last frame */
    /* The last frame's return address is undefined. Either the row's rule says so, and then the walk is complete
       (DWARF 5, section 6.4.4); or neither the row nor `kept` names its register, which then belongs into `kept`. */
    DWCHECK_STOP_RETURN_UNDEFINED = 2,
    DWCHECK_STOP_RETURN_UNREADABLE = 3,      /* the last frame's return address is DWCHECK_ANSWER_UNREADABLE */
    DWCHECK_STOP_RETURN_DIVISION_BY_ZERO = 4 /* or it is DWCHECK_ANSWER_DIVISION_BY_ZERO */
};

/* Walks up the stack from the frame at `address`, an address as loaded, and writes the frames to `frames`, the
   innermost first, as many as fit. `count` becomes their number, and `stop` the reason why there are no more. Frame 0
   is looked up at its address, and each later frame at its address minus 1; but the caller of a signal frame
   (dwcheck_is_signal_frame) at its address. Returns DONE; or REFUSED if the ABI names too many registers or names one
   twice. */
uint32_t dwcheck_backtrace(const dwcheck_process *process, uint64_t address, const dwcheck_state *state, dwcheck_frame *frames,
                           size_t frames_length, size_t *count, uint32_t *stop, dwcheck_fault *fault);

/* Remembers where recent walks found their rows, for dwcheck_backtrace_cached. It is plain data that the caller owns,
   with nothing to free, and may be copied, changed or dropped between calls. Any initialized bytes are a valid cache,
   also what a call leaves that siglongjmp leaves; start with zeros. Nothing has to be done when modules change or
   another process is walked: what is out of date only costs time. No two calls may use the same cache at once, so each
   thread needs its own, and so does a signal handler that may interrupt such a call. */
typedef struct dwcheck_cache { uint32_t hints[1024]; } dwcheck_cache;

/* Does what dwcheck_backtrace does, whatever `cache` holds, and is faster if the same functions were on a stack before,
   as in a profiler. The cache saves the search for most rows of little-endian 64-bit targets: those whose CFA is a
   register plus an offset, and that say only where registers are saved. Other rows are searched for each time.
   `cache` is never NULL. */
uint32_t dwcheck_backtrace_cached(const dwcheck_process *process, uint64_t address, const dwcheck_state *state,
                                  dwcheck_frame *frames, size_t frames_length, size_t *count, uint32_t *stop,
                                  dwcheck_cache *cache, dwcheck_fault *fault);

/* The stages of a cursor: a frame that is the first one, or that was interrupted, is looked up at its address; any
   other at its address minus 1, inside of the call. A greater stage, minus 1, is the reason why the walk has ended. */
enum { DWCHECK_CURSOR_EXACT = 0, DWCHECK_CURSOR_CALLER = 1 };

/* Where a walk up a stack is: the address of a frame as loaded, and its registers. The value of register n is
   contents[n], if known[n] isn't 0; registers with numbers of 96 or more have no place. A cursor is plain data of the
   caller's. It may be read, copied, changed and dropped at any time, and a walk may be taken up again from a copy.
   Any bytes are a cursor. */
typedef struct dwcheck_cursor {
    uint64_t contents[96]; uint8_t known[96];
    uint64_t address; uint32_t stage, reserved;
} dwcheck_cursor;

/* Places a cursor at the frame at `address`, an address as loaded, with the registers of `state`. The frame is looked
   up at its address if `exact` isn't 0, as dwcheck_backtrace looks up its first frame, and at its address minus 1 if
   it is. Returns DONE; REFUSED if the ABI names too many registers or names one twice; or NO_PLACE if a register with
   a number of 96 or more is known. */
uint32_t dwcheck_cursor_init(dwcheck_cursor *cursor, uint64_t address, const dwcheck_state *state, uint32_t exact,
                             dwcheck_fault *fault);

/* Writes the frame that a cursor is at to `frame`, and moves the cursor to the frame's caller. The memory and the ABI
   are those of `state`, and the registers those of the cursor. Whether the ABI is faulty isn't looked at:
   dwcheck_cursor_init has done that. If there is no caller, the cursor keeps the frame's address and registers, and
   its stage says why. So n steps give what dwcheck_backtrace writes to n frames. Returns DONE; NONE if the walk has
   ended; or NO_PLACE if a register of the caller with a number of 96 or more would be known. */
uint32_t dwcheck_cursor_step(const dwcheck_process *process, dwcheck_cursor *cursor, const dwcheck_state *state,
                             dwcheck_frame *frame);

/* Reads `length` bytes of memory at `address` into `bytes`, and returns whether it could. `order` and address_size are
   those of the process. */
typedef struct dwcheck_reader {
    bool (*read)(void *data, uint64_t address, uint8_t *bytes, size_t length);
    void *data; uint32_t order, address_size;
} dwcheck_reader;

/* Steps as dwcheck_cursor_step does, but asks `reader` for the words that the step needs: of another process, a core
   file, a remote target. The blocks of `state` aren't used. This call is C over the proved ones, which see
   the bytes that were read (c/read.c). In a rule whose expression has branches or over 256 bytes, only what is read
   before the first branch, or nothing, is asked for. `read` may leave the call by longjmp, and then the cursor is as
   it was. The call allocates only as dwcheck_evaluate does. */
uint32_t dwcheck_cursor_step_with(const dwcheck_process *process, dwcheck_cursor *cursor, const dwcheck_state *state,
                                  const dwcheck_reader *reader, dwcheck_frame *frame);

/* ---- in place ------------------------------------------------------------------------------------------------------ */
/* The .eh_frame_hdr section of a module, which begins at `address` as linked. Its search table leads from an address
   to the record of an FDE. If `length` is 0, there is none, and the section's records are gone through. */
typedef struct dwcheck_header { const uint8_t *bytes; size_t length; uint64_t address; } dwcheck_header;

/* Writes the row that covers `address`, an address as loaded, without preparation: only the FDE to which the table
   leads and its CIE are read and checked, whatever other bytes the section has. No process is needed, nothing is
   allocated, and nothing is kept, so the call may be made at any moment, also in a signal handler. It takes up to 53
   KB of stack, and O(log n) time among n entries, plus what the two records take; without a table, time in proportion
   to the bytes before the FDE.

   Of `module`, the call uses what dwcheck_module_check uses, load_address and `cookie`. `kind` is that of an .eh_frame
   section. In the process itself, section_address and the header's `address` may be where the sections lie, and
   load_address 0. The row is written as by dwcheck_row_at, with the id 0. `is_signal_frame` becomes what
   dwcheck_is_signal_frame writes.

   Returns DONE; NONE if the table leads to no FDE that covers the address; REFUSED with the first fault of the FDE and
   its CIE, at its offset in the section (a CIE that can't be read is NoSuchCie, at the FDE's CIE pointer); NO_ROOM if
   the two have more than 32 expressions, or one of more than 16 bytes, for which an added module has room; TOO_LONG;
   BAD_KIND; BAD_TARGET; or NO_TABLE if the header isn't as linkers write it (version 1, with the encodings 0x1b, 0x03
   and 0x3b), or shorter than its table.

   If a check without DWCHECK_LEAVE_OUT accepts the section, and the table leads to all its FDEs, this is the row that
   the check gives. A wrong table leads to no row, or to one of other bytes that read as an FDE which covers the
   address. */
uint32_t dwcheck_row_in(const dwcheck_module *module, const dwcheck_header *header, uint64_t address, dwcheck_row *row,
                        dwcheck_rule *rules, size_t rules_length, uint32_t *is_signal_frame, dwcheck_fault *fault);

/* Looks up `address` as dwcheck_row_in does, and writes 1 to `is_signed` if the return address is signed in its row,
   else 0 (dwcheck_is_signed). Returns what dwcheck_row_in returns. */
uint32_t dwcheck_is_signed_in(const dwcheck_module *module, const dwcheck_header *header, uint64_t address,
                              uint32_t *is_signed, dwcheck_fault *fault);

/* Steps as dwcheck_cursor_step does, by the row that dwcheck_row_in finds for the frame. If it finds none, the walk
   ends; choose for each step the module that has the cursor's address. Returns DONE; NONE if the walk has ended; NO_PLACE;
   or any other status that dwcheck_row_in returns, and then the cursor is as it was. */
uint32_t dwcheck_step_in(const dwcheck_module *module, const dwcheck_header *header, dwcheck_cursor *cursor,
                         const dwcheck_state *state, dwcheck_frame *frame, dwcheck_fault *fault);

/* ---- walks that recur ---------------------------------------------------------------------------------------------- */
/* Rows of modules of x86-64, kept for walks in which the same functions recur, as in a profiler or an allocator. It is
   plain data that the caller owns, with nothing to free. Any initialized bytes are valid; start with zeros. No two calls
   may use the same rows at once, so each thread needs its own, and so does a signal handler that may interrupt a call.

   Each row is that of a module: the caller gives each module a slot, a number below 64. A walk uses only the rows of
   slots that the caller has confirmed for it, by the bits of a mask: that the slot's module is still loaded where it
   was. So a slot names one module, from its first fill, by either call below, until dwcheck_rows_forget, and each
   address that is filled in lies in that module. If siglongjmp leaves a fill or a forget, or a fork copies one that is
   under way, the rows have to be zeros again. These calls read no process and allocate nothing, so a signal handler may
   make them with rows of its own. */
typedef struct dwcheck_rows { uint64_t words[3361]; } dwcheck_rows;

/* Looks `address` up in place, as dwcheck_row_in does, and keeps its row, which is the module's with the slot
   `slot` % 64. The row may take the place of another one. Returns DONE; NO_PLACE if there is a row that can't be kept,
   at which walks stop: one with an expression, say, or that of a signal frame, or any row of another target than
   little-endian with addresses of 8 bytes; or any other status that dwcheck_row_in returns, and then the rows are as
   they were. Two kinds of rows with expressions are kept: those of stacks that gcc has realigned, whose CFA is a word of
   memory by rbp; and those that linkers write for procedure linkage tables, for this address, with the CFA that it gives
   if rip has this address or, as in a caller, the next one; if these differ, the call returns NO_PLACE. The call takes
   as much stack as the next one where that has the answer, and else as dwcheck_row_in. */
uint32_t dwcheck_rows_fill(dwcheck_rows *rows, uint32_t slot, const dwcheck_module *module, const dwcheck_header *header,
                           uint64_t address, dwcheck_fault *fault);

/* The same for a compact row alone, as compilers write nearly all of them: its CFA is a register plus an offset, and
   registers below 32 have no rule, are undefined, or are saved at offsets between -32768 and 32768 other than 0. Returns
   NO_ROOM also if the row isn't compact, if an instruction for another row of the FDE isn't of this kind, if the
   instructions of the CIE don't begin with DW_CFA_def_cfa, or if a record that is read may be refused. Then
   dwcheck_rows_fill has the answer. REFUSED is never returned, and `fault` stays as it was. */
uint32_t dwcheck_rows_fill_compact(dwcheck_rows *rows, uint32_t slot, const dwcheck_module *module,
                                   const dwcheck_header *header, uint64_t address, dwcheck_fault *fault);

/* Forgets the rows of the slot `slot` % 64, which may then name another module. */
void dwcheck_rows_forget(dwcheck_rows *rows, uint32_t slot);

/* Where a walk with kept rows is: at the frame at `address`. The address that is looked up for it is `key` - 1; so for
   the first frame, or one that a signal has interrupted, `key` is its address plus 1, and for a caller it is the return
   address, as `address` is. The content of rsp is `stack_pointer`. That of rbp is frame_pointer if is_saved is 0, else
   it is in memory at that address, which mustn't change before the last call with the place. A place is plain data of
   the caller's: any bytes are a place. */
typedef struct dwcheck_place {
    uint64_t address, key, stack_pointer, frame_pointer; uint32_t is_saved, reserved;
} dwcheck_place;

/* More reasons why a walk with kept rows stops. Neither writes the frame at `place`. */
enum {
    /* No row is kept for the frame. If `key` isn't 0, fill in the row of the address `key` - 1, and go on. If it is, or
       if filling in returns NONE, no FDE covers the frame, and it is the last one. */
    DWCHECK_STOP_MISSING = 5,
    /* The frame needs a step of a cursor: its row can't be kept, or needs a register that the walk doesn't keep or know,
       or a word of memory that isn't known. */
    DWCHECK_STOP_OTHER = 6
};

/* Walks up the stack from `place` with the rows of the slots whose bits are set in `confirmed`, and writes the addresses
   of the frames to `addresses`, the innermost first, as many as fit. `count` becomes their number, and `stop` the reason
   why there are no more: LIMIT, RETURN_UNDEFINED, RETURN_UNREADABLE, MISSING or OTHER; a last frame that fills the array
   has its own reason, not LIMIT. `place` becomes that of the next frame, from which a walk can go on; after
   RETURN_UNDEFINED and RETURN_UNREADABLE it has no meaning. The frames are those of the definition of walks, with these
   rows and with x86-64's callee-saved registers; rip has the `address` of each frame. Nothing is allocated, so the call
   may be made in a signal handler. */
void dwcheck_walk(dwcheck_rows *rows, uint64_t confirmed, dwcheck_place *place, const dwcheck_block *blocks,
                  size_t blocks_length, uint64_t *addresses, size_t addresses_length, size_t *count, uint32_t *stop);

/* Where a walk is that gives registers: as a dwcheck_place, with the contents of rsp and of the callee-saved registers. */
typedef struct dwcheck_register_place {
    uint64_t address, key, stack_pointer, rbx, rbp, r12, r13, r14, r15;
} dwcheck_register_place;

/* A frame: where the walk was at it, and its CFA. */
typedef struct dwcheck_register_frame { dwcheck_register_place place; uint64_t cfa; } dwcheck_register_frame;

/* Walks as dwcheck_walk does, and writes each frame with its registers and its CFA. It knows the CFA by any of its
   registers; but OTHER also says that a register is saved where memory isn't known. After OTHER a cursor takes a step
   (dwcheck_cursor_at_place, dwcheck_step_in), and the walk goes on where the cursor is (dwcheck_place_of_cursor). */
void dwcheck_walk_frames(dwcheck_rows *rows, uint64_t confirmed, dwcheck_register_place *place, const dwcheck_block *blocks,
                         size_t blocks_length, dwcheck_register_frame *frames, size_t frames_length, size_t *count,
                         uint32_t *stop);

/* Places a cursor where a walk with registers is: its address, its stage, and the registers of the place; rip has the
   address, and no other register is known. Returns DONE; or NO_PLACE if `key` is neither `address` nor `address` plus 1. */
uint32_t dwcheck_cursor_at_place(dwcheck_cursor *cursor, const dwcheck_register_place *place);

/* Makes `place` that of the frame that a cursor is at, so that a walk with registers goes on there. Returns DONE; NONE if
   the cursor's walk has ended; or NO_PLACE if a register of a place isn't known, or if `key` would be 2^64. */
uint32_t dwcheck_place_of_cursor(dwcheck_register_place *place, const dwcheck_cursor *cursor);

/* ---- expressions --------------------------------------------------------------------------------------------------- */
/* What an expression is used for (`kind`): the rule of a CFA, the rule of a register, or the location of an object.
   The stack begins with the CFA for the rule of a register, and is empty at first for the others. */
enum { DWCHECK_EXPRESSION_CFA = 0, DWCHECK_EXPRESSION_REGISTER = 1, DWCHECK_EXPRESSION_LOCATION = 2 };

/* Values that an expression may need and that depend on where the program stopped: the CFA, the frame base (for
   DW_OP_fbreg) and the address of the object (for DW_OP_push_object_address). Each is known only if its flag, such as
   has_cfa, isn't 0. */
typedef struct dwcheck_context {
    uint64_t cfa, frame_base, object;
    uint32_t has_cfa, has_frame_base, has_object, reserved;
} dwcheck_context;

/* The outcome of an expression. `kind` is one of these. `value` is 0 for kinds whose comment doesn't mention it.
   `steps` is the number of operations that were reached, including one that failed. */
enum {
    DWCHECK_OUTCOME_VALUE = 0,                 /* `value`, for the rule of a CFA or register */
    /* The operation at `offset` needs a register, memory or a context value that isn't known, or reads memory past
       2^w - 1. If has_cfa is 0, the rule of a register always has this outcome, at offset 0 and after 0 steps. */
    DWCHECK_OUTCOME_UNREADABLE = 1,
    DWCHECK_OUTCOME_DIVISION_BY_ZERO = 2,      /* the operation at `offset` divides by zero */
    DWCHECK_LOCATION_NOWHERE = 3,         /* the object, or this piece of it, was optimized away */
    DWCHECK_LOCATION_ADDRESS = 4,         /* in memory, at `value` */
    DWCHECK_LOCATION_REGISTER = 5,        /* in register `value` */
    DWCHECK_LOCATION_VALUE = 6,           /* nowhere, but the object's value is `value` */
    DWCHECK_LOCATION_BYTES = 7,           /* nowhere, but `value` bytes (dwcheck_evaluate) are the object's value */
    DWCHECK_LOCATION_PIECES = 8           /* `count` pieces, 32 at most */
};
typedef struct dwcheck_value { uint64_t value; uint32_t kind, offset, steps, count; } dwcheck_value;

/* A piece: where it is (`kind` and `value`, as in dwcheck_value), and its size. The size is in bytes; but if is_bits
   isn't 0, it is in bits, and the piece begins at bit bit_offset. */
typedef struct dwcheck_piece { uint64_t value; uint32_t kind, size, bit_offset, is_bits; } dwcheck_piece;

#define DWCHECK_MAX_PIECES 32
/* Checks all paths of an expression, and runs it with the registers and memory of `state`, whose ABI isn't used. The
   pieces of the result go into `pieces`, as many as fit. If the result is DWCHECK_LOCATION_BYTES, or if piece `n`
   (counted from 0) is, these bytes go into `bytes`, as many as fit. Returns DONE; REFUSED with the first fault of the
   expression; NO_MEMORY; BAD_TARGET; TOO_LONG; or BAD_KIND. The call allocates memory only if the expression has more
   than 16 operations and also either has branches or is refused, and frees the memory. */
uint32_t dwcheck_evaluate(const uint8_t *expression, size_t expression_length, uint32_t order, uint32_t address_size,
                          uint32_t kind, const dwcheck_context *context, const dwcheck_state *state, uint32_t n,
                          dwcheck_value *value, dwcheck_piece *pieces, size_t pieces_length, uint8_t *bytes,
                          size_t bytes_length, dwcheck_fault *fault);

/* ---- location lists ------------------------------------------------------------------------------------------------ */
/* What to look up: `address`, an address as linked, in the list whose first byte is at offset `list` of the section.
   `base` is the base address of the unit to which the list belongs. */
typedef struct dwcheck_lookup { uint64_t base, address; uint32_t list, reserved; } dwcheck_lookup;

/* An expression: the offset in the section where it begins, and its length in bytes. */
typedef struct dwcheck_location { uint64_t offset, length; } dwcheck_location;

/* Checks a .debug_loclists section, and writes the expressions of a list that apply at an address into `locations`, in
   the order of the list, as many as fit. `count` becomes the number written; if it is `locations_length`, there may be
   more. Returns DONE; NONE if no list begins at lookup->list; REFUSED with the first fault; NO_MEMORY; BAD_TARGET; or
   TOO_LONG. The call takes time and memory in proportion to the section, and frees the memory. */
uint32_t dwcheck_locations(const uint8_t *lists, size_t lists_length, uint32_t order, uint32_t address_size,
                           const dwcheck_lookup *lookup, dwcheck_location *locations, size_t locations_length,
                           size_t *count, dwcheck_fault *fault);

/* The same, but reads only the list at lookup->list, in time in proportion to the list. In a section that
   dwcheck_check accepts, lists have the same locations by both calls; but this one doesn't know where lists begin, so
   it may find one in bytes that belong to another. NONE here means that the section has no byte at lookup->list, and
   REFUSED that the bytes there are no list. */
uint32_t dwcheck_list_locations(const uint8_t *lists, size_t lists_length, uint32_t order, uint32_t address_size,
                                const dwcheck_lookup *lookup, dwcheck_location *locations, size_t locations_length,
                                size_t *count, dwcheck_fault *fault);

#ifdef __cplusplus
}
#endif
#endif
