/* What the files of this folder share: walks of other processes, whose memory, registers and tables are asked for by the
   caller's accessors. An accessor may fail, say anything, step the same cursor, or leave the call by longjmp: so a call works
   on a copy of the cursor, which it writes back at its end, and while it asks it holds no lock and no memory of the heap. */
#ifndef DWCHECK_UNWIND_REMOTE_H
#define DWCHECK_UNWIND_REMOTE_H

#include "../unwind.h"

/* A cursor of another process. A register whose value isn't known may be asked for where its place is. */
struct remote_cursor {
    uint64_t mark; /* that it is one */
    unw_addr_space_t space;
    void *context; /* of the caller's, for the accessors */
    uint64_t changes; /* how often the frame has changed */
    struct frame frame;
    struct place places[REGISTERS];
};
_Static_assert(sizeof(struct remote_cursor) <= sizeof(unw_cursor_t), "a cursor fits");

/* ---- words.c: what is asked for ---- */

enum { MOST_WORDS = 64, MOST_COPIED = MOST_WORDS / 2 };
/* The words that a call has asked for, so that it asks for none twice. Of those that are copied, it notes the first ones: a
   record may have thousands, and room is left for those of the stack. */
struct words {
    unw_addr_space_t space;
    void *context;
    int error; /* what the accessor returned that failed last */
    unsigned count;
    uint64_t missing; /* a bit for each word that couldn't be read */
    uint64_t addresses[MOST_WORDS], values[MOST_WORDS];
};
HIDDEN void dwcheck_remote_begin(struct words *words, unw_addr_space_t space, void *context);
HIDDEN bool dwcheck_remote_ask(struct words *words, uint64_t address, uint64_t *value);
/* Copies bytes by the words that have them. */
HIDDEN bool dwcheck_remote_copy(struct words *words, uint64_t address, uint8_t *bytes, uint32_t length);
/* The words that were read, as blocks; returns their number. */
HIDDEN size_t dwcheck_remote_blocks(const struct words *words, dwcheck_block blocks[MOST_WORDS]);
/* The value of a register, which may have to be asked for. */
HIDDEN bool dwcheck_remote_fetch(struct remote_cursor *walk, struct words *words, int number);
/* What a call returns when it couldn't read something. */
HIDDEN int dwcheck_remote_error(const struct words *words);

/* ---- records.c: an FDE and its CIE, copied ---- */

enum { MOST_RECORD = 1 << 16 /* bytes of an FDE, and of a CIE */ };
/* The two records, where they are in the process, and copies of them: the CIE, then the FDE, which leads to it. */
struct record { uint64_t fde, cie; uint32_t cie_length, fde_length; const uint8_t *bytes; };

typedef int use_record(void *data, const struct record *record);
/* Copies the FDE at an address and its CIE, and returns what `use` returns for them; or an error. */
HIDDEN int dwcheck_remote_with_record(struct words *words, uint64_t fde, use_record *use, void *data);
/* The same, but with the copies that a search has made in this step. */
HIDDEN int dwcheck_remote_with_found_record(struct words *words, uint64_t fde, use_record *use, void *data);
/* The records as a section. */
HIDDEN dwcheck_module dwcheck_remote_section(const struct record *record, uint64_t load_address);
/* Begins a step: what a search copies in it is remembered for it, in this thread. */
HIDDEN void dwcheck_remote_begin_step(void);
HIDDEN void dwcheck_remote_remember(const struct words *words, const struct record *record);
/* Reads the FDE of the two. Returns false if it isn't one. */
HIDDEN bool dwcheck_remote_fde(const struct record *record, dwcheck_record *fde);
/* Writes what an FDE says of its function: its addresses as linked, and for exceptions. Returns false if it isn't an FDE. */
HIDDEN bool dwcheck_remote_procedure(struct words *words, const struct record *record, unw_proc_info_t *info);

/* ---- kept.c: rows that were found before ---- */

struct saved { int16_t offset; uint16_t number; };
/* What has to be asked for by a kept row: its CFA, and where it says that registers are saved, from the CFA on. */
struct facts {
    int32_t cfa_offset;
    uint8_t cfa_register, count;
    bool has_return;
    int16_t return_offset;
    uint32_t undefined; /* a bit for each register that the caller's value of is lost */
    struct saved saved[8];
};
enum { MOST_KEPT_BYTES = 1024 };
/* A function's records, copied before: for other addresses of it, and for rows that can't be kept. */
struct kept_function { uint64_t start, end, load_address; struct record record; };

enum kept { KEPT_NOTHING, KEPT_ROW, KEPT_FUNCTION };
/* What is kept for the address at which a walk is. The bytes are those of the function's records. */
HIDDEN enum kept dwcheck_remote_kept(const struct remote_cursor *walk, struct facts *facts, struct kept_function *function,
                                     uint8_t bytes[MOST_KEPT_BYTES]);
HIDDEN void dwcheck_remote_keep_row(const struct remote_cursor *walk, uint64_t key, const struct facts *facts,
                                    const dwcheck_module *module);
/* Keeps the function of the address `key` - 1, if its records aren't longer than MOST_KEPT_BYTES. */
HIDDEN void dwcheck_remote_keep_function(const struct remote_cursor *walk, uint64_t key, const struct kept_function *function);
/* Walks over one frame by a kept row. Returns how that ends; MISSING if the row isn't there any more. */
HIDDEN uint32_t dwcheck_remote_walk(const struct remote_cursor *walk, dwcheck_place *place, const dwcheck_block *block);
/* What an address space begins with; NULL without memory. */
HIDDEN struct kept_rows *dwcheck_remote_new(void);
HIDDEN void dwcheck_remote_free(struct kept_rows *kept);

/* ---- by_row.c: steps by any row ---- */

/* A step by the row of an address. */
struct row_step {
    struct remote_cursor *walk;
    struct words *words;
    uint64_t key, cfa; /* the address to look up, plus 1 */
    dwcheck_module module;
    dwcheck_row row;
    dwcheck_rule rules[DWCHECK_MAX_RULES];
    uint32_t is_signal_frame;
};

/* Moves to the caller, by the FDE of which `key` - 1 is an address. */
HIDDEN int dwcheck_remote_step_by_record(struct remote_cursor *walk, struct words *words, uint64_t key, uint64_t load_address,
                                         const struct record *record);

/* ---- of each processor, remote.c ---- */

enum { NO_KEPT_ROW = 2 }; /* besides what unw_step returns: the row isn't kept, or not any more */
/* Moves to the caller by the kept row of the address at which the walk is. */
HIDDEN int dwcheck_remote_step_by_kept_row(struct remote_cursor *walk, struct words *words, const struct facts *facts);
/* Keeps a row, and moves to the caller by it, if the walk can keep such rows. */
HIDDEN int dwcheck_remote_step_by_keeping(const struct row_step *step);
/* Leaves a signal handler, where no row covers the code to which it returns; -UNW_ENOINFO if the frame's code is another. */
HIDDEN int dwcheck_remote_leave_handler(struct remote_cursor *walk, struct words *words);
/* What unw_is_signal_frame returns. */
HIDDEN int dwcheck_remote_is_signal_frame(const struct remote_cursor *walk);

/* ---- registered.c: what the process has registered; -UNW_ENOINFO for any other address ---- */

HIDDEN int dwcheck_remote_find_registered(unw_addr_space_t space, uint64_t address, unw_proc_info_t *info, int need_unwind_info,
                                          void *context);
HIDDEN int dwcheck_remote_registered_name(unw_addr_space_t space, uint64_t address, char *name, size_t size, unw_word_t *offset,
                                          void *context);

/* ---- step.c ---- */

/* What is registered, or what the caller's accessor knows, of the function that has an address; returns what it returns. */
HIDDEN int dwcheck_remote_find(unw_addr_space_t space, uint64_t address, unw_proc_info_t *info, int need_unwind_info,
                               void *context);
/* The same, for a step: the FDE has to be known. */
HIDDEN int dwcheck_remote_find_fde(unw_addr_space_t space, uint64_t address, unw_proc_info_t *info, void *context);
/* Moves to the caller, by the FDE of the address `key` - 1. */
HIDDEN int dwcheck_remote_step_by_search(struct remote_cursor *walk, struct words *words, uint64_t key);
/* How another process's memory is read; the data are words. */
HIDDEN bool dwcheck_remote_read(void *words, uint64_t address, uint64_t *word);

/* ---- the calls, for cursors of other processes; for any other they return -UNW_EINVAL ---- */

HIDDEN int dwcheck_remote_init(unw_cursor_t *cursor, unw_addr_space_t space, void *context);
HIDDEN int dwcheck_remote_step(unw_cursor_t *cursor);
HIDDEN int dwcheck_remote_get_reg(unw_cursor_t *cursor, int number, unw_word_t *value);
HIDDEN int dwcheck_remote_set_reg(unw_cursor_t *cursor, int number, unw_word_t value);
HIDDEN int dwcheck_remote_get_save_loc(unw_cursor_t *cursor, int number, unw_save_loc_t *location);
HIDDEN int dwcheck_remote_resume(unw_cursor_t *cursor);
HIDDEN int dwcheck_remote_get_proc_info(unw_cursor_t *cursor, unw_proc_info_t *info);
HIDDEN int dwcheck_remote_get_proc_name(unw_cursor_t *cursor, char *name, size_t size, unw_word_t *offset);
HIDDEN int dwcheck_remote_name_of(unw_addr_space_t space, uint64_t address, char *name, size_t size, unw_word_t *offset,
                                  void *context);
HIDDEN int dwcheck_remote_rows(unw_cursor_t *cursor, unw_reg_states_callback callback, void *token);
HIDDEN int dwcheck_remote_apply_row(unw_cursor_t *cursor, uint64_t address);
/* The frame of a cursor, for calls that need no more; NULL if it isn't a cursor of another process. */
HIDDEN const struct frame *dwcheck_remote_frame(const unw_cursor_t *cursor);
HIDDEN struct remote_cursor *dwcheck_remote_cursor(unw_cursor_t *cursor);

#endif
