/* Rows that walks keep, and walks by these rows alone. On x86-64 they are those of dwcheck.h, which are proved; on
   aarch64, plain C that keeps the rows which proved look-ups find (aarch64_rows.c). */
#ifndef DWCHECK_DL_ROWS_H
#define DWCHECK_DL_ROWS_H

#include "find.h"
#include "dwcheck-dl.h"

#if defined(__x86_64__)

typedef dwcheck_rows dwcheck_dl_rows;

static inline uint32_t dwcheck_dl_rows_fill(dwcheck_dl_rows *rows, uint32_t slot, const dwcheck_module *module,
                                            const dwcheck_header *header, uint64_t address, dwcheck_fault *fault) {
    return dwcheck_rows_fill(rows, slot, module, header, address, fault);
}

static inline void dwcheck_dl_rows_forget(dwcheck_dl_rows *rows, uint32_t slot) { dwcheck_rows_forget(rows, slot); }

static inline void dwcheck_dl_rows_walk(dwcheck_dl_rows *rows, uint64_t confirmed, dwcheck_place *place, const dwcheck_block *stack,
                                        uint64_t *addresses, size_t room, size_t *count, uint32_t *stop) {
    dwcheck_walk(rows, confirmed, place, stack, 1, addresses, room, count, stop);
}

static inline void dwcheck_dl_rows_walk_frames(dwcheck_dl_rows *rows, uint64_t confirmed, dwcheck_dl_place *place,
                                               const dwcheck_block *stack, dwcheck_dl_frame *frames, size_t room, size_t *count,
                                               uint32_t *stop) {
    dwcheck_walk_frames(rows, confirmed, place, stack, 1, frames, room, count, stop);
}

static inline uint64_t dwcheck_dl_end_of_saved(const dwcheck_dl_rows *rows, uint64_t confirmed, const dwcheck_dl_frame *frame) {
    return (void)rows, (void)confirmed, frame->cfa;
}

static inline void dwcheck_dl_pass_pushed(const dwcheck_module *module, const dwcheck_header *header, uint64_t address,
                                          const dwcheck_block *stack, dwcheck_cursor *cursor, dwcheck_frame *frame) {
    (void)module, (void)header, (void)address, (void)stack, (void)cursor, (void)frame;
}

#else

/* A row: where the registers x19 to x30 are saved, as offsets from the CFA, which is a register plus an offset. */
struct dwcheck_dl_row {
    uint64_t key; /* the address for which it was looked up, plus 1; 0 if there is no row here */
    int32_t cfa_offset;
    uint8_t cfa_register; /* x19 to x30, or 31, the stack pointer */
    uint8_t slot, kind;
    int16_t saved[12]; /* 0: the register still has its content */
};

enum { DWCHECK_DL_ROW_SETS = 512, DWCHECK_DL_ROW_WAYS = 2 };
typedef struct dwcheck_dl_rows {
    struct dwcheck_dl_row sets[DWCHECK_DL_ROW_SETS][DWCHECK_DL_ROW_WAYS];
} dwcheck_dl_rows;

/* These do what dwcheck_rows_fill, dwcheck_rows_forget, dwcheck_walk and dwcheck_walk_frames do on x86-64, with two
   differences. The frame pointer of a dwcheck_place is x29; and such a walk stops with OTHER at a frame that has made no
   call. RETURN_UNREADABLE also says that another register can't be read. */
DWCHECK_DL_HIDDEN uint32_t dwcheck_dl_rows_fill(dwcheck_dl_rows *rows, uint32_t slot, const dwcheck_module *module,
                                                const dwcheck_header *header, uint64_t address, dwcheck_fault *fault);
DWCHECK_DL_HIDDEN void dwcheck_dl_rows_forget(dwcheck_dl_rows *rows, uint32_t slot);
DWCHECK_DL_HIDDEN void dwcheck_dl_rows_walk(dwcheck_dl_rows *rows, uint64_t confirmed, dwcheck_place *place,
                                            const dwcheck_block *stack, uint64_t *addresses, size_t room, size_t *count,
                                            uint32_t *stop);
DWCHECK_DL_HIDDEN void dwcheck_dl_rows_walk_frames(dwcheck_dl_rows *rows, uint64_t confirmed, dwcheck_dl_place *place,
                                                   const dwcheck_block *stack, dwcheck_dl_frame *frames, size_t room,
                                                   size_t *count, uint32_t *stop);

/* The end of the highest word that the row of a frame, which a walk has written, names: the one that memory must have. */
DWCHECK_DL_HIDDEN uint64_t dwcheck_dl_end_of_saved(const dwcheck_dl_rows *rows, uint64_t confirmed,
                                                   const dwcheck_dl_frame *frame);

/* Moves a cursor, which the row of a frame's address has led to its caller, and the frame's CFA past what was pushed before
   the frame's function began: where glibc looks a symbol up for the first time. */
DWCHECK_DL_HIDDEN void dwcheck_dl_pass_pushed(const dwcheck_module *module, const dwcheck_header *header, uint64_t address,
                                              const dwcheck_block *stack, dwcheck_cursor *cursor, dwcheck_frame *frame);

#endif

#endif
