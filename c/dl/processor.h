/* What differs between the processors that walks are for: x86_64.c and aarch64.c have it. */
#ifndef DWCHECK_DL_PROCESSOR_H
#define DWCHECK_DL_PROCESSOR_H

#include "find.h"
#include "dwcheck-dl.h"

#include <stddef.h>
#include <ucontext.h>

/* In the frame of a signal, the kernel's context lies DWCHECK_DL_CONTEXT bytes above the stack pointer, and walks read
   DWCHECK_DL_CONTEXT_LENGTH bytes of it. A look-up needs DWCHECK_DL_NEEDED bytes of stack. DWCHECK_DL_SAVES_BELOW is 1 if frames
   may have other registers above the return address. */
#if defined(__x86_64__)
enum {
    DWCHECK_DL_CONTEXT = 0,
    DWCHECK_DL_CONTEXT_LENGTH = offsetof(ucontext_t, uc_mcontext) + sizeof(gregset_t),
    DWCHECK_DL_NEEDED = 52 << 10,
    DWCHECK_DL_SAVES_BELOW = 0
};
#else
enum {
    DWCHECK_DL_CONTEXT = 128, /* the kernel's siginfo */
    DWCHECK_DL_CONTEXT_LENGTH = offsetof(ucontext_t, uc_mcontext.__reserved),
    DWCHECK_DL_NEEDED = 60 << 10,
    DWCHECK_DL_SAVES_BELOW = 1
};
#endif

/* Calls f(data) with this stack pointer, and finds the way back by the frame pointer. */
DWCHECK_DL_HIDDEN void dwcheck_dl_call_on(void *data, void (*f)(void *data), void *top);

/* This code is a question to valgrind, and otherwise does nothing. Returns valgrind's answer, or else 0. */
DWCHECK_DL_HIDDEN uint64_t dwcheck_dl_ask_valgrind(const volatile uint64_t question[6]);

/* What a step needs to know: the registers that calls preserve, the bits of a signature, and the memory. */
DWCHECK_DL_HIDDEN dwcheck_state dwcheck_dl_state_of(const dwcheck_block *stack);

/* A return address without its signature. */
DWCHECK_DL_HIDDEN uint64_t dwcheck_dl_unsigned(uint64_t return_address);

/* ---- places */

/* The frame pointer, as in code that keeps a chain of frames. */
static inline uint64_t *dwcheck_dl_frame_pointer(dwcheck_dl_place *place) {
#if defined(__x86_64__)
    return &place->rbp;
#else
    return &place->x19_to_x30[29 - 19];
#endif
}

/* The caller's stack pointer, where a frame pointer leads to the caller's frame pointer, `saved`, and the return address. JITs
   and clang have the two words at the top of a frame. gcc for aarch64 has them at the bottom, at the stack pointer: then nothing
   says how long the frame is, and the caller's frame pointer is taken, which is its stack pointer if it is gcc's code, too. */
static inline uint64_t dwcheck_dl_stack_of_caller(uint64_t stack_pointer, uint64_t frame_pointer, uint64_t saved) {
    enum { WORDS = 16, MOST = 1 << 20 };
#if defined(__aarch64__)
    const bool is_at_bottom = frame_pointer == stack_pointer && saved % WORDS == 0;
    if (is_at_bottom && saved > frame_pointer && saved - frame_pointer <= MOST) return saved;
#else
    (void)stack_pointer, (void)saved;
#endif
    return frame_pointer + WORDS;
}

/* Makes a place that of a caller, which continues at this address. */
static inline void dwcheck_dl_continue_at(dwcheck_dl_place *place, uint64_t return_address) {
    place->address = place->key = return_address;
#if defined(__aarch64__)
    place->x19_to_x30[30 - 19] = 0;
#endif
}

/* Places a cursor where a walk is, with the registers that are known there; and the other way around. Statuses are those
   of dwcheck_cursor_at_place and dwcheck_place_of_cursor. */
DWCHECK_DL_HIDDEN uint32_t dwcheck_dl_cursor_at_place(dwcheck_cursor *cursor, const dwcheck_dl_place *place);
DWCHECK_DL_HIDDEN uint32_t dwcheck_dl_place_of_cursor(dwcheck_dl_place *place, const dwcheck_cursor *cursor);

/* ---- signals */

/* The place where a signal interrupted a thread. */
DWCHECK_DL_HIDDEN dwcheck_dl_place dwcheck_dl_place_of_context(const ucontext_t *context);

/* The address of the instruction that was interrupted. */
DWCHECK_DL_HIDDEN uint64_t dwcheck_dl_address_of_context(const ucontext_t *context);

/* Makes all general registers of an interrupted thread known to a cursor. */
DWCHECK_DL_HIDDEN void dwcheck_dl_know_context(dwcheck_cursor *cursor, const ucontext_t *context);

/* Whether the code at an address, which may be read, is that to which signal handlers return. */
DWCHECK_DL_HIDDEN bool dwcheck_dl_is_return_of_signal(uint64_t address);

/* Whether a thread was interrupted because nothing can be executed where it is: in memory that isn't mapped or mustn't
   be executed. */
DWCHECK_DL_HIDDEN bool dwcheck_dl_is_nowhere(const ucontext_t *context);

/* ---- calls */

/* Whether a call ends at an address. */
DWCHECK_DL_HIDDEN bool dwcheck_dl_follows_call(uint64_t address);

/* How many bytes the code at an address has pushed since it was called, if it is code for which no row is, but that is
   known to do nothing else to the stack, and to leave the return address where a call puts it; else -1. */
DWCHECK_DL_HIDDEN int dwcheck_dl_pushed_without_row(uint64_t address);

#if defined(__aarch64__)
/* Whether an instruction is a call. And how many bytes the entry of a procedure linkage table that has the instruction `at`
   has pushed before it, or -1 if there is none: DWCHECK_DL_NEAR instructions before it and after it may be read. */
enum { DWCHECK_DL_NEAR = 7 };
DWCHECK_DL_HIDDEN bool dwcheck_dl_is_call(uint32_t instruction);
DWCHECK_DL_HIDDEN int dwcheck_dl_pushed_in_linkage_table(const uint32_t *at);
/* What handlers return to: mov x8, #139; svc #0. */
DWCHECK_DL_HIDDEN extern const uint32_t dwcheck_dl_return_of_signal[2];
#endif

/* Where a call that has done nothing else returns to; 0 if that can't be read. */
DWCHECK_DL_HIDDEN uint64_t dwcheck_dl_return_address(const dwcheck_dl_place *place, dwcheck_block *stack);

/* Makes a place that of the frame which has made such a call. */
DWCHECK_DL_HIDDEN void dwcheck_dl_leave_call(dwcheck_dl_place *place, uint64_t return_address);

#endif
