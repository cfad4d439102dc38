/* Steps of a walk that kept rows don't take: by a row with an expression, through the frame of a signal, after a call
   of what is no function, and by frame pointers. */
#define _GNU_SOURCE
#include "memory.h"
#include "walk.h"

#include <signal.h>
#include <string.h>

enum { PAGE = 4096, WORD = 8, RED_ZONE = 128, PAGES = 2 };

static uint64_t word_at(uint64_t address) {
    uint64_t word;
    memcpy(&word, (const void *)(uintptr_t)address, sizeof word);
    return word;
}

static void end(struct dwcheck_dl_walk *walk, uint32_t stop) {
    walk->stop = stop;
    walk->is_over = true;
}

/* ---- where a signal interrupted the thread */

void dwcheck_dl_go_to(struct dwcheck_dl_walk *walk, const ucontext_t *context) {
    walk->place = dwcheck_dl_place_of_context(context);
    walk->interrupted = context;
    walk->stack = dwcheck_dl_stack_at(walk->place.stack_pointer, RED_ZONE, PAGES);
}

/* Goes on from the frame of a signal, whose stack pointer is at what the kernel has saved. The row says the same by
   expressions, where there is one. The frame's address must be one that may be read. */
static bool leave_signal(struct dwcheck_dl_walk *walk, dwcheck_dl_frame *frame) {
    const uint64_t saved = walk->place.stack_pointer + DWCHECK_DL_CONTEXT;
    if (walk->place.key != walk->place.address || !dwcheck_dl_is_return_of_signal(walk->place.address)) return false;
    if (saved % _Alignof(ucontext_t) != 0 || !dwcheck_dl_has(&walk->stack, saved, DWCHECK_DL_CONTEXT_LENGTH)) return false;
    dwcheck_dl_go_to(walk, (const ucontext_t *)(uintptr_t)saved);
    frame->cfa = walk->place.stack_pointer;
    return true;
}

/* ---- rows with expressions */

/* Calls of dwcheck_step_in. The status is NONE if no row covers the frame. */
struct step {
    const struct dwcheck_dl_module *module;
    dwcheck_cursor *cursor;
    const dwcheck_block *stack;
    dwcheck_frame *frame;
    uint32_t status;
};

/* If the section doesn't cover the frame, the cursor is where it was. */
static uint32_t step_by(const struct step *step, const struct dwcheck_dl_section *section) {
    dwcheck_fault fault;
    const dwcheck_module module = dwcheck_dl_as_module(section);
    const dwcheck_header header = dwcheck_dl_as_header(section);
    const dwcheck_state state = dwcheck_dl_state_of(step->stack);
    const uint32_t stage = step->cursor->stage;
    const uint64_t address = step->cursor->address - (stage == DWCHECK_CURSOR_CALLER);
    const uint32_t status = dwcheck_step_in(&module, &header, step->cursor, &state, step->frame, &fault);
    if (status == DWCHECK_DONE && step->cursor->stage == DWCHECK_CURSOR_CALLER)
        dwcheck_dl_pass_pushed(&module, &header, address, step->stack, step->cursor, step->frame);
    if (status != DWCHECK_DONE || step->cursor->stage != DWCHECK_STOP_NOT_COVERED + 1) return status;
    step->cursor->stage = stage;
    return DWCHECK_NONE;
}

static void step(void *data) {
    struct step *step = data;
    const struct dwcheck_dl_section *section = dwcheck_dl_first_section(step->module);
    step->status = DWCHECK_NONE;
    for (; section != NULL && step->status == DWCHECK_NONE; section = dwcheck_dl_next_section(step->module, section))
        step->status = step_by(step, section);
    /* Also where a row doesn't say that the return address is signed, as in walks by kept rows. */
    if (step->status == DWCHECK_DONE) step->cursor->address = dwcheck_dl_unsigned(step->cursor->address);
}

/* Whether the walk is at the frame that a signal has interrupted, all of whose registers are known. */
static bool is_interrupted(const struct dwcheck_dl_walk *walk) {
    return walk->interrupted != NULL && walk->place.key == walk->place.address + 1
           && dwcheck_dl_address_of_context(walk->interrupted) == walk->place.address;
}

/* Places the cursor at the frame, with the registers that are known: those of a place; and if the frame was
   interrupted, all of them: the CFA of code that probes a large frame's pages is a scratch register plus an offset. */
static uint32_t place_cursor(const struct dwcheck_dl_walk *walk, dwcheck_cursor *cursor) {
    const uint32_t status = dwcheck_dl_cursor_at_place(cursor, &walk->place);
    if (status == DWCHECK_DONE && is_interrupted(walk)) dwcheck_dl_know_context(cursor, walk->interrupted);
    return status;
}

/* Whether a step has led to no place, since a word can't be read: that of the return address, or on aarch64, where this
   may be below it, another one. */
static bool lacks_memory(const dwcheck_cursor *cursor) {
    dwcheck_dl_place place;
    return cursor->stage == DWCHECK_STOP_RETURN_UNREADABLE + 1
           || (DWCHECK_DL_SAVES_BELOW && dwcheck_dl_place_of_cursor(&place, cursor) == DWCHECK_NO_PLACE);
}

/* Up to where the memory is to go on, so that a step can read a word that it couldn't: what is below the return address
   may still be needed, so it grows page by page there. */
static uint64_t next_end(const dwcheck_block *stack, uint64_t cfa) {
    const uint64_t end = stack->base + stack->length;
    return DWCHECK_DL_SAVES_BELOW && end < cfa && cfa - end > PAGE ? end + WORD : cfa;
}

/* Takes a step by the row that a look-up finds. If a word can't be read, which may be because the memory goes on after
   the block, tries again with more memory. */
static uint32_t step_cursor(struct dwcheck_dl_walk *walk, const struct dwcheck_dl_module *module, dwcheck_cursor *cursor,
                            dwcheck_frame *frame) {
    struct step call = {module, cursor, &walk->stack, frame, DWCHECK_NO_MEMORY};
    for (;; call.status = DWCHECK_NO_MEMORY) {
        const uint32_t status = place_cursor(walk, cursor);
        if (status != DWCHECK_DONE) return status;
        if (!dwcheck_dl_call(dwcheck_dl_room_of(walk), step, &call) || call.status != DWCHECK_DONE) return call.status;
        if (!lacks_memory(cursor) || frame->cfa.kind != DWCHECK_ANSWER_VALUE) return DWCHECK_DONE;
        if (!dwcheck_dl_extend(&walk->stack, next_end(&walk->stack, frame->cfa.value))) return DWCHECK_DONE;
    }
}

/* Goes to where the cursor is after a step. */
static void go_to_cursor(struct dwcheck_dl_walk *walk, const dwcheck_cursor *cursor) {
    walk->interrupted = NULL;
    if (dwcheck_dl_place_of_cursor(&walk->place, cursor) != DWCHECK_DONE) {
        end(walk, DWCHECK_STOP_RETURN_UNREADABLE);
        return;
    }
    if (cursor->stage == DWCHECK_CURSOR_EXACT) walk->stack = dwcheck_dl_stack_at(walk->place.stack_pointer, RED_ZONE, PAGES);
}

static void step_by_row(struct dwcheck_dl_walk *walk, dwcheck_dl_frame *frame) {
    struct dwcheck_dl_module room;
    dwcheck_cursor cursor;
    dwcheck_frame at;
    const struct dwcheck_dl_module *module = NULL;
    uint32_t status = DWCHECK_NONE;
    if (walk->place.key != 0) module = dwcheck_dl_module_of(walk->cache, &walk->confirmed, walk->place.key - 1, &room);
    if (module != NULL && dwcheck_dl_first_section(module) != NULL) status = step_cursor(walk, module, &cursor, &at);
    if (status != DWCHECK_DONE) {
        dwcheck_dl_step_without_row(walk, frame, status);
        return;
    }
    if (at.cfa.kind == DWCHECK_ANSWER_VALUE) frame->cfa = at.cfa.value;
    if (cursor.stage > DWCHECK_CURSOR_CALLER) end(walk, cursor.stage - 1);
    else go_to_cursor(walk, &cursor);
}

void dwcheck_dl_step(struct dwcheck_dl_walk *walk, dwcheck_dl_frame *frame) {
    *frame = (dwcheck_dl_frame){.place = walk->place};
    if (!leave_signal(walk, frame)) step_by_row(walk, frame);
}

/* ---- frames without a row */

/* Whether a row is for the call before a return address. */
static bool has_row(struct dwcheck_dl_walk *walk, uint64_t return_address) {
    if (walk->cache == NULL) return false;
    const int slot = dwcheck_dl_confirm(walk->cache, &walk->confirmed, return_address - 1);
    return slot >= 0 && dwcheck_dl_fill(walk->cache, slot, return_address - 1, dwcheck_dl_room_of(walk)) == DWCHECK_DONE;
}

/* Where no row says who the caller is, this library has a policy of its own: without being asked, it guesses only after
   a call that has done nothing else. The tools in Rust (rust/dwcheck-elf/src/process/without_row.rs) also guess by
   frame pointers and by return addresses of code without rows, and mark each such frame. Addresses alone have no mark,
   so users would take a guess for a frame. */

/* Whether the thread was interrupted where a call has done nothing but to say where it returns to. Then goes back to
   the frame that made the call. It may have called what is no function: a null pointer, or any other address where
   nothing can be executed; or code without a frame. In place of a call there may have been a return to a wrong address:
   so the address must follow a call, and be one of code with rows, unless it was a null pointer. */
static bool leave_call(struct dwcheck_dl_walk *walk) {
    const bool is_null = walk->place.address < PAGE;
    if (!is_interrupted(walk)) return false;
    const int pushed = is_null || dwcheck_dl_is_nowhere(walk->interrupted) ? 0 : dwcheck_dl_pushed_without_row(walk->place.address);
    if (pushed < 0) return false;
    const uint64_t address = dwcheck_dl_return_address(&walk->place, &walk->stack);
    if (!dwcheck_dl_follows_call(address) || (!is_null && !has_row(walk, address))) return false;
    dwcheck_dl_leave_call(&walk->place, address);
    walk->place.stack_pointer += (uint64_t)pushed;
    walk->mark = DWCHECK_DL_BY_CALL;
    return true;
}

/* Goes to the caller that the frame pointer leads to, as in code that keeps a chain of frames: the word there is the
   caller's frame pointer, and the next one is the return address. */
static bool follow_frame_pointer(struct dwcheck_dl_walk *walk) {
    enum { MOST = 1 << 20 };
    dwcheck_dl_place *place = &walk->place;
    const uint64_t at = *dwcheck_dl_frame_pointer(place);
    if (!(walk->options & DWCHECK_DL_FRAME_POINTERS) || at % WORD != 0 || at - place->stack_pointer > MOST) return false;
    if (!dwcheck_dl_has(&walk->stack, at, 2 * WORD)) return false;
    const uint64_t caller = dwcheck_dl_unsigned(word_at(at + WORD));
    if (!dwcheck_dl_is_readable(caller)) return false;
    dwcheck_dl_continue_at(place, caller);
    *dwcheck_dl_frame_pointer(place) = word_at(at);
    place->stack_pointer = dwcheck_dl_stack_of_caller(place->stack_pointer, at, word_at(at));
    walk->mark = DWCHECK_DL_BY_FRAME_POINTER;
    return true;
}

void dwcheck_dl_step_without_row(struct dwcheck_dl_walk *walk, dwcheck_dl_frame *frame, uint32_t status) {
    *frame = (dwcheck_dl_frame){.place = walk->place};
    const bool is_code = dwcheck_dl_is_readable(walk->place.address);
    if (status == DWCHECK_NONE
        && (leave_call(walk) || (is_code && leave_signal(walk, frame)) || follow_frame_pointer(walk)))
        return;
    end(walk, status == DWCHECK_NONE        ? DWCHECK_STOP_NOT_COVERED
              : status == DWCHECK_NO_MEMORY ? DWCHECK_DL_STOP_STACK
                                            : DWCHECK_DL_STOP_REFUSED);
}
