/* Walks: with kept rows, and where these don't do, by steps of a cursor and by guesses. */
#include "unwind.h"

int dwcheck_unwind_end(struct frame *frame) {
    frame->is_last = 1;
    frame->values[IP] = frame->key = 0;
    return 0;
}

/* What a step with kept rows comes to, besides what unw_step returns: another way has to be taken. BY_ROW says that
   there is a row. */
enum { BY_CURSOR = 2, BY_ROW = 3, BY_GUESS = 4 };

/* Takes a step with kept rows. */
static int step_by_rows(struct cache *cache, struct frame *frame, const struct memory *memory, int slot) {
    for (int filled = 0;; filled++) {
        dwcheck_dl_place place = dwcheck_unwind_place_of(frame);
        dwcheck_dl_frame written;
        size_t count;
        uint32_t stop;
        dwcheck_dl_rows_walk_frames(dwcheck_unwind_rows(cache), UINT64_C(1) << slot, &place, memory->blocks, &written, 1, &count,
                                    &stop);
        if (count == 1 && stop == DWCHECK_STOP_LIMIT) {
            dwcheck_unwind_go_to(frame, &place);
            return 1;
        }
        if (count == 1 && stop == DWCHECK_STOP_RETURN_UNDEFINED) return dwcheck_unwind_end(frame);
        if (stop != DWCHECK_STOP_MISSING || filled) return stop == DWCHECK_STOP_OTHER ? BY_ROW : BY_CURSOR;
        uint32_t status = frame->key == 0 ? DWCHECK_NONE : dwcheck_unwind_fill(cache, slot, frame->key - 1);
        if (status == DWCHECK_NONE) return BY_GUESS;
        if (status != DWCHECK_DONE && status != DWCHECK_NO_PLACE) return BY_CURSOR;
    }
}

/* Takes a step in the way that leads to a caller. */
static int step(struct cache *cache, struct frame *frame, struct memory *memory, struct place *places) {
    const int slot = dwcheck_unwind_slot(cache, frame->key - 1);
    const bool is_kept = slot >= 0 && !places && (frame->known & KEPT_REGISTERS) == KEPT_REGISTERS;
    int result = is_kept ? step_by_rows(cache, frame, memory, slot) : BY_CURSOR;
    const bool has_row = result == BY_ROW, is_by_cursor = has_row || result == BY_CURSOR;
    if (is_by_cursor && dwcheck_unwind_leave_handler(frame, memory, places, has_row)) return 1;
    if (is_by_cursor) result = dwcheck_unwind_by_cursor(cache, frame, memory, frame->key, places);
    return result == BY_GUESS || result == -UNW_ENOINFO ? dwcheck_unwind_guess(frame, places, &dwcheck_unwind_own_memory) : result;
}

int dwcheck_unwind_step(struct cache *cache, struct frame *frame, struct memory *memory, struct place *places) {
    if (frame->is_last) return 0;
    const uint64_t before = frame->values[IP], stack_pointer = frame->values[SP];
    dwcheck_unwind_reach(memory, stack_pointer);
    const int result = step(cache, frame, memory, places);
    if (result > 0 && frame->key == 0) return dwcheck_unwind_end(frame); /* where some threads begin; no null call */
    if (result > 0 && frame->values[IP] == before && frame->values[SP] == stack_pointer) return -UNW_EBADFRAME;
    return result;
}

int dwcheck_unwind_step_by(struct cache *cache, struct frame *frame, struct memory *memory, uint64_t key) {
    if (frame->is_last) return 0;
    dwcheck_unwind_reach(memory, frame->values[SP]);
    return dwcheck_unwind_by_cursor(cache, frame, memory, key, NULL);
}

/* ---- many frames at once ---- */

/* A walk that writes addresses: it goes on from `place`, with the rows of `confirmed` slots. `frame` is a frame with
   all its registers, and `passed` frames have been written from it on. */
struct addresses {
    struct cache *cache;
    struct memory memory;
    dwcheck_place place;
    uint64_t confirmed;
    struct frame frame;
    int passed, idle;
};

static void begin(struct addresses *walk, const dwcheck_dl_place *from) {
    for (int i = 0; i < BLOCKS; i++) walk->memory.blocks[i] = (dwcheck_block){0};
    walk->confirmed = dwcheck_unwind_permanent(walk->cache);
    walk->passed = walk->idle = 0;
    walk->frame.known = KEPT_REGISTERS;
    walk->frame.is_last = 0;
    walk->frame.signal_context = 0;
    dwcheck_unwind_go_to(&walk->frame, from);
    walk->place = (dwcheck_place){from->address, from->key, from->stack_pointer, walk->frame.values[FP], 0, 0};
    dwcheck_unwind_reach(&walk->memory, from->stack_pointer);
}

/* Does what a walk has stopped for, so that it can go on: confirms a module, or fills in a row. */
static bool provide(struct addresses *walk) {
    uint64_t address = walk->place.key - 1;
    int slot = walk->place.key == 0 ? -1 : dwcheck_unwind_slot(walk->cache, address);
    if (slot < 0) return false;
    if (walk->confirmed >> slot & 1) {
        uint32_t status = dwcheck_unwind_fill(walk->cache, slot, address);
        return status == DWCHECK_DONE || status == DWCHECK_NO_PLACE;
    }
    walk->confirmed |= UINT64_C(1) << slot;
    return true;
}

/* Goes on to the frame after those that were written, with all registers. Returns whether there is one. */
static bool catch_up(struct addresses *walk) {
    int result = 1;
    for (; walk->passed > 0 && result > 0; walk->passed--)
        result = dwcheck_unwind_step(walk->cache, &walk->frame, &walk->memory, NULL);
    walk->passed = 0;
    return result > 0;
}

/* From the code to which a handler returns the walk goes on without the registers of the frames before. */
static bool leave_handler(struct addresses *walk) {
    struct frame frame = {.known = 0};
    frame.values[IP] = frame.key = walk->place.address, frame.values[SP] = walk->place.stack_pointer;
    if (walk->place.key != walk->place.address) return false;
    if (!dwcheck_unwind_leave_handler(&frame, &walk->memory, NULL, true)) return false;
    walk->frame = frame;
    walk->passed = 0;
    return true;
}

/* Writes the frame where the walk is, takes a step with all registers, and goes on from there. */
static bool step_over(struct addresses *walk, uint32_t stop, void **address) {
    const bool is_written = stop != DWCHECK_STOP_MISSING && stop != DWCHECK_STOP_OTHER;
    *address = is_written ? *address : (void *)walk->place.address;
    if (stop != DWCHECK_STOP_OTHER || !leave_handler(walk)) {
        if (is_written) walk->passed--;
        if (!catch_up(walk) || dwcheck_unwind_step(walk->cache, &walk->frame, &walk->memory, NULL) <= 0) return false;
    }
    const uint64_t *values = walk->frame.values;
    walk->place = (dwcheck_place){values[IP], walk->frame.key, values[SP], values[FP], 0, 0};
    dwcheck_unwind_reach(&walk->memory, walk->place.stack_pointer);
    return true;
}

/* How often in a row a walk may ask for something without writing a frame. */
enum { MOST_IDLE = 8 };

/* Writes one part of the frames, up to where the kept rows don't suffice. Returns whether the walk goes on. */
static bool go_on(struct addresses *walk, void **addresses, int size, int *count) {
    size_t more;
    uint32_t stop;
    dwcheck_dl_rows_walk(dwcheck_unwind_rows(walk->cache), walk->confirmed, &walk->place, walk->memory.blocks,
                         (uint64_t *)addresses, (size_t)size, &more, &stop);
    *count = (int)more;
    walk->passed += (int)more;
    walk->idle = more ? 0 : walk->idle + 1;
    if (stop == DWCHECK_STOP_LIMIT || stop == DWCHECK_STOP_RETURN_UNDEFINED || walk->idle > MOST_IDLE) return false;
    if (stop == DWCHECK_STOP_MISSING && walk->place.key == 0) return false; /* where some threads begin */
    if (stop == DWCHECK_STOP_MISSING && provide(walk)) return true;
    bool is_written = stop != DWCHECK_STOP_MISSING && stop != DWCHECK_STOP_OTHER;
    if (!is_written && *count == size) return false;
    bool goes_on = step_over(walk, stop, &addresses[is_written ? *count - 1 : *count]);
    if (!is_written) ++*count;
    walk->idle = 0;
    return goes_on;
}

int dwcheck_unwind_addresses(void **addresses, int size, const dwcheck_dl_place *from) {
    struct addresses walk;
    int count = 0, more;
    if (size <= 0 || !(walk.cache = dwcheck_unwind_claim())) return 0;
    begin(&walk, from);
    for (bool goes_on = true; goes_on && count < size; count += more)
        goes_on = go_on(&walk, addresses + count, size - count, &more);
    dwcheck_unwind_give_back(walk.cache);
    return count;
}
