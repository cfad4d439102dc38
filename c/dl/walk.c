/* Walks with kept rows, which are filled in where they are missing. */
#define _GNU_SOURCE
#include "walk.h"
#include "memory.h"

#include <string.h>

static void begin(struct dwcheck_dl_walk *walk, uint32_t options) {
    walk->cache = dwcheck_dl_claim();
    if (walk->cache == NULL) dwcheck_dl_begin_reading();
    walk->confirmed = walk->filled = 0;
    walk->has_room = false;
    walk->options = options;
    walk->stop = DWCHECK_STOP_LIMIT;
    walk->mark = DWCHECK_DL_BY_ROW;
    walk->interrupted = NULL;
    walk->is_over = false;
}

void dwcheck_dl_start(struct dwcheck_dl_walk *walk, const dwcheck_dl_place *place, uint32_t options) {
    begin(walk, options);
    walk->place = *place;
    walk->stack = dwcheck_dl_own_stack(place->stack_pointer);
}

void dwcheck_dl_start_from(struct dwcheck_dl_walk *walk, const ucontext_t *context, uint32_t options) {
    begin(walk, options);
    dwcheck_dl_go_to(walk, context);
}

void dwcheck_dl_finish(struct dwcheck_dl_walk *walk) {
    if (walk->cache == NULL) dwcheck_dl_end_reading();
    else dwcheck_dl_release(walk->cache);
}

struct dwcheck_dl_room dwcheck_dl_room_of(struct dwcheck_dl_walk *walk) {
    if (!walk->has_room) walk->room = dwcheck_dl_room();
    walk->has_room = true;
    return walk->room;
}

/* Gives the cache what is missing for a frame: first its module is confirmed, and if the row is still missing then, it
   is looked up. Returns DWCHECK_DONE, and then it isn't missing any more; DWCHECK_NO_PLACE at the frame of a signal,
   whose row needs no look-up; DWCHECK_NONE if no row covers the frame; or why the row can't be read, which is
   DWCHECK_NO_MEMORY if the stack is too small for that. */
static uint32_t supply(struct dwcheck_dl_walk *walk, uint64_t address, uint64_t key) {
    if (key == 0) return DWCHECK_NONE;
    const int slot = dwcheck_dl_slot_of(walk->cache, walk->confirmed, key - 1);
    if (slot < 0)
        return dwcheck_dl_confirm(walk->cache, &walk->confirmed, key - 1) < 0 ? DWCHECK_NONE : DWCHECK_DONE;
    if (key == walk->filled) return DWCHECK_NONE;
    if (key == address && dwcheck_dl_is_return_of_signal(address)) return DWCHECK_NO_PLACE;
    walk->filled = key;
    return dwcheck_dl_fill(walk->cache, slot, key - 1, dwcheck_dl_room_of(walk));
}

static void end(struct dwcheck_dl_walk *walk, uint32_t stop) {
    walk->stop = stop;
    walk->is_over = true;
}

/* Does what is needed after kept rows have led to `count` frames. Returns how many frames there are now. */
static size_t go_on(struct dwcheck_dl_walk *walk, dwcheck_dl_frame *frames, size_t count, uint32_t stop) {
    uint32_t status;
    switch (stop) {
    case DWCHECK_STOP_LIMIT:
        return count;
    case DWCHECK_STOP_MISSING:
        if (walk->place.key == 0) break; /* a return address of 0 leads to no caller */
        status = supply(walk, walk->place.address, walk->place.key);
        if (status == DWCHECK_DONE) return count;
        if (status == DWCHECK_NO_PLACE) dwcheck_dl_step(walk, &frames[count]);
        else dwcheck_dl_step_without_row(walk, &frames[count], status);
        return count + 1;
    case DWCHECK_STOP_OTHER:
        dwcheck_dl_step(walk, &frames[count]);
        return count + 1;
    case DWCHECK_STOP_RETURN_UNREADABLE: /* the memory may go on after the block */
        if (!dwcheck_dl_extend(&walk->stack, dwcheck_dl_end_of_saved(&walk->cache->rows, walk->confirmed, &frames[count - 1]))) break;
        walk->place = frames[count - 1].place;
        return count - 1;
    }
    end(walk, stop == DWCHECK_STOP_MISSING ? DWCHECK_STOP_NOT_COVERED : stop);
    return count;
}

size_t dwcheck_dl_next(struct dwcheck_dl_walk *walk, dwcheck_dl_frame *frames, size_t room) {
    size_t count = 0;
    walk->mark = DWCHECK_DL_BY_ROW;
    while (count < room && !walk->is_over && walk->mark == DWCHECK_DL_BY_ROW) {
        size_t more = 0;
        uint32_t stop = DWCHECK_STOP_OTHER;
        if (walk->cache != NULL)
            dwcheck_dl_rows_walk_frames(&walk->cache->rows, walk->confirmed, &walk->place, &walk->stack, frames + count,
                                        room - count, &more, &stop);
        count = go_on(walk, frames, count + more, stop);
    }
    return count;
}

/* Goes on to the frame that comes after `count` others, whose addresses are known already, to have its registers. */
static void catch_up(struct dwcheck_dl_walk *walk, size_t count) {
    dwcheck_dl_frame *frames = walk->cache->found.frames;
    while (count > 0 && !walk->is_over) {
        const size_t wanted = count < DWCHECK_DL_FRAMES ? count : DWCHECK_DL_FRAMES;
        count -= dwcheck_dl_next(walk, frames, wanted);
    }
}

/* Walks by kept rows as far as they lead, from `place`. Writes the addresses, and why there are no more. */
static size_t addresses_from(struct dwcheck_dl_walk *walk, dwcheck_place *place, void **addresses, size_t room,
                             uint32_t *stop) {
    uint64_t *found = walk->cache->found.addresses;
    size_t count = 0, more;
    do {
        const size_t wanted = room - count < DWCHECK_DL_CHUNK ? room - count : DWCHECK_DL_CHUNK;
        dwcheck_dl_rows_walk(&walk->cache->rows, walk->confirmed, place, &walk->stack, found, wanted, &more, stop);
        memcpy(addresses + count, found, more * sizeof *found);
        count += more;
    } while ((*stop == DWCHECK_STOP_LIMIT && count < room)
             || (*stop == DWCHECK_STOP_MISSING && supply(walk, place->address, place->key) == DWCHECK_DONE));
    return count;
}

size_t dwcheck_dl_pass(struct dwcheck_dl_walk *walk, void **addresses, size_t room) {
    if (walk->cache == NULL || walk->mark != DWCHECK_DL_BY_ROW || !dwcheck_dl_is_own(&walk->stack)) return 0;
    dwcheck_place place = {.address = walk->place.address, .key = walk->place.key, .stack_pointer = walk->place.stack_pointer,
                           .frame_pointer = *dwcheck_dl_frame_pointer(&walk->place)};
    uint32_t stop;
    size_t count = addresses_from(walk, &place, addresses, room, &stop);
    if (stop == DWCHECK_STOP_LIMIT || stop == DWCHECK_STOP_RETURN_UNDEFINED) {
        end(walk, stop);
    } else {
        if (stop == DWCHECK_STOP_RETURN_UNREADABLE) count--; /* to see why */
        walk->filled = 0;
        catch_up(walk, count);
    }
    return count;
}
