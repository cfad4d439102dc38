/* The calls that walk: from where they are made, or from where a signal interrupted the thread. */
#define _GNU_SOURCE
#include "walk.h"

#include <string.h>

#if !defined(__x86_64__) && !defined(__aarch64__)
#error "dwcheck-dl is for x86-64 and aarch64"
#endif

/* dwcheck_dl_backtrace, dwcheck_dl_walk and dwcheck_dl_frames are in assembler (x86_64.c, aarch64.c), and call these
   with the place of their caller. */
#define CALLED_HERE __attribute__((used, visibility("hidden")))
CALLED_HERE int dwcheck_dl_backtrace_here(void **addresses, int size, const dwcheck_dl_place *here);
CALLED_HERE int dwcheck_dl_walk_here(dwcheck_dl_request *request, void **addresses, int size,
                                     const dwcheck_dl_place *here);
CALLED_HERE int dwcheck_dl_frames_here(dwcheck_dl_request *request, dwcheck_dl_frame *frames, int size,
                                       const dwcheck_dl_place *here);

/* Goes on by some frames. Returns how many there are now, and marks the first of them. */
static size_t more_frames(struct dwcheck_dl_walk *walk, dwcheck_dl_frame *frames, size_t room, uint8_t *marks) {
    const uint8_t mark = walk->mark;
    const size_t count = dwcheck_dl_next(walk, frames, room);
    if (marks != NULL) memset(marks, DWCHECK_DL_BY_ROW, count);
    if (marks != NULL && count != 0) marks[0] = mark;
    return count;
}

/* Where a walk writes frames, which isn't on the stack that it reads; without a cache below that. */
struct frames {
    dwcheck_dl_frame one, *first;
    size_t room;
};

static void set_frames(struct frames *frames, const struct dwcheck_dl_walk *walk) {
    frames->first = walk->cache != NULL ? walk->cache->found.frames : &frames->one;
    frames->room = walk->cache != NULL ? DWCHECK_DL_FRAMES : 1;
}

static size_t least(size_t one, size_t other) { return one < other ? one : other; }

static size_t write_addresses(struct dwcheck_dl_walk *walk, void **addresses, size_t size, uint8_t *marks) {
    struct frames frames;
    size_t count = 0;
    set_frames(&frames, walk);
    while (count < size && !walk->is_over) {
        const size_t passed = dwcheck_dl_pass(walk, addresses + count, size - count);
        if (marks != NULL) memset(marks + count, DWCHECK_DL_BY_ROW, passed);
        count += passed;
        if (count == size || walk->is_over) break;
        const size_t more = more_frames(walk, frames.first, least(size - count, frames.room), marks ? marks + count : NULL);
        for (size_t i = 0; i < more; i++) addresses[count++] = (void *)(uintptr_t)frames.first[i].place.address;
    }
    return count;
}

static size_t write_frames(struct dwcheck_dl_walk *walk, dwcheck_dl_frame *written, size_t size, uint8_t *marks) {
    struct frames frames;
    size_t count = 0;
    set_frames(&frames, walk);
    while (count < size && !walk->is_over) {
        const size_t more = more_frames(walk, frames.first, least(size - count, frames.room), marks ? marks + count : NULL);
        memcpy(written + count, frames.first, more * sizeof *written);
        count += more;
    }
    return count;
}

static void start(struct dwcheck_dl_walk *walk, const dwcheck_dl_request *request, const dwcheck_dl_place *here) {
    if (request->context != NULL) dwcheck_dl_start_from(walk, request->context, request->options);
    else dwcheck_dl_start(walk, here, request->options);
}

int dwcheck_dl_walk_here(dwcheck_dl_request *request, void **addresses, int size, const dwcheck_dl_place *here) {
    struct dwcheck_dl_walk walk;
    start(&walk, request, here);
    const size_t count = write_addresses(&walk, addresses, size > 0 ? (size_t)size : 0, request->marks);
    dwcheck_dl_finish(&walk);
    request->stop = walk.stop;
    return (int)count;
}

int dwcheck_dl_frames_here(dwcheck_dl_request *request, dwcheck_dl_frame *frames, int size,
                           const dwcheck_dl_place *here) {
    struct dwcheck_dl_walk walk;
    start(&walk, request, here);
    const size_t count = write_frames(&walk, frames, size > 0 ? (size_t)size : 0, request->marks);
    dwcheck_dl_finish(&walk);
    request->stop = walk.stop;
    return (int)count;
}

int dwcheck_dl_backtrace_here(void **addresses, int size, const dwcheck_dl_place *here) {
    dwcheck_dl_request request = {.context = NULL};
    return dwcheck_dl_walk_here(&request, addresses, size, here);
}

int dwcheck_dl_backtrace_from(const void *context, void **addresses, int size) {
    dwcheck_dl_request request = {.context = context};
    return context == NULL ? 0 : dwcheck_dl_walk_here(&request, addresses, size, NULL);
}
