/* A walk up a stack of the calling thread, by the rows of modules where they lie. It takes no lock and allocates
   nothing. */
#ifndef DWCHECK_DL_WALK_H
#define DWCHECK_DL_WALK_H

#include "caches.h"
#include "processor.h"
#include "room.h"

struct dwcheck_dl_walk {
    struct dwcheck_dl_cache *cache; /* NULL if other walks have all of them: then each frame is looked up */
    uint64_t confirmed;             /* the slots of the modules that this walk has found */
    dwcheck_dl_place place;   /* the frame that comes next */
    dwcheck_block stack;            /* what may be read */
    uint64_t filled;                /* the key whose row was looked up last */
    struct dwcheck_dl_room room;    /* for look-ups, once has_room is set */
    bool has_room;
    uint32_t options, stop;
    uint8_t mark;                   /* how the frame at `place` was found (DWCHECK_DL_BY_) */
    const ucontext_t *interrupted;  /* that of the frame that a signal has interrupted last; NULL if none */
    bool is_over;
};

/* Begins a walk at a frame of the calling function's stack, or where a signal interrupted the thread. The walk has to
   be ended, which gives its cache back. */
DWCHECK_DL_HIDDEN void dwcheck_dl_start(struct dwcheck_dl_walk *walk, const dwcheck_dl_place *place, uint32_t options);
DWCHECK_DL_HIDDEN void dwcheck_dl_start_from(struct dwcheck_dl_walk *walk, const ucontext_t *context, uint32_t options);
DWCHECK_DL_HIDDEN void dwcheck_dl_finish(struct dwcheck_dl_walk *walk);

/* What is known of the stack on which look-ups are made. */
DWCHECK_DL_HIDDEN struct dwcheck_dl_room dwcheck_dl_room_of(struct dwcheck_dl_walk *walk);

/* Goes on by some frames, and writes them. Returns how many, at most `room`, which isn't 0. It may be fewer although
   the walk isn't over; if it is, `stop` says why. `frames` isn't on the stack that is read. */
DWCHECK_DL_HIDDEN size_t dwcheck_dl_next(struct dwcheck_dl_walk *walk, dwcheck_dl_frame *frames, size_t room);

/* The same for addresses alone, and faster: as long as rows suffice, on the thread's own stack if its bounds are
   known. */
DWCHECK_DL_HIDDEN size_t dwcheck_dl_pass(struct dwcheck_dl_walk *walk, void **addresses, size_t room);

/* ---- frames that a kept row doesn't lead from (steps.c) */

/* The place where a signal interrupted a thread. */
DWCHECK_DL_HIDDEN void dwcheck_dl_go_to(struct dwcheck_dl_walk *walk, const ucontext_t *context);

/* Goes on from a frame whose row can't be kept, or from one that no row covers, or whose row can't be read for this
   reason. Writes the frame. */
DWCHECK_DL_HIDDEN void dwcheck_dl_step(struct dwcheck_dl_walk *walk, dwcheck_dl_frame *frame);
DWCHECK_DL_HIDDEN void dwcheck_dl_step_without_row(struct dwcheck_dl_walk *walk, dwcheck_dl_frame *frame,
                                                   uint32_t status);

#endif
