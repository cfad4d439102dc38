/* Frames of contexts, and where the registers of a cursor's frame are saved. Steps don't note that, since few programs
   ask for it: a walk from the context to the frame finds it. */
#include "unwind.h"

#include <string.h>

void dwcheck_unwind_frame_of(struct frame *frame, const ucontext_t *context, bool is_exact) {
    for (int i = 0; i < REGISTERS; i++) frame->values[i] = *dwcheck_unwind_in_context((ucontext_t *)context, i);
    frame->key = frame->values[IP] + is_exact;
    frame->known = ALL_REGISTERS;
    frame->guess = UNW_GUESS_NONE;
    frame->is_interrupted = frame->is_last = 0;
    frame->signal_context = 0;
}

/* What libunwind 1.6 for aarch64 has of it ends before `extra`. */
void dwcheck_unwind_put_place(struct place place, unw_save_loc_t *location) {
    memset(location, 0, offsetof(unw_save_loc_t, extra));
    if (place.kind == PLACE_MEMORY) location->type = UNW_SLT_MEMORY, location->u.addr = place.at;
    if (place.kind == PLACE_REGISTER) location->type = UNW_SLT_REG, location->u.regnum = (unw_regnum_t)place.at;
}

bool dwcheck_unwind_places(const struct cursor *cursor, struct place places[REGISTERS]) {
    struct frame frame;
    struct memory memory = {0};
    if (cursor->has_no_places) return false;
    dwcheck_unwind_frame_of(&frame, cursor->context, cursor->is_exact);
    for (int i = 0; i < REGISTERS; i++)
        places[i] = (struct place){(uint64_t)dwcheck_unwind_in_context(cursor->context, i), PLACE_MEMORY};
    struct cache *cache = cursor->steps ? dwcheck_unwind_claim() : NULL;
    if (cursor->steps && !cache) return false;
    uint64_t steps = 0;
    while (steps < cursor->steps && dwcheck_unwind_step(cache, &frame, &memory, places) > 0) steps++;
    if (cache) dwcheck_unwind_give_back(cache);
    return steps == cursor->steps;
}
