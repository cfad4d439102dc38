/* Frames of signals. The C library's row for the code to which handlers return says by an expression for each register
   where the kernel has saved it. To evaluate these takes longer than many frames, so this code is known by its bytes,
   and the registers are taken from the kernel's context, to which the stack pointer leads. On aarch64 it is in the
   kernel's vDSO, for which there are no rows. */
#include "../dl/walk.h"
#include "unwind.h"

static bool is_return_of_handler(uint64_t address, bool has_row) {
    return (has_row || dwcheck_unwind_can_read(address, 1)) && dwcheck_dl_is_return_of_signal(address);
}

bool dwcheck_unwind_leave_handler(struct frame *frame, struct memory *memory, struct place *places, bool has_row) {
    const uint64_t saved = frame->values[SP] + SAVED_CONTEXT;
    if (frame->key != frame->values[IP] || !is_return_of_handler(frame->key, has_row)) return false;
    if (!dwcheck_unwind_has(memory, saved, CONTEXT_LENGTH)) return false;
    ucontext_t *context = (void *)saved;
    dwcheck_unwind_frame_of(frame, context, true);
    frame->is_interrupted = 1;
    frame->signal_context = saved;
    for (int i = 0; places && i < REGISTERS; i++)
        places[i] = (struct place){(uint64_t)dwcheck_unwind_in_context(context, i), PLACE_MEMORY};
    return true;
}
