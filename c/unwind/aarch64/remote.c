/* Steps of other processes on aarch64: rows aren't kept, but the records of functions are. Frames of signals have no rows: the
   code to which handlers return is in the kernel's vDSO, and is known by its instructions. */
#include "../../dl/processor.h"
#include "../remote/remote.h"

enum { INSTRUCTION = 4 };

bool dwcheck_unwind_instruction_at(const struct word_reader *memory, uint64_t address, uint32_t *code) {
    uint64_t word;
    const uint64_t within = address % sizeof word;
    if (address % INSTRUCTION != 0 || !memory->read(memory->data, address - within, &word)) return false;
    *code = (uint32_t)(word >> 8 * within);
    return true;
}

int dwcheck_remote_step_by_keeping(const struct row_step *step) { return (void)step, NO_KEPT_ROW; }

int dwcheck_remote_step_by_kept_row(struct remote_cursor *walk, struct words *words, const struct facts *facts) {
    return (void)walk, (void)words, (void)facts, NO_KEPT_ROW;
}

/* Whether a handler returns to the frame's address, which then is no interrupted one; or an error, if the code can't be read. */
static int is_return_of_handler(const struct frame *frame, struct words *words) {
    const struct word_reader memory = {dwcheck_remote_read, words};
    uint32_t code;
    if (frame->key != frame->values[IP] || frame->key % INSTRUCTION != 0) return 0;
    for (uint64_t i = 0; i < 2; i++) {
        if (!dwcheck_unwind_instruction_at(&memory, frame->key + i * INSTRUCTION, &code)) return dwcheck_remote_error(words);
        if (code != dwcheck_dl_return_of_signal[i]) return 0;
    }
    return 1;
}

/* All registers are in the kernel's context, to which the stack pointer leads, in the order of libunwind's numbers. Of them, what
   a frame must have is asked for. */
int dwcheck_remote_leave_handler(struct remote_cursor *walk, struct words *words) {
    struct frame *frame = &walk->frame;
    const int is_return = is_return_of_handler(frame, words);
    if (is_return <= 0) return is_return < 0 ? is_return : -UNW_ENOINFO;
    const uint64_t registers = frame->values[SP] + SAVED_CONTEXT + offsetof(ucontext_t, uc_mcontext.regs);
    for (uint64_t i = 0; i < REGISTERS; i++) walk->places[i] = (struct place){registers + i * sizeof(uint64_t), PLACE_MEMORY};
    frame->known = 0;
    if (!dwcheck_remote_fetch(walk, words, IP) || !dwcheck_remote_fetch(walk, words, SP)) return dwcheck_remote_error(words);
    frame->key = frame->values[IP] + 1;
    frame->guess = UNW_GUESS_NONE, frame->is_interrupted = 1;
    return 1;
}

/* For libunwind it is the frame of the code to which a handler returns. */
int dwcheck_remote_is_signal_frame(const struct remote_cursor *walk) {
    struct words words;
    dwcheck_remote_begin(&words, walk->space, walk->context);
    return is_return_of_handler(&walk->frame, &words);
}
