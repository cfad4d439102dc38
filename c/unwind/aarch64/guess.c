/* Frames that no row covers. Where an entry of a PLT, or a call of what is no code, has left everything as it was, the
   return address is in x30, as libunwind supposes of all such frames. Else x29 leads to the caller's x29 and the return
   address. unw_is_guess says of a frame that it was found so. */
#include "../../dl/processor.h"
#include "../unwind.h"

enum { INSTRUCTION = 4 };

static bool is_readable(const struct word_reader *memory, uint64_t address) {
    uint64_t word;
    return memory->read(memory->data, address & -sizeof word, &word);
}

static bool follows_call(const struct word_reader *memory, uint64_t address) {
    uint32_t before;
    return dwcheck_unwind_instruction_at(memory, address - INSTRUCTION, &before) && dwcheck_dl_is_call(before);
}

/* How many bytes the code at an address has pushed, if it is known; else -1. Of this process, that of the vDSO is known too. */
static int pushed_at(const struct word_reader *memory, uint64_t address) {
    enum { NEAR = DWCHECK_DL_NEAR };
    uint32_t code[2 * NEAR + 1];
    if (memory == &dwcheck_unwind_own_memory) return dwcheck_dl_pushed_without_row(address);
    for (int i = 0; i <= 2 * NEAR; i++)
        if (!dwcheck_unwind_instruction_at(memory, address + (uint64_t)(i - NEAR) * INSTRUCTION, &code[i])) return -1;
    return dwcheck_dl_pushed_in_linkage_table(code + NEAR);
}

/* Continues at a caller. */
static int go_to(struct frame *frame, uint64_t address, uint64_t stack_pointer, uint32_t guess) {
    frame->values[IP] = frame->key = address;
    frame->values[SP] = stack_pointer;
    frame->known &= ~CHANGED_BY_CALLS;
    frame->guess = guess;
    frame->is_interrupted = 0;
    return 1;
}

/* The registers but for x30 are the caller's. `pushed` bytes are on the stack. */
static int after_call(struct frame *frame, struct place *places, const struct word_reader *memory, uint64_t pushed,
                      uint32_t guess) {
    if (!(frame->known >> LR & 1)) return -UNW_EUNSPEC;
    const uint64_t address = dwcheck_dl_unsigned(frame->values[LR]);
    if (!follows_call(memory, address)) return -UNW_ENOINFO;
    if (places) places[IP] = places[LR], places[LR] = (struct place){0};
    return go_to(frame, address, frame->values[SP] + pushed, guess);
}

static int by_frame_pointer(struct frame *frame, struct place *places, const struct word_reader *memory) {
    enum { FARTHEST = 0x4000 };
    const uint64_t pointer = frame->values[FP];
    uint64_t saved, link;
    if (!(frame->known >> FP & 1) || pointer % sizeof saved != 0 || pointer < frame->values[SP] || pointer - frame->values[SP] > FARTHEST)
        return dwcheck_unwind_end(frame);
    if (!memory->read(memory->data, pointer, &saved) || !memory->read(memory->data, pointer + sizeof saved, &link))
        return dwcheck_unwind_end(frame);
    for (int i = 0; places && i < REGISTERS; i++) places[i] = (struct place){0};
    if (places) {
        places[FP] = (struct place){pointer, PLACE_MEMORY};
        places[LR] = places[IP] = (struct place){pointer + sizeof saved, PLACE_MEMORY};
    }
    const uint64_t address = dwcheck_dl_unsigned(link);
    const uint64_t stack_pointer = dwcheck_dl_stack_of_caller(frame->values[SP], pointer, saved);
    frame->values[FP] = saved;
    frame->known = UINT64_C(1) << FP | UINT64_C(1) << SP | UINT64_C(1) << IP;
    if (address == 0) return dwcheck_unwind_end(frame);
    return go_to(frame, address, stack_pointer, UNW_GUESS_FRAME_POINTER);
}

int dwcheck_unwind_guess(struct frame *frame, struct place *places, const struct word_reader *memory) {
    const uint64_t address = frame->values[IP];
    const bool has_code = is_readable(memory, address), is_exact = frame->key != address;
    const int pushed = has_code ? pushed_at(memory, address) : -1;
    if (pushed >= 0 && after_call(frame, places, memory, (uint64_t)pushed, UNW_GUESS_PLT) > 0) return 1;
    if ((!has_code || is_exact) && after_call(frame, places, memory, 0, UNW_GUESS_CALL) > 0) return 1;
    return by_frame_pointer(frame, places, memory);
}
