/* Frames that no row covers. The policy is libunwind's: an entry of a PLT has pushed nothing; where no code can be, a
   call has just pushed its return address; else rbp is a frame pointer. unw_is_guess says of a frame that it was found
   so. */
#include "../unwind.h"

/* Continues at a caller of which no other registers are known. */
static int go_to(struct frame *frame, uint64_t address, uint64_t stack_pointer, uint32_t guess) {
    frame->values[RIP] = address;
    frame->key = address;
    frame->values[RSP] = stack_pointer;
    frame->guess = guess;
    frame->is_interrupted = 0;
    return 1;
}

/* jmp *disp32(%rip); push $imm32; jmp rel32 */
static bool is_in_plt(const struct word_reader *memory, uint64_t address) {
    uint64_t first, second;
    return memory->read(memory->data, address, &first) && memory->read(memory->data, address + sizeof first, &second)
           && (first & 0xffff) == 0x25ff && (first >> 48 & 0xff) == 0x68 && (second >> 24 & 0xff) == 0xe9;
}

/* Whether there is memory at an address. A word that begins on a multiple of its size lies in one page. */
static bool is_readable(const struct word_reader *memory, uint64_t address) {
    uint64_t word;
    return memory->read(memory->data, address & -sizeof word, &word);
}

/* Nothing has been pushed since the call: the registers are the caller's. */
static int after_call(struct frame *frame, struct place *places, const struct word_reader *memory, uint32_t guess) {
    uint64_t stack_pointer = frame->values[RSP], address;
    if (!memory->read(memory->data, stack_pointer, &address)) return -UNW_EUNSPEC;
    if (guess == UNW_GUESS_CALL && !is_readable(memory, address)) return -UNW_ENOINFO;
    if (places) places[RIP] = (struct place){stack_pointer, PLACE_MEMORY};
    return go_to(frame, address, stack_pointer + sizeof address, guess);
}

static int by_frame_pointer(struct frame *frame, struct place *places, const struct word_reader *memory) {
    enum { FARTHEST = 0x4000 };
    uint64_t pointer = frame->values[RBP], stack_pointer = frame->values[RSP], saved, address;
    if (!(frame->known >> RBP & 1) || pointer < stack_pointer || pointer - stack_pointer > FARTHEST)
        return dwcheck_unwind_end(frame);
    if (!memory->read(memory->data, pointer, &saved) || !memory->read(memory->data, pointer + sizeof saved, &address))
        return dwcheck_unwind_end(frame);
    for (int i = 0; places && i < REGISTERS; i++) places[i] = (struct place){0};
    if (places) places[RBP] = (struct place){pointer, PLACE_MEMORY}, places[RIP] = (struct place){pointer + sizeof saved, PLACE_MEMORY};
    frame->values[RBP] = saved;
    frame->known = 1 << RBP | 1 << RSP | 1 << RIP;
    if (address == 0) return dwcheck_unwind_end(frame);
    return go_to(frame, address, pointer + sizeof saved + sizeof address, UNW_GUESS_FRAME_POINTER);
}

int dwcheck_unwind_guess(struct frame *frame, struct place *places, const struct word_reader *memory) {
    if (is_in_plt(memory, frame->values[RIP])) return after_call(frame, places, memory, UNW_GUESS_PLT);
    if (!is_readable(memory, frame->values[RIP]) && after_call(frame, places, memory, UNW_GUESS_CALL) > 0) return 1;
    return by_frame_pointer(frame, places, memory);
}
