/* The registers of aarch64: where contexts and places of walks have them, and their names. */
#include "../../dl/processor.h"
#include "../unwind.h"

/* They lie in the order of libunwind's numbers. */
uint64_t *dwcheck_unwind_in_context(ucontext_t *context, int number) {
    if (number < 0 || number >= REGISTERS) return NULL;
    mcontext_t *registers = &context->uc_mcontext;
    if (number < SP) return (uint64_t *)&registers->regs[number];
    return (uint64_t *)(number == SP ? &registers->sp : number == IP ? &registers->pc : &registers->pstate);
}

/* In a frame that has made a call, x30 isn't known: the call has put its own return address there. */
dwcheck_dl_place dwcheck_unwind_place_of(const struct frame *frame) {
    const uint64_t *values = frame->values;
    dwcheck_dl_place place = {.address = values[IP], .key = frame->key, .stack_pointer = values[SP]};
    for (int number = FIRST_KEPT; number < LR; number++) place.x19_to_x30[number - FIRST_KEPT] = values[number];
    if (frame->key != values[IP]) place.x19_to_x30[LR - FIRST_KEPT] = values[LR];
    return place;
}

void dwcheck_unwind_go_to(struct frame *frame, const dwcheck_dl_place *place) {
    uint64_t *values = frame->values;
    values[IP] = place->address, frame->key = place->key, values[SP] = place->stack_pointer;
    for (int number = FIRST_KEPT; number <= LR; number++) values[number] = place->x19_to_x30[number - FIRST_KEPT];
    frame->known &= ~(UINT64_C(1) << LR);
    if (place->key != place->address) frame->known |= UINT64_C(1) << LR;
    frame->guess = UNW_GUESS_NONE, frame->is_interrupted = 0;
}

/* For libunwind it is the frame of the code to which a handler returns. */
bool dwcheck_unwind_is_signal_frame(const struct frame *frame) {
    const uint64_t address = frame->values[IP];
    return dwcheck_unwind_can_read(address, 1) && dwcheck_dl_is_return_of_signal(address);
}

const char *unw_regname(unw_regnum_t number) {
    static const char *const names[] = {
        "x0",  "x1",  "x2",  "x3",  "x4",  "x5",  "x6",  "x7",  "x8",  "x9",  "x10", "x11", "x12", "x13", "x14", "x15", "ip0",
        "ip1", "x18", "x19", "x20", "x21", "x22", "x23", "x24", "x25", "x26", "x27", "x28", "fp",  "lr",  "sp",  "pc"};
    static const char *const others[] = {
        "v0",  "v1",  "v2",  "v3",  "v4",  "v5",  "v6",  "v7",  "v8",  "v9",  "v10", "v11", "v12", "v13", "v14", "v15", "v16",
        "v17", "v18", "v19", "v20", "v21", "v22", "v23", "v24", "v25", "v26", "v27", "v28", "v29", "v30", "v31", "fpsr", "fpcr"};
    if (number >= 0 && number < PSTATE) return names[number];
    return number >= UNW_AARCH64_V0 && number <= UNW_AARCH64_FPCR ? others[number - UNW_AARCH64_V0] : "???";
}

int unw_is_fpreg(int number) { return number >= UNW_AARCH64_V0 && number <= UNW_AARCH64_V31; }
