/* The registers of x86-64: where contexts and places of walks have them, and their names. */
#include "../unwind.h"

#include <pthread.h>

/* The places of registers in a context, by their DWARF numbers. */
static const uint8_t in_context[REGISTERS] = {REG_RAX, REG_RDX, REG_RCX, REG_RBX, REG_RSI, REG_RDI, REG_RBP, REG_RSP, REG_R8,
                                              REG_R9,  REG_R10, REG_R11, REG_R12, REG_R13, REG_R14, REG_R15, REG_RIP};

uint64_t *dwcheck_unwind_in_context(ucontext_t *context, int number) {
    return number < 0 || number >= REGISTERS ? NULL : (uint64_t *)&context->uc_mcontext.gregs[in_context[number]];
}

dwcheck_dl_place dwcheck_unwind_place_of(const struct frame *frame) {
    const uint64_t *values = frame->values;
    return (dwcheck_dl_place){values[RIP], frame->key, values[RSP], values[RBX], values[RBP],
                              values[R12], values[R13], values[R14], values[R15]};
}

void dwcheck_unwind_go_to(struct frame *frame, const dwcheck_dl_place *place) {
    uint64_t *values = frame->values;
    values[RIP] = place->address, frame->key = place->key, values[RSP] = place->stack_pointer;
    values[RBX] = place->rbx, values[RBP] = place->rbp, values[R12] = place->r12;
    values[R13] = place->r13, values[R14] = place->r14, values[R15] = place->r15;
    frame->guess = UNW_GUESS_NONE, frame->is_interrupted = 0;
}

void dwcheck_unwind_at_fork(void (*child)(void)) { pthread_atfork(NULL, NULL, child); }

/* For libunwind it is the frame that the signal has interrupted. */
bool dwcheck_unwind_is_signal_frame(const struct frame *frame) { return frame->is_interrupted; }

const char *unw_regname(unw_regnum_t number) {
    static const char *const names[REGISTERS] = {"RAX", "RDX", "RCX", "RBX", "RSI", "RDI", "RBP", "RSP", "R8",
                                                 "R9",  "R10", "R11", "R12", "R13", "R14", "R15", "RIP"};
    return number >= 0 && number < REGISTERS ? names[number] : "???";
}

int unw_is_fpreg(int number) {
    (void)number;
    return 0;
}
