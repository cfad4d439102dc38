/* A state for a walk on x86-64 or aarch64. */
#define _GNU_SOURCE
#include "state.h"

#if defined(__aarch64__)

static const uint8_t known[] = {0xff, 0xff, 0xff, 0xff};
static const uint16_t kept[] = {19, 20, 21, 22, 23, 24, 25, 26, 27, 28, 29, 30};
enum { STACK_POINTER = 31 };

void copy_registers(const ucontext_t *context, uint64_t registers[REGISTERS]) {
    for (int i = 0; i < STACK_POINTER; i++) registers[i] = context->uc_mcontext.regs[i];
    registers[STACK_POINTER] = context->uc_mcontext.sp;
    registers[PC] = context->uc_mcontext.pc;
}

#else

static const uint8_t known[] = {0xff, 0xff, 0x01};
static const uint16_t kept[] = {3, 6, 12, 13, 14, 15};
enum { STACK_POINTER = 7 };

void copy_registers(const ucontext_t *context, uint64_t registers[REGISTERS]) {
    static const int places[REGISTERS] = {REG_RAX, REG_RDX, REG_RCX, REG_RBX, REG_RSI, REG_RDI, REG_RBP, REG_RSP, REG_R8,
                                          REG_R9,  REG_R10, REG_R11, REG_R12, REG_R13, REG_R14, REG_R15, REG_RIP};
    for (int i = 0; i < REGISTERS; i++) registers[i] = (uint64_t)context->uc_mcontext.gregs[places[i]];
}

#endif

dwcheck_state state_of(const uint64_t registers[REGISTERS], const dwcheck_block *stack) {
    dwcheck_state state = {0};
    state.contents = registers;
    state.contents_length = REGISTERS;
    state.known = known;
    state.known_length = sizeof known;
    state.blocks = stack;
    state.blocks_length = 1;
    state.kept = kept;
    state.kept_length = sizeof kept / sizeof *kept;
    state.stack_pointer = STACK_POINTER;
    state.has_stack_pointer = 1;
    return state;
}
