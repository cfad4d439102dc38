/* What differs between the processors that libunwind's calls are for: the numbers of registers, and what the files of
   x86_64/ and aarch64/ have. */
#ifndef DWCHECK_UNWIND_PROCESSOR_H
#define DWCHECK_UNWIND_PROCESSOR_H

#include "dwcheck-unwind.h"

#include <stdbool.h>
#include <stddef.h>

/* Registers by their DWARF numbers, which are libunwind's too. IP is that of a frame's address, and SAVED_CONTEXT how
   far above the stack pointer of the code to which handlers return the kernel's context lies, of which walks read
   CONTEXT_LENGTH bytes. ROW_REGISTERS are those that a row may restore besides the address, and PLACED_REGISTERS those
   whose places unw_get_save_loc says. A walk with kept rows needs the KEPT_REGISTERS, and in a frame that has made a
   call, those that are CHANGED_BY_CALLS aren't the frame's. A guess needs the frame pointer, and in a frame that has
   made no call, those registers too. */
#if defined(__aarch64__)
enum { X0 = 0, FIRST_KEPT = 19, FP = 29, LR = 30, SP = 31, IP = 32, PSTATE = 33, REGISTERS = 34, ROW_REGISTERS = 32 };
enum { SAVED_CONTEXT = 128, CONTEXT_LENGTH = offsetof(unw_context_t, uc_mcontext.__reserved) };
#define CHANGED_BY_CALLS (UINT64_C(1) << LR)
#define KEPT_REGISTERS (((UINT64_C(1) << LR) - (UINT64_C(1) << FIRST_KEPT)) | UINT64_C(1) << SP | UINT64_C(1) << IP)
#else
enum { RBX = 3, RBP = 6, RSP = 7, R12 = 12, R13 = 13, R14 = 14, R15 = 15, RIP = 16, REGISTERS = 17, ROW_REGISTERS = 16, SP = RSP, IP = RIP,
       FP = RBP };
enum { SAVED_CONTEXT = 0, CONTEXT_LENGTH = offsetof(ucontext_t, uc_mcontext) + sizeof(gregset_t) };
#define CHANGED_BY_CALLS UINT64_C(0)
#define KEPT_REGISTERS (UINT64_C(1) << RBX | UINT64_C(1) << RBP | UINT64_C(1) << RSP | UINT64_C(1) << R12 | UINT64_C(1) << R13 \
                        | UINT64_C(1) << R14 | UINT64_C(1) << R15 | UINT64_C(1) << RIP)
#endif
#define ALL_REGISTERS ((UINT64_C(1) << REGISTERS) - 1)

#if defined(__aarch64__)
#define PLACED_REGISTERS ALL_REGISTERS
/* The register that libunwind takes for another one. */
static inline int register_of(int number) { return number == LR ? IP : number; }
/* Whether a landing pad gets an argument in a register. */
static inline bool is_argument(int number) { return number >= X0 && number < X0 + UNW_TDEP_NUM_EH_REGS; }
/* Whether an address without an FDE is a function. On x86-64 some functions where a stack begins have none, so
   libunwind gives them one address. */
enum { IS_FUNCTION_WITHOUT_ROW = 0 };
#else
#define PLACED_REGISTERS KEPT_REGISTERS
static inline int register_of(int number) { return number == UNW_X86_64_CFA ? RSP : number; }
static inline bool is_argument(int number) { return number == UNW_X86_64_RAX || number == UNW_X86_64_RDX; }
enum { IS_FUNCTION_WITHOUT_ROW = 1 };
#endif

#endif
