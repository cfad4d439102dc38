/* Shared by the examples: a state for a walk on x86-64 or aarch64. */
#ifndef STATE_H
#define STATE_H

#include <dwcheck.h>
#include <stdint.h>
#include <ucontext.h>

/* The number of registers, what .eh_frame sections are, and the place of the address of the instruction that comes next. On
   x86-64, DWARF's register numbers are 0 to 15 for the general-purpose registers, and 16 for the return address. On
   aarch64, they are 0 to 30 for x0 to x30, and 31 for sp; the address, for which there is no such number, comes after
   them. */
#if defined(__aarch64__)
enum { REGISTERS = 33, PC = 32, KIND = DWCHECK_EH_FRAME_AARCH64 };
#else
enum { REGISTERS = 17, PC = 16, KIND = DWCHECK_EH_FRAME };
#endif

/* Copies the registers of a context to `registers`, in the order of DWARF's numbers. */
void copy_registers(const ucontext_t *context, uint64_t registers[REGISTERS]);

/* A state with these registers, this block of memory, and the ABI of the processor. */
dwcheck_state state_of(const uint64_t registers[REGISTERS], const dwcheck_block *stack);

#endif
