/* For the examples `attach` and `core`: the modules and the stacks of another process, whose memory a
   dwcheck_reader reads. They are for x86-64 and aarch64. */
#include <dwcheck.h>
#include <sys/user.h>

/* Adds the module whose ELF header is at the address `base`, if it has an .eh_frame section. */
void add_module(dwcheck_process *process, const dwcheck_reader *reader, uint64_t base);

/* Prints the frames of a stack, given the registers of its innermost frame, and which bits of return addresses may have a
   signature. */
void print_stack(const dwcheck_process *process, const dwcheck_reader *reader, const struct user_regs_struct *registers,
                 uint64_t signed_bits);
