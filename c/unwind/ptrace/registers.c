/* The registers of a process that is stopped by ptrace. */
#include "ptrace.h"

#include <elf.h>
#include <errno.h>
#include <stddef.h>
#include <string.h>
#include <sys/ptrace.h>
#include <sys/uio.h>
#include <sys/user.h>

/* Where ptrace has them, by their DWARF numbers. */
extern const int _UPT_reg_offset[UNW_REG_LAST + 1];

#if defined(__x86_64__)

#define AT(field) (int)offsetof(struct user_regs_struct, field)
enum { KNOWN = UNW_REG_LAST + 1 };
const int _UPT_reg_offset[UNW_REG_LAST + 1] = {AT(rax), AT(rdx), AT(rcx), AT(rbx), AT(rsi), AT(rdi), AT(rbp), AT(rsp), AT(r8),
                                               AT(r9),  AT(r10), AT(r11), AT(r12), AT(r13), AT(r14), AT(r15), AT(rip)};

static int read_register(pid_t pid, uint64_t place, unw_word_t *value) {
    errno = 0;
    const long word = ptrace(PTRACE_PEEKUSER, pid, (void *)place, NULL);
    if (errno) return -1;
    *value = (unw_word_t)word;
    return 0;
}

static int write_register(pid_t pid, uint64_t place, unw_word_t value) {
    return ptrace(PTRACE_POKEUSER, pid, (void *)place, (void *)value) < 0 ? -1 : 0;
}

#else

#define AT(number) (int)((number) * sizeof(uint64_t))
enum { KNOWN = UNW_AARCH64_PSTATE + 1 };
_Static_assert(sizeof(struct user_regs_struct) == KNOWN * sizeof(uint64_t), "the registers are in the order of their numbers");
const int _UPT_reg_offset[UNW_REG_LAST + 1] = {
    AT(0),  AT(1),  AT(2),  AT(3),  AT(4),  AT(5),  AT(6),  AT(7),  AT(8),  AT(9),  AT(10), AT(11),
    AT(12), AT(13), AT(14), AT(15), AT(16), AT(17), AT(18), AT(19), AT(20), AT(21), AT(22), AT(23),
    AT(24), AT(25), AT(26), AT(27), AT(28), AT(29), AT(30), AT(31), AT(32), AT(33)};

/* They are read and written all at once. */
static int all_registers(enum __ptrace_request request, pid_t pid, struct user_regs_struct *registers) {
    struct iovec whole = {registers, sizeof *registers};
    return ptrace(request, pid, (void *)NT_PRSTATUS, &whole) < 0 || whole.iov_len != sizeof *registers ? -1 : 0;
}

static int read_register(pid_t pid, uint64_t place, unw_word_t *value) {
    struct user_regs_struct registers;
    if (all_registers(PTRACE_GETREGSET, pid, &registers) < 0) return -1;
    memcpy(value, (const char *)&registers + place, sizeof *value);
    return 0;
}

static int write_register(pid_t pid, uint64_t place, unw_word_t value) {
    struct user_regs_struct registers;
    if (all_registers(PTRACE_GETREGSET, pid, &registers) < 0) return -1;
    memcpy((char *)&registers + place, &value, sizeof value);
    return all_registers(PTRACE_SETREGSET, pid, &registers);
}

#endif

int _UPT_access_reg(unw_addr_space_t space, unw_regnum_t number, unw_word_t *value, int is_write, void *context) {
    const struct process *process = context;
    (void)space;
    if (!process || !value || number < 0 || number >= KNOWN) return -UNW_EBADREG;
    const uint64_t place = (uint64_t)_UPT_reg_offset[number];
    const int result = is_write ? write_register(process->pid, place, *value) : read_register(process->pid, place, value);
    return result < 0 ? -UNW_EBADREG : 0;
}
