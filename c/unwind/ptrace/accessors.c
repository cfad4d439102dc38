/* The accessors of libunwind-ptrace: the words of a stopped process, its registers, and how it continues. */
#include "ptrace.h"

#include <errno.h>
#include <stddef.h>
#include <stdlib.h>
#include <string.h>
#include <sys/ptrace.h>

void *_UPT_create(pid_t pid) {
    struct process *process = calloc(1, sizeof *process);
    if (process) process->pid = pid;
    return process;
}

void _UPT_destroy(void *context) { free(context); }

/* Reads a word of the process. */
static int peek(pid_t pid, uint64_t address, unw_word_t *value) {
    errno = 0;
    const long word = ptrace(PTRACE_PEEKDATA, pid, (void *)address, NULL);
    if (errno) return -1;
    *value = (unw_word_t)word;
    return 0;
}

int _UPT_access_mem(unw_addr_space_t space, unw_word_t address, unw_word_t *value, int is_write, void *context) {
    const struct process *process = context;
    (void)space;
    if (!process || !value) return -UNW_EINVAL;
    if (!is_write) return peek(process->pid, address, value) < 0 ? -UNW_EINVAL : 0;
    return ptrace(PTRACE_POKEDATA, process->pid, (void *)address, (void *)*value) < 0 ? -UNW_EINVAL : 0;
}

/* No walk needs one. */
int _UPT_access_fpreg(unw_addr_space_t space, unw_regnum_t number, unw_fpreg_t *value, int is_write, void *context) {
    (void)space, (void)number, (void)value, (void)is_write, (void)context;
    return -UNW_EBADREG;
}

int _UPT_resume(unw_addr_space_t space, unw_cursor_t *cursor, void *context) {
    const struct process *process = context;
    (void)space, (void)cursor;
    if (!process) return -UNW_EINVAL;
    return ptrace(PTRACE_CONT, process->pid, NULL, NULL) < 0 ? -UNW_EINVAL : 0;
}

int _UPT_get_dyn_info_list_addr(unw_addr_space_t space, unw_word_t *address, void *context) {
    (void)space, (void)address, (void)context;
    return -UNW_ENOINFO;
}

/* What _UPT_find_proc_info gives needn't be freed. */
void _UPT_put_unwind_info(unw_addr_space_t space, unw_proc_info_t *info, void *context) { (void)space, (void)info, (void)context; }

bool dwcheck_ptrace_read(pid_t pid, uint64_t address, void *bytes, size_t length) {
    unw_word_t word;
    for (size_t done = 0, part; done < length; done += part) {
        const size_t within = (address + done) % sizeof word;
        part = length - done < sizeof word - within ? length - done : sizeof word - within;
        if (peek(pid, address + done - within, &word) < 0) return false;
        memcpy((char *)bytes + done, (const char *)&word + within, part);
    }
    return true;
}

/* Programs have a copy of it that is as long as libunwind 1.6's: it ends before get_elf_filename. */
struct accessors_of_1_6 {
    int (*find_proc_info)(unw_addr_space_t, unw_word_t, unw_proc_info_t *, int, void *);
    void (*put_unwind_info)(unw_addr_space_t, unw_proc_info_t *, void *);
    int (*get_dyn_info_list_addr)(unw_addr_space_t, unw_word_t *, void *);
    int (*access_mem)(unw_addr_space_t, unw_word_t, unw_word_t *, int, void *);
    int (*access_reg)(unw_addr_space_t, unw_regnum_t, unw_word_t *, int, void *);
    int (*access_fpreg)(unw_addr_space_t, unw_regnum_t, unw_fpreg_t *, int, void *);
    int (*resume)(unw_addr_space_t, unw_cursor_t *, void *);
    int (*get_proc_name)(unw_addr_space_t, unw_word_t, char *, size_t, unw_word_t *, void *);
};
_Static_assert(sizeof(struct accessors_of_1_6) == offsetof(unw_accessors_t, get_elf_filename), "the first accessors");

extern struct accessors_of_1_6 accessors __asm__("_UPT_accessors");
struct accessors_of_1_6 accessors = {
    .find_proc_info = _UPT_find_proc_info, .put_unwind_info = _UPT_put_unwind_info,
    .get_dyn_info_list_addr = _UPT_get_dyn_info_list_addr, .access_mem = _UPT_access_mem, .access_reg = _UPT_access_reg,
    .access_fpreg = _UPT_access_fpreg, .resume = _UPT_resume, .get_proc_name = _UPT_get_proc_name};
