/* What libunwind's own libraries for ptrace and core files import, and perf where it is built for .debug_frame: the
   names, so that such a program starts. Each call answers that there is no information. */
#include "unwind.h"

#include <sys/types.h>

int UNW_OBJ(dwarf_find_unwind_table)(void *, unw_addr_space_t, char *, unw_word_t, unw_word_t, unw_word_t);
int UNW_OBJ(dwarf_find_debug_frame)(int, unw_dyn_info_t *, unw_word_t, unw_word_t, const char *, unw_word_t, unw_word_t);
int UNW_ARCH_OBJ(get_elf_image)(void *, pid_t, unw_word_t, unsigned long *, unsigned long *, char *, size_t);
void UNW_ARCH_OBJ(get_exe_image_path)(char *);

int UNW_OBJ(dwarf_find_unwind_table)(void *image, unw_addr_space_t space, char *path, unw_word_t segment,
                                      unw_word_t place, unw_word_t address) {
    (void)image, (void)space, (void)path, (void)segment, (void)place, (void)address;
    return -UNW_ENOINFO;
}

/* Returns what was found before. */
int UNW_OBJ(dwarf_find_debug_frame)(int found, unw_dyn_info_t *table, unw_word_t address, unw_word_t place, const char *path,
                                     unw_word_t start, unw_word_t end) {
    (void)table, (void)address, (void)place, (void)path, (void)start, (void)end;
    return found;
}

int UNW_ARCH_OBJ(get_elf_image)(void *image, pid_t process, unw_word_t address, unsigned long *segment, unsigned long *place,
                           char *path, size_t size) {
    (void)image, (void)process, (void)address, (void)segment, (void)place, (void)path, (void)size;
    return -UNW_ENOINFO;
}

void UNW_ARCH_OBJ(get_exe_image_path)(char *path) { path[0] = '\0'; }
