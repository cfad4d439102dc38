/* Reads the section table of the program's own file by system calls alone, so that a signal handler may do it: gcc
   -static links without a segment that leads to .eh_frame. */
#define _GNU_SOURCE
#include "files.h"
#include "prepared.h"

#include <elf.h>
#include <fcntl.h>
#include <string.h>
#include <sys/syscall.h>
#include <unistd.h>

/* Reads bytes of a file at an offset. These calls aren't those of the C library, at which a thread may be cancelled. */
static bool reads(int file, uint64_t offset, void *bytes, size_t length) {
    return syscall(SYS_pread64, file, bytes, length, offset) == (long)length;
}

/* Whether a section of the file is .eh_frame, as loaded. */
static bool is_eh_frame(int file, const ElfW(Shdr) *section, const ElfW(Shdr) *names) {
    static const char wanted[] = ".eh_frame";
    char name[sizeof wanted];
    return section->sh_type != SHT_NOBITS && section->sh_flags & SHF_ALLOC && section->sh_name < names->sh_size
           && reads(file, names->sh_offset + section->sh_name, name, sizeof name) && memcmp(name, wanted, sizeof wanted) == 0;
}

/* Finds .eh_frame in an open file. */
static bool find_section(int file, ElfW(Shdr) *section) {
    ElfW(Ehdr) header;
    ElfW(Shdr) names;
    if (!reads(file, 0, &header, sizeof header) || memcmp(header.e_ident, ELFMAG, SELFMAG) != 0) return false;
    if (header.e_shentsize != sizeof *section || header.e_shstrndx >= header.e_shnum) return false;
    if (!reads(file, header.e_shoff + header.e_shstrndx * sizeof names, &names, sizeof names)) return false;
    for (size_t i = 0; i < header.e_shnum; i++) {
        if (!reads(file, header.e_shoff + i * sizeof *section, section, sizeof *section)) return false;
        if (is_eh_frame(file, section, &names)) return true;
    }
    return false;
}

struct dwcheck_dl_bytes dwcheck_dl_frame_of_program(const struct dl_phdr_info *info) {
    const struct dwcheck_dl_bytes none = {NULL, 0};
    ElfW(Shdr) section;
    const long file = syscall(SYS_openat, AT_FDCWD, DWCHECK_DL_PROGRAM, O_RDONLY | O_CLOEXEC, 0);
    if (file < 0) return none;
    const bool is_found = find_section((int)file, &section);
    syscall(SYS_close, file);
    if (!is_found) return none;
    const uint64_t first = info->dlpi_addr + section.sh_addr, end = dwcheck_dl_end_of_segment(info, first);
    if (end == 0 || section.sh_size > end - first) return none;
    return (struct dwcheck_dl_bytes){(const void *)(uintptr_t)first, section.sh_size};
}
