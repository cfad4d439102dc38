/* Reads the files of modules: their section tables, and whether a file is still the one that was loaded. */
#define _GNU_SOURCE
#include "files.h"
#include "memory.h"

#include <elf.h>
#include <fcntl.h>
#include <stdlib.h>
#include <string.h>
#include <sys/mman.h>
#include <sys/stat.h>
#include <unistd.h>

typedef struct dwcheck_dl_bytes bytes;

/* Opens a regular file. Returns -1 if it can't. */
static int open_file(const char *name) {
    struct stat status;
    int file = open(name, O_RDONLY | O_CLOEXEC | O_NONBLOCK); /* for a FIFO it would wait */
    if (file < 0 || (fstat(file, &status) == 0 && S_ISREG(status.st_mode))) return file;
    close(file);
    return -1;
}

/* Reads bytes of a file. A file that isn't mapped may be shortened meanwhile: then there are fewer. */
static bool reads(int file, uint64_t offset, void *bytes, size_t length) {
    uint8_t *at = bytes;
    while (length > 0) {
        const ssize_t count = pread(file, at, length, (off_t)offset);
        if (count <= 0) return false;
        at += count, offset += (size_t)count, length -= (size_t)count;
    }
    return true;
}

/* Whether the name of a section is the one that is wanted. */
static bool has_name(int file, const ElfW(Shdr) *section, const ElfW(Shdr) *names, const char *wanted) {
    enum { MOST = 32 };
    char name[MOST];
    const size_t size = strlen(wanted) + 1;
    return size <= MOST && section->sh_name < names->sh_size && names->sh_size - section->sh_name >= size
           && reads(file, names->sh_offset + section->sh_name, name, size) && memcmp(name, wanted, size) == 0;
}

/* Finds the section of an ELF file that has this name, if it isn't compressed. */
static bool find_section(int file, const char *wanted, ElfW(Shdr) *section) {
    ElfW(Ehdr) header;
    ElfW(Shdr) names;
    if (!reads(file, 0, &header, sizeof header) || header.e_ident[EI_CLASS] != ELFCLASS64) return false;
    if (header.e_shentsize != sizeof *section || header.e_shstrndx >= header.e_shnum) return false;
    if (!reads(file, header.e_shoff + header.e_shstrndx * sizeof names, &names, sizeof names)) return false;
    for (size_t i = 0; i < header.e_shnum; i++) {
        if (!reads(file, header.e_shoff + i * sizeof *section, section, sizeof *section)) return false;
        if (section->sh_type != SHT_NOBITS && !(section->sh_flags & SHF_COMPRESSED) && has_name(file, section, &names, wanted))
            return true;
    }
    return false;
}

/* Whether memory is as the file is from an offset on. Memory that can't be read isn't. */
static bool is_same(int file, uint64_t offset, uint64_t first, uint64_t length) {
    enum { PART = 1024 }; /* of a page, so that it can be read or can't */
    uint8_t part[PART];
    for (uint64_t at = 0, count; at < length; at += count) {
        count = PART - (first + at) % PART;
        if (count > length - at) count = length - at;
        if (dwcheck_dl_is_unreadable(first + at) || !reads(file, offset + at, part, count)) return false;
        if (memcmp(part, (const void *)(uintptr_t)(first + at), count) != 0) return false;
    }
    return true;
}

/* Whether the segments of this type that are writable and executable as `flags` say are in memory as they are
   in the file. */
static bool has_same(int file, const struct dl_phdr_info *info, uint32_t type, uint32_t flags) {
    for (size_t i = 0; i < info->dlpi_phnum; i++) {
        const ElfW(Phdr) *segment = &info->dlpi_phdr[i];
        uint64_t first = info->dlpi_addr + segment->p_vaddr, end = dwcheck_dl_end_of_segment(info, first);
        if (segment->p_type == type && (segment->p_flags & (PF_W | PF_X)) == flags && end != 0
            && segment->p_filesz <= end - first && !is_same(file, segment->p_offset, first, segment->p_filesz))
            return false;
    }
    return true;
}

/* Whether the file has a build id where it is in memory. */
static bool has_id(int file, const struct dl_phdr_info *info, bytes id) {
    for (size_t i = 0; i < info->dlpi_phnum; i++) {
        const ElfW(Phdr) *segment = &info->dlpi_phdr[i];
        const uint64_t within = (uintptr_t)id.first - info->dlpi_addr - segment->p_vaddr;
        if (segment->p_type == PT_NOTE && within < segment->p_filesz)
            return is_same(file, segment->p_offset + within, (uintptr_t)id.first, id.length);
    }
    return false;
}

/* Whether a file is the one that was loaded: its segments and its notes are those in memory. */
static bool is_loaded(int file, const struct dl_phdr_info *info) {
    ElfW(Ehdr) header;
    size_t size = info->dlpi_phnum * sizeof *info->dlpi_phdr;
    return reads(file, 0, &header, sizeof header) && memcmp(header.e_ident, ELFMAG, SELFMAG) == 0
           && header.e_phnum == info->dlpi_phnum && is_same(file, header.e_phoff, (uintptr_t)info->dlpi_phdr, size)
           && has_same(file, info, PT_NOTE, 0);
}

int dwcheck_dl_open_file(const struct dl_phdr_info *info) {
    int file = -1;
    if (info->dlpi_name[0] == 0) file = open_file(DWCHECK_DL_PROGRAM);
    else if (strchr(info->dlpi_name, '/')) file = open_file(info->dlpi_name); /* the vDSO has no file, and its name no folder */
    if (file < 0 || is_loaded(file, info)) return file;
    close(file);
    return -1;
}

struct dwcheck_dl_bytes dwcheck_dl_map_file(const struct dl_phdr_info *info) {
    bytes mapped = {NULL, 0};
    struct stat status;
    const int file = dwcheck_dl_open_file(info);
    if (file < 0) return mapped;
    if (fstat(file, &status) == 0 && status.st_size > 0) {
        void *first = mmap(NULL, (size_t)status.st_size, PROT_READ, MAP_PRIVATE, file, 0);
        if (first != MAP_FAILED) mapped = (bytes){first, (size_t)status.st_size};
    }
    close(file);
    return mapped;
}

uint32_t dwcheck_dl_debug_frame_of(int file, const struct dl_phdr_info *info, bytes id, uint8_t **frame, size_t *length) {
    ElfW(Shdr) section;
    struct stat status;
    if (!find_section(file, ".debug_frame", &section) || section.sh_size == 0) return DWCHECK_NONE;
    if (!(id.length != 0 ? has_id(file, info, id) : has_same(file, info, PT_LOAD, PF_X))) return DWCHECK_NONE;
    if (fstat(file, &status) != 0 || section.sh_size > (uint64_t)status.st_size) return DWCHECK_NONE;
    if ((*frame = malloc(section.sh_size)) == NULL) return DWCHECK_NO_MEMORY;
    *length = section.sh_size;
    if (reads(file, section.sh_offset, *frame, *length)) return DWCHECK_DONE;
    free(*frame);
    return DWCHECK_NONE;
}
