/* The names of functions of a process, by the symbol tables of the files that it has mapped. */
#include "../unwind.h"
#include "ptrace.h"

#include <elf.h>
#include <fcntl.h>
#include <stdio.h>
#include <string.h>
#include <sys/mman.h>
#include <sys/stat.h>
#include <sys/sysmacros.h>
#include <unistd.h>

struct file { const uint8_t *bytes; size_t length; };

/* Whether an open file is the one that is mapped. Some file systems give a mapping another device than the file. */
static bool is_mapped(const struct stat *status, const struct mapping *mapping) {
    return S_ISREG(status->st_mode) && status->st_size > 0 && status->st_ino == mapping->inode;
}

/* Maps a file, if it is the one of a mapping. */
static struct file map_file(const char *path, const struct mapping *mapping) {
    struct file file = {NULL, 0};
    struct stat status;
    const int descriptor = open(path, O_RDONLY | O_CLOEXEC);
    if (descriptor >= 0 && fstat(descriptor, &status) == 0 && is_mapped(&status, mapping)) {
        void *bytes = mmap(NULL, (size_t)status.st_size, PROT_READ, MAP_PRIVATE, descriptor, 0);
        if (bytes != MAP_FAILED) file = (struct file){bytes, (size_t)status.st_size};
    }
    if (descriptor >= 0) close(descriptor);
    return file;
}

/* The file of a mapping, as the process sees its path, or else as this process does. */
static struct file file_of(pid_t pid, const struct mapping *mapping) {
    char path[PATH_MAX + 32];
    if (mapping->path[0] != '/') return (struct file){NULL, 0};
    snprintf(path, sizeof path, "/proc/%d/root%s", (int)pid, mapping->path);
    const struct file file = map_file(path, mapping);
    return file.length ? file : map_file(mapping->path, mapping);
}

/* The address as linked of a byte of the file; or false. */
static bool as_linked(struct file file, uint64_t offset, uint64_t *address) {
    const Elf64_Ehdr *header = (const void *)file.bytes;
    if (file.length < sizeof *header || memcmp(file.bytes, ELFMAG, SELFMAG) != 0) return false;
    const uint64_t size = (uint64_t)header->e_phnum * sizeof(Elf64_Phdr);
    if (header->e_phentsize != sizeof(Elf64_Phdr) || header->e_phoff % 8 != 0 || header->e_phoff > file.length
        || size > file.length - header->e_phoff)
        return false;
    const Elf64_Phdr *segments = (const void *)(file.bytes + header->e_phoff);
    for (unsigned i = 0; i < header->e_phnum; i++) {
        *address = offset - segments[i].p_offset + segments[i].p_vaddr;
        if (segments[i].p_type == PT_LOAD && offset - segments[i].p_offset < segments[i].p_filesz) return true;
    }
    return false;
}

int _UPT_get_proc_name(unw_addr_space_t space, unw_word_t address, char *name, size_t size, unw_word_t *offset, void *context) {
    const struct process *process = context;
    struct mapping mapping;
    uint64_t linked;
    (void)space;
    if (!process || !name || size == 0) return -UNW_EINVAL;
    name[0] = '\0';
    if (!dwcheck_ptrace_mapping(process->pid, address, &mapping)) return -UNW_ENOINFO;
    const struct file file = file_of(process->pid, &mapping);
    if (file.length == 0) return -UNW_ENOINFO;
    int result = -UNW_ENOINFO;
    if (as_linked(file, address - mapping.first + mapping.offset, &linked))
        result = dwcheck_unwind_symbol(file.bytes, file.length, linked, name, size, offset);
    munmap((void *)file.bytes, file.length);
    return result;
}
