/* For tests: the sections of an ELF file of 64 bits. */
#include <elf.h>
#include <fcntl.h>
#include <stdlib.h>
#include <string.h>
#include <sys/mman.h>
#include <sys/stat.h>
#include <unistd.h>

/* An ELF file of 64 bits that is mapped. */
struct file { const uint8_t *bytes; size_t length; };

static struct file file_at(const char *path) {
    int descriptor = open(path, O_RDONLY);
    struct stat status;
    if (descriptor < 0 || fstat(descriptor, &status)) abort();
    void *bytes = mmap(NULL, (size_t)status.st_size, PROT_READ, MAP_PRIVATE, descriptor, 0);
    if (bytes == MAP_FAILED) abort();
    close(descriptor);
    return (struct file){bytes, (size_t)status.st_size};
}

/* The section of a name; NULL if there is none. */
static inline const Elf64_Shdr *find_section(const struct file *file, const char *name) {
    const Elf64_Ehdr *header = (const void *)file->bytes;
    const Elf64_Shdr *sections = (const void *)(file->bytes + header->e_shoff);
    if (header->e_shnum == 0) return NULL;
    const char *names = (const char *)file->bytes + sections[header->e_shstrndx].sh_offset;
    for (int i = 0; i < header->e_shnum; i++)
        if (!strcmp(names + sections[i].sh_name, name)) return &sections[i];
    return NULL;
}

static inline const Elf64_Shdr *section_named(const struct file *file, const char *name) {
    const Elf64_Shdr *section = find_section(file, name);
    if (!section) abort();
    return section;
}
