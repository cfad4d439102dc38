/* The name of a function, by the symbol tables of an ELF file. As in libunwind, it is that of the nearest function at or
   before the address. */
#include "../dl/image.h"
#include "unwind.h"

#include <elf.h>
#include <link.h>
#include <string.h>

/* The bytes of a file. */
typedef struct dwcheck_dl_bytes bytes;

static bool is_inside(bytes all, uint64_t offset, uint64_t length) { return offset <= all.length && length <= all.length - offset; }

/* The sections of an ELF file; NULL if it has none. */
static const ElfW(Shdr) *sections_of(bytes file, size_t *count) {
    const ElfW(Ehdr) *header = (const void *)file.first;
    if (file.length < sizeof *header || memcmp(file.first, ELFMAG, SELFMAG) != 0) return NULL;
    if (header->e_ident[EI_CLASS] != ELFCLASS64 || header->e_shentsize != sizeof(ElfW(Shdr)) || header->e_shoff % 8 != 0)
        return NULL;
    if (!is_inside(file, header->e_shoff, (uint64_t)header->e_shnum * sizeof(ElfW(Shdr)))) return NULL;
    *count = header->e_shnum;
    return (const void *)(file.first + header->e_shoff);
}

/* A function that is near an address: how far before it, and its name in the file. */
struct nearest { uint64_t distance; const char *name; size_t room; };

static bool is_function(const ElfW(Sym) *symbol) {
    return ELF64_ST_TYPE(symbol->st_info) == STT_FUNC && symbol->st_shndx != SHN_UNDEF;
}

/* Looks through one table for a function that is nearer. */
static void look_through(bytes file, const ElfW(Shdr) *table, const ElfW(Shdr) *names, uint64_t address,
                         struct nearest *nearest) {
    if (!is_inside(file, table->sh_offset, table->sh_size) || !is_inside(file, names->sh_offset, names->sh_size)) return;
    if (table->sh_offset % 8 != 0) return;
    const ElfW(Sym) *symbols = (const void *)(file.first + table->sh_offset);
    for (size_t i = 0; i < table->sh_size / sizeof *symbols; i++) {
        const ElfW(Sym) *symbol = &symbols[i];
        if (!is_function(symbol) || symbol->st_name >= names->sh_size) continue;
        if (address - symbol->st_value >= nearest->distance) continue;
        *nearest = (struct nearest){address - symbol->st_value, (const char *)file.first + names->sh_offset + symbol->st_name,
                                    names->sh_size - symbol->st_name};
    }
}

/* The nearest function in all tables. One that is farther away than the file is long isn't near. */
static struct nearest nearest_in(bytes file, uint64_t address) {
    struct nearest nearest = {file.length, NULL, 0};
    size_t count = 0;
    const ElfW(Shdr) *sections = sections_of(file, &count);
    for (size_t i = 0; i < count; i++)
        if ((sections[i].sh_type == SHT_SYMTAB || sections[i].sh_type == SHT_DYNSYM) && sections[i].sh_link < count)
            look_through(file, &sections[i], &sections[sections[i].sh_link], address, &nearest);
    return nearest;
}

int dwcheck_unwind_put_name(const char *from, size_t most, char *name, size_t size) {
    size_t length = strnlen(from, most), copied = length < size ? length : size - 1;
    memcpy(name, from, copied);
    name[copied] = '\0';
    return copied == length ? 0 : -UNW_ENOMEM;
}

int dwcheck_unwind_symbol(const uint8_t *file, size_t length, uint64_t address, char *name, size_t size, unw_word_t *offset) {
    const struct nearest nearest = nearest_in((bytes){file, length}, address);
    if (!nearest.name) return -UNW_ENOINFO;
    if (offset) *offset = nearest.distance;
    return dwcheck_unwind_put_name(nearest.name, nearest.room, name, size);
}
