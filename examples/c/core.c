/* An example program: prints the stack of each thread in a core file of the processor that it runs on. Memory that a step asks for
   comes from the core file, or where that leaves it out, from the file that was mapped there.
   usage: core FILE */
#define _GNU_SOURCE
#include "remote.h"

#include <elf.h>
#include <fcntl.h>
#include <stdio.h>
#include <string.h>
#include <sys/mman.h>
#include <sys/procfs.h>
#include <sys/stat.h>
#include <unistd.h>

/* A core file: its bytes, its segments, and the list of mapped files in its notes. */
struct core {
    const uint8_t *bytes;
    uint64_t length;
    const Elf64_Phdr *segments;
    unsigned count;
    uint64_t mappings, page_size;
    const uint8_t *places; /* three numbers for each mapping */
    const char *names, *names_end; /* a name for each mapping */
    uint64_t signed_bits; /* of return addresses */
};

#if defined(__aarch64__)
enum { MACHINE = EM_AARCH64 };
#else
enum { MACHINE = EM_X86_64 };
#endif

/* A mapping of a file: its addresses, and where they begin in the file, in pages. */
struct mapping { uint64_t first, end, page; };

/* The bytes of the core file at an offset, if it has as many. */
static const uint8_t *bytes_at(const struct core *core, uint64_t offset, uint64_t length) {
    return offset <= core->length && length <= core->length - offset ? core->bytes + offset : NULL;
}

/* The mapping with this number, and the name of its file. */
static const char *mapping_at(const struct core *core, uint64_t number, struct mapping *mapping) {
    const char *name = core->names;
    for (uint64_t i = 0; i < number && name < core->names_end; i++)
        name += strnlen(name, (size_t)(core->names_end - name)) + 1;
    memcpy(mapping, core->places + sizeof *mapping * number, sizeof *mapping);
    return name < core->names_end ? name : NULL;
}

static bool read_file(const struct core *core, uint64_t address, uint8_t *into, size_t length) {
    struct mapping mapping;
    for (uint64_t i = 0; i < core->mappings; i++) {
        const char *name = mapping_at(core, i, &mapping);
        if (!name || address < mapping.first || address >= mapping.end) continue;
        int file = open(name, O_RDONLY | O_CLOEXEC);
        uint64_t at = mapping.page * core->page_size + (address - mapping.first);
        ssize_t read = file < 0 ? -1 : pread(file, into, length, (off_t)at);
        if (file >= 0) close(file);
        return read == (ssize_t)length;
    }
    return false;
}

static bool read_core(void *data, uint64_t address, uint8_t *into, size_t length) {
    const struct core *core = data;
    for (unsigned i = 0; i < core->count; i++) {
        const Elf64_Phdr *segment = &core->segments[i];
        uint64_t within = address - segment->p_vaddr;
        if (segment->p_type != PT_LOAD || within >= segment->p_filesz || length > segment->p_filesz - within) continue;
        const uint8_t *bytes = bytes_at(core, segment->p_offset + within, length);
        return bytes && memcpy(into, bytes, length);
    }
    return read_file(core, address, into, length);
}

/* What is done with the bytes of a note. */
typedef void use_note(struct core *core, const uint8_t *bytes, uint64_t length, void *with);

static void each_note(struct core *core, uint32_t type, use_note *use, void *with) {
    for (unsigned i = 0; i < core->count; i++) {
        uint64_t at = core->segments[i].p_offset, end = at + core->segments[i].p_filesz;
        const Elf64_Nhdr *note;
        while (core->segments[i].p_type == PT_NOTE && at < end && (note = (const void *)bytes_at(core, at, sizeof *note))) {
            uint64_t text = at + sizeof *note + (note->n_namesz + 3) / 4 * 4;
            const uint8_t *bytes = bytes_at(core, text, note->n_descsz);
            if (bytes && note->n_type == type) use(core, bytes, note->n_descsz, with);
            at = text + (note->n_descsz + 3) / 4 * 4;
        }
    }
}

struct adding { dwcheck_process *process; const dwcheck_reader *reader; };

/* Adds the module of each file: its first mapping has its ELF header. */
static void add_files(struct core *core, const uint8_t *bytes, uint64_t length, void *with) {
    const struct adding *adding = with;
    struct mapping mapping;
    const char *name, *last = "";
    uint64_t numbers[2];
    if (length < sizeof numbers) return;
    memcpy(numbers, bytes, sizeof numbers);
    if (numbers[0] > (length - sizeof numbers) / sizeof mapping) return;
    core->mappings = numbers[0];
    core->page_size = numbers[1];
    core->places = bytes + sizeof numbers;
    core->names = (const char *)core->places + sizeof mapping * core->mappings;
    core->names_end = (const char *)bytes + length;
    for (uint64_t i = 0; i < core->mappings && (name = mapping_at(core, i, &mapping)); i++) {
        if (mapping.page != 0 || strcmp(name, last) == 0) continue;
        add_module(adding->process, adding->reader, mapping.first);
        last = name;
    }
}

/* Adds the vDSO, which no file has. */
static void add_vdso(struct core *core, const uint8_t *bytes, uint64_t length, void *with) {
    const struct adding *adding = with;
    Elf64_auxv_t entry;
    (void)core;
    for (uint64_t at = 0; length - at >= sizeof entry; at += sizeof entry) {
        memcpy(&entry, bytes + at, sizeof entry);
        if (entry.a_type == AT_SYSINFO_EHDR) add_module(adding->process, adding->reader, entry.a_un.a_val);
    }
}

struct walk { const dwcheck_process *process; const dwcheck_reader *reader; };

/* The mask for code comes after the one for data. */
static void take_mask(struct core *core, const uint8_t *bytes, uint64_t length, void *with) {
    enum { CODE = sizeof(uint64_t) };
    (void)with;
    if (length >= CODE + sizeof core->signed_bits) memcpy(&core->signed_bits, bytes + CODE, sizeof core->signed_bits);
}

static void print_thread(struct core *core, const uint8_t *bytes, uint64_t length, void *with) {
    const struct walk *walk = with;
    struct elf_prstatus thread;
    struct user_regs_struct registers;
    if (length < sizeof thread) return;
    memcpy(&thread, bytes, sizeof thread);
    memcpy(&registers, &thread.pr_reg, sizeof registers);
    printf("thread %d\n", (int)thread.pr_pid);
    print_stack(walk->process, walk->reader, &registers, core->signed_bits);
}

int main(int count, char **arguments) {
    struct core core = {0};
    struct stat about;
    int file = count == 2 ? open(arguments[1], O_RDONLY | O_CLOEXEC) : -1;
    if (count != 2) return fprintf(stderr, "usage: core FILE\n"), 2;
    if (file < 0 || fstat(file, &about) != 0) return perror(arguments[1]), 1;
    core.length = (uint64_t)about.st_size;
    core.bytes = core.length ? mmap(NULL, core.length, PROT_READ, MAP_PRIVATE, file, 0) : MAP_FAILED;
    bool is_mapped = core.bytes != MAP_FAILED && core.length >= sizeof(Elf64_Ehdr);
    const Elf64_Ehdr *header = is_mapped ? (const void *)core.bytes : NULL;
    bool is_elf = header && memcmp(header->e_ident, ELFMAG, SELFMAG) == 0;
    if (!is_elf || header->e_type != ET_CORE || header->e_machine != MACHINE)
        return fprintf(stderr, "%s: no core file of this processor\n", arguments[1]), 1;
    core.count = header->e_phnum;
    core.segments = (const void *)bytes_at(&core, header->e_phoff, core.count * sizeof *core.segments);
    if (!core.segments) return fprintf(stderr, "%s: cut short\n", arguments[1]), 1;
    const dwcheck_reader reader = {read_core, &core, DWCHECK_LITTLE, 8};
    dwcheck_process process = DWCHECK_CLOSED;
    struct adding adding = {&process, &reader};
    each_note(&core, NT_FILE, add_files, &adding);
    each_note(&core, NT_AUXV, add_vdso, &adding);
    each_note(&core, NT_ARM_PAC_MASK, take_mask, NULL);
    each_note(&core, NT_PRSTATUS, print_thread, &(struct walk){&process, &reader});
    dwcheck_process_close(&process);
    return 0;
}
