/* The search tables of a process's modules, in its memory: the ELF header leads to the program headers, and these to
   .eh_frame_hdr. */
#include "ptrace.h"

#include <elf.h>
#include <string.h>

/* Programs have it from libunwind-x86_64.so.8 or libunwind-aarch64.so.8, to which this library is linked. */
int UNW_ARCH_OBJ(dwarf_search_unwind_table)(unw_addr_space_t, unw_word_t, unw_dyn_info_t *, unw_proc_info_t *, int, void *);

/* How .eh_frame_hdr begins, as linkers write it. */
struct table_header { uint8_t version, of_section, of_count, of_table; int32_t section; uint32_t count; };
_Static_assert(sizeof(struct table_header) == 12, "as in the file");

/* What the program headers say: where the module is, and its .eh_frame_hdr. */
struct segments { uint64_t first, end, bias, table; };

static void add_segment(struct segments *segments, const Elf64_Phdr *segment, uint64_t image) {
    const uint64_t end = segment->p_vaddr + segment->p_memsz;
    if (segment->p_type == PT_GNU_EH_FRAME) segments->table = segment->p_vaddr;
    if (segment->p_type != PT_LOAD) return;
    if (segment->p_offset == 0) segments->bias = image - segment->p_vaddr;
    if (segment->p_vaddr < segments->first) segments->first = segment->p_vaddr;
    if (end > segments->end) segments->end = end;
}

/* Reads the program headers of the module whose file begins at `image`. */
static bool read_segments(pid_t pid, uint64_t image, struct segments *segments) {
    enum { MOST_SEGMENTS = 256 };
    Elf64_Ehdr header;
    Elf64_Phdr segment;
    *segments = (struct segments){.first = UINT64_MAX};
    if (!dwcheck_ptrace_read(pid, image, &header, sizeof header) || memcmp(header.e_ident, ELFMAG, SELFMAG) != 0) return false;
    if (header.e_ident[EI_CLASS] != ELFCLASS64 || header.e_phentsize != sizeof segment || header.e_phnum > MOST_SEGMENTS) return false;
    for (unsigned i = 0; i < header.e_phnum; i++) {
        if (!dwcheck_ptrace_read(pid, image + header.e_phoff + i * sizeof segment, &segment, sizeof segment)) return false;
        add_segment(segments, &segment, image);
    }
    return segments->table != 0;
}

/* Reads the table of the module that has an address. */
static bool read_table(pid_t pid, uint64_t address, struct table *table) {
    struct mapping mapping;
    struct segments segments;
    struct table_header header;
    if (!dwcheck_ptrace_mapping(pid, address, &mapping) || mapping.image == 0) return false;
    if (!read_segments(pid, mapping.image, &segments)) return false;
    const uint64_t at = segments.bias + segments.table;
    if (!dwcheck_ptrace_read(pid, at, &header, sizeof header)) return false;
    if (header.version != 1 || header.of_section != 0x1b || header.of_count != 0x03 || header.of_table != 0x3b) return false;
    memcpy(&table->head, &header, sizeof table->head);
    table->info = (unw_dyn_info_t){.start_ip = segments.bias + segments.first, .end_ip = segments.bias + segments.end,
                                   .format = UNW_INFO_FORMAT_REMOTE_TABLE};
    table->info.u.rti.segbase = at, table->info.u.rti.table_data = at + sizeof header, table->info.u.rti.table_len = header.count;
    return address >= table->info.start_ip && address < table->info.end_ip;
}

/* Whether a table is that of an address, and still there: a process may have unloaded the module, or run another program. */
static bool is_of(pid_t pid, const struct table *table, uint64_t address) {
    uint64_t head;
    return address >= table->info.start_ip && address < table->info.end_ip
           && dwcheck_ptrace_read(pid, table->info.u.rti.segbase, &head, sizeof head) && head == table->head;
}

struct table *dwcheck_ptrace_table(struct process *process, uint64_t address) {
    struct table table;
    for (int i = 0; i < TABLES; i++)
        if (is_of(process->pid, &process->tables[i], address)) return &process->tables[i];
    if (!read_table(process->pid, address, &table)) return NULL;
    struct table *kept = &process->tables[process->next++ % TABLES];
    *kept = table;
    return kept;
}

int _UPT_find_proc_info(unw_addr_space_t space, unw_word_t address, unw_proc_info_t *info, int need_unwind_info, void *context) {
    struct process *process = context;
    struct table *table = process ? dwcheck_ptrace_table(process, address) : NULL;
    if (!table) return -UNW_ENOINFO;
    return UNW_ARCH_OBJ(dwarf_search_unwind_table)(space, address, &table->info, info, need_unwind_info, context);
}
