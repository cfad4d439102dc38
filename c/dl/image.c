/* Reads the segments of a module in memory, its notes, and the records of its .eh_frame section. */
#define _GNU_SOURCE
#include "image.h"
#include "memory.h"

#include <elf.h>
#include <string.h>
#include <sys/auxv.h>

enum { PAGE = 4096 };

/* The program is the first module of its namespace, and has no name. In a static one the loader gives only the
   addresses of its code, so its program headers are those of which the kernel has said where they are. */
static bool is_program(const struct link_map *map) { return map->l_prev == NULL && map->l_name[0] == 0; }

bool dwcheck_dl_info_of(const struct dwcheck_dl_object *object, struct dl_phdr_info *info) {
    const ElfW(Ehdr) *header = (const void *)(uintptr_t)object->first;
    if (object->map == NULL) return false;
    *info = (struct dl_phdr_info){.dlpi_addr = object->map->l_addr, .dlpi_name = object->map->l_name};
    if (is_program(object->map)) {
        info->dlpi_phdr = (const void *)getauxval(AT_PHDR), info->dlpi_phnum = (uint16_t)getauxval(AT_PHNUM);
        return true;
    }
    if (object->end - object->first < PAGE || object->first % PAGE != 0) return false;
    if (dwcheck_dl_is_unreadable(object->first) || memcmp(header->e_ident, ELFMAG, SELFMAG) != 0) return false;
    if (header->e_ident[EI_CLASS] != ELFCLASS64 || header->e_phentsize != sizeof(ElfW(Phdr))) return false;
    size_t size = (size_t)header->e_phnum * sizeof(ElfW(Phdr));
    if (header->e_phoff % _Alignof(ElfW(Phdr)) != 0 || header->e_phoff > PAGE || size > PAGE - header->e_phoff) return false;
    info->dlpi_phdr = (const void *)(object->first + header->e_phoff), info->dlpi_phnum = header->e_phnum;
    return true;
}

uint64_t dwcheck_dl_end_of_segment(const struct dl_phdr_info *info, uint64_t address) {
    for (size_t i = 0; i < info->dlpi_phnum; i++) {
        const ElfW(Phdr) *segment = &info->dlpi_phdr[i];
        uint64_t first = info->dlpi_addr + segment->p_vaddr;
        if (segment->p_type == PT_LOAD && segment->p_flags & PF_R && address >= first && address - first < segment->p_filesz)
            return first + segment->p_filesz;
    }
    return 0;
}

static uint32_t word_at(uint64_t address) {
    uint32_t word;
    memcpy(&word, (const void *)(uintptr_t)address, sizeof word);
    return word;
}

/* The number of bytes of the records from `first` on, before `end`: up to and with the record of length
   0 that ends a section, or up to and with FDE number `fdes`. Says whether one of the two was found; a
   record that would go past the end isn't counted. */
static size_t length_of_records(uint64_t first, uint64_t end, uint32_t fdes, bool *is_found) {
    uint64_t at = first;
    *is_found = true;
    while (end - at >= 8) {
        uint64_t length = word_at(at), head = 4;
        if (length == 0) return at + 4 - first;
        if (length == 0xffffffff) {
            if (end - at < 16) break;
            memcpy(&length, (const void *)(at + 4), sizeof length);
            head = 12;
        }
        if (length < 4 || length > end - at - head) break;
        bool is_fde = word_at(at + head) != 0;
        at += head + length;
        if (is_fde && --fdes == 0) return at - first;
    }
    *is_found = end - at >= 4 && word_at(at) == 0;
    return at - first;
}

/* The first four bytes of a header: its version, and how the address of the section, the number of FDEs and the
   entries of the table are written. Linkers write four bytes each, the address relative to its own place. */
enum { VERSION = 1, PCREL_SDATA4 = 0x1b, UDATA4 = 3, DATAREL_SDATA4 = 0x3b, FIXED = 12, ENTRY = 8 };

struct dwcheck_dl_bytes dwcheck_dl_table_of(const struct dl_phdr_info *info, const uint8_t *header) {
    const uint64_t at = (uintptr_t)header, end = dwcheck_dl_end_of_segment(info, at);
    static const uint8_t usual[] = {VERSION, PCREL_SDATA4, UDATA4, DATAREL_SDATA4};
    if (end - at < FIXED || memcmp(header, usual, sizeof usual) != 0) return (struct dwcheck_dl_bytes){NULL, 0};
    uint64_t length = FIXED + (uint64_t)ENTRY * word_at(at + 8);
    return (struct dwcheck_dl_bytes){header, length <= end - at ? length : 0};
}

/* Where the section is to which a header leads, and where its segment ends. */
static struct dwcheck_dl_bytes rest_of_segment(const struct dl_phdr_info *info, const uint8_t *header) {
    const uint64_t at = (uintptr_t)header, header_end = dwcheck_dl_end_of_segment(info, at);
    if (header_end - at < FIXED || header[0] != VERSION || header[1] != PCREL_SDATA4) return (struct dwcheck_dl_bytes){NULL, 0};
    const uint64_t first = at + 4 + (uint64_t)(int64_t)(int32_t)word_at(at + 4), end = dwcheck_dl_end_of_segment(info, first);
    return (struct dwcheck_dl_bytes){(const void *)(uintptr_t)first, end == 0 ? 0 : end - first};
}

/* The section, exactly as long as its records are. Where no record of length 0 ends it, as in some programs without the
   usual start files, it ends with the number of FDEs that the header gives. */
static struct dwcheck_dl_bytes records_of(const struct dl_phdr_info *info, const uint8_t *header) {
    struct dwcheck_dl_bytes section = rest_of_segment(info, header);
    const uint64_t first = (uintptr_t)section.first, end = first + section.length;
    bool is_found = true;
    const uint32_t fdes = section.length != 0 && header[2] == UDATA4 ? word_at((uintptr_t)header + 8) : 0;
    if (section.length != 0) section.length = length_of_records(first, end, UINT32_MAX, &is_found);
    if (!is_found && fdes != 0) section.length = length_of_records(first, end, fdes, &is_found);
    return section;
}

/* A section with a table is read only where the table leads, so it may end with its segment. Else its records are gone
   through. */
struct dwcheck_dl_bytes dwcheck_dl_eh_frame_of(const struct dl_phdr_info *info, const uint8_t *header) {
    if (dwcheck_dl_table_of(info, header).length != 0) return rest_of_segment(info, header);
    return records_of(info, header);
}

/* The build id among the notes of a segment, which lie from `at` up to `end`. */
static struct dwcheck_dl_bytes id_among(uint64_t at, uint64_t end) {
    enum { HEAD = sizeof(ElfW(Nhdr)) };
    ElfW(Nhdr) note;
    for (uint64_t next; end - at >= HEAD; at = next) {
        memcpy(&note, (const void *)at, HEAD);
        const uint64_t name = at + HEAD, id = name + (((uint64_t)note.n_namesz + 3) & ~UINT64_C(3));
        next = id + (((uint64_t)note.n_descsz + 3) & ~UINT64_C(3));
        if (next > end) break;
        if (note.n_type == NT_GNU_BUILD_ID && note.n_namesz == 4 && memcmp((const void *)name, "GNU", 4) == 0)
            return (struct dwcheck_dl_bytes){(const void *)id, note.n_descsz};
    }
    return (struct dwcheck_dl_bytes){NULL, 0};
}

struct dwcheck_dl_bytes dwcheck_dl_build_id(const struct dwcheck_dl_object *object, const struct dl_phdr_info *info) {
    struct dwcheck_dl_bytes id = {NULL, 0};
    for (size_t i = 0; i < info->dlpi_phnum && id.length == 0; i++) {
        const ElfW(Phdr) *segment = &info->dlpi_phdr[i];
        const uint64_t offset = info->dlpi_addr + segment->p_vaddr - object->first;
        if (segment->p_type == PT_NOTE && offset < PAGE && segment->p_filesz <= PAGE - offset)
            id = id_among(object->first + offset, object->first + offset + segment->p_filesz);
    }
    return id;
}

static uint64_t mixed(uint64_t sum, uint64_t word) {
    sum = (sum ^ word) * 0x9e3779b97f4a7c15;
    return sum ^ sum >> 32;
}

/* Four sums side by side, since each step of one needs the step before. Of the length the multiple of a block counts. */
static uint64_t sum_of_blocks(uint64_t sum, const uint8_t *bytes, size_t length) {
    enum { LANES = 4 };
    uint64_t lanes[LANES] = {sum, 1, 2, 3}, words[LANES];
    for (const uint8_t *end = bytes + length / sizeof words * sizeof words; bytes != end; bytes += sizeof words) {
        memcpy(words, bytes, sizeof words);
        for (int i = 0; i < LANES; i++) lanes[i] = mixed(lanes[i], words[i]);
    }
    return mixed(mixed(lanes[0], lanes[1]), mixed(lanes[2], lanes[3]));
}

uint64_t dwcheck_dl_sum(uint64_t sum, const void *bytes, size_t length) {
    enum { BLOCK = 32 };
    const uint8_t *at = bytes, *end = at + length;
    uint64_t word;
    sum = mixed(sum, length);
    if (length >= BLOCK) sum = sum_of_blocks(sum, at, length), at += length / BLOCK * BLOCK;
    for (; (size_t)(end - at) >= sizeof word; at += sizeof word) memcpy(&word, at, sizeof word), sum = mixed(sum, word);
    for (word = 0; at != end; at++) word = word << 8 | *at;
    return mixed(sum, word);
}
