/* For the tests of look-ups in place: sections and search tables made for a test, and rows as text. */
#include "elf_file.h"
#include "dwcheck.h"
#include <stdio.h>

enum { SECTION_ADDRESS = 0x2000, HEADER_ADDRESS = 0x3000, MAX_ENTRIES = 30 };

/* A section, as a module without a pointer to its bytes, so that it may be copied. */
struct section { uint8_t bytes[1200]; dwcheck_module module; };

/* A section at 0x2000 with these bytes. */
static struct section section_of(const char *hex, uint32_t order, uint32_t address_size, uint32_t kind, uint64_t load_address) {
    struct section s = {.module = {.load_address = load_address, .cookie = 77, .room = SIZE_MAX, .order = order,
                                   .address_size = address_size, .kind = kind, .section_address = SECTION_ADDRESS}};
    for (; *hex; hex += 2) {
        const char digits[] = {hex[0], hex[1], 0};
        s.bytes[s.module.frame_length++] = (uint8_t)strtoul(digits, NULL, 16);
    }
    return s;
}

static dwcheck_module module_at(const struct section *s) {
    dwcheck_module module = s->module;
    module.frame = s->bytes;
    return module;
}

/* An .eh_frame_hdr section, and whether it leads to all FDEs: four bytes can't say how far the others are. */
struct table { uint8_t bytes[12 + 8 * MAX_ENTRIES]; size_t length; uint64_t address; int leads_to_all; };

/* The first address of an FDE, and the offset of its record. */
struct entry { uint64_t location, record; };

static void write_word(const dwcheck_module *module, uint8_t *to, uint64_t value) {
    for (int i = 0; i < 4; i++) to[module->order == DWCHECK_BIG ? 3 - i : i] = (uint8_t)(value >> 8 * i);
}

static struct table table_with(const dwcheck_module *module, uint64_t address, const struct entry *entries, size_t count) {
    struct table t = {.bytes = {1, 0x1b, 3, 0x3b}, .length = 12 + 8 * count, .address = address};
    write_word(module, t.bytes + 4, module->section_address - address - 4);
    write_word(module, t.bytes + 8, count);
    for (size_t i = 0; i < count; i++) {
        write_word(module, t.bytes + 12 + 8 * i, entries[i].location - address);
        write_word(module, t.bytes + 16 + 8 * i, module->section_address + entries[i].record - address);
    }
    return t;
}

static int by_location(const void *a, const void *b) {
    uint64_t left = ((const struct entry *)a)->location, right = ((const struct entry *)b)->location;
    return (left > right) - (left < right);
}

/* A table that leads to all FDEs of a module's section, or to as many as it can. */
static struct table table_of(const dwcheck_module *module, uint64_t address) {
    struct entry entries[MAX_ENTRIES];
    dwcheck_record record;
    dwcheck_fault fault;
    size_t count = 0;
    int is_near = 1;
    for (uint64_t at = 0; count < MAX_ENTRIES && dwcheck_record_at(module, at, &record, &fault) == DWCHECK_DONE; at = record.next) {
        if (record.kind != DWCHECK_RECORD_FDE || record.start == record.end) continue;
        is_near &= record.start < 0x80000000;
        entries[count++] = (struct entry){record.start, at};
    }
    qsort(entries, count, sizeof *entries, by_location);
    struct table t = table_with(module, address, entries, count);
    t.leads_to_all = is_near;
    return t;
}

static dwcheck_header header_at(const struct table *t) { return (dwcheck_header){t->bytes, t->length, t->address}; }

/* Writes a row as `dwcheck row` does, but expressions by their lengths. */
static void write_row(char *to, size_t length, const dwcheck_row *row, const dwcheck_rule *rules) {
    int n = snprintf(to, length, "%#llx..%#llx ", (unsigned long long)row->start, (unsigned long long)row->end);
    if (row->cfa.kind == DWCHECK_RULE_VAL_OFFSET) n += snprintf(to + n, length - n, "cfa=r%u%+lld", row->cfa.reg, (long long)row->cfa.offset);
    else n += snprintf(to + n, length - n, "cfa=expr(%llu)", (unsigned long long)row->cfa.length);
    for (const dwcheck_rule *rule = rules; rule < rules + row->count; rule++) {
        n += snprintf(to + n, length - n, " r%u=", rule->reg);
        if (rule->kind == DWCHECK_RULE_OFFSET) n += snprintf(to + n, length - n, "[c%+lld]", (long long)rule->offset);
        else if (rule->kind == DWCHECK_RULE_SAME_VALUE) n += snprintf(to + n, length - n, "s");
        else n += snprintf(to + n, length - n, "expr(%llu)", (unsigned long long)rule->length);
    }
}
