/* Writes .debug_frame as .eh_frame, since rows are looked up in place in that alone. What it writes is checked as any
   other section is, by the library. */
#define _GNU_SOURCE
#include "debug_frame.h"

#include <stdbool.h>
#include <stdlib.h>
#include <string.h>

/* A CIE, an FDE or an empty record: where it is, and which addresses it covers. */
struct record {
    uint64_t offset, next, start, end, cie;
    struct record *same; /* for a CIE of .debug_frame: the first one with the same bytes, as far as that is known */
    uint64_t copied;     /* where its copy is, plus 1; 0 if it has none */
    uint32_t kind;
    bool is_64_bit;
};

struct records {
    struct record *first;
    size_t count, room;
};

/* The output: first only its length is counted, and then it is written. */
struct output {
    uint8_t *bytes; /* NULL while the length is counted */
    size_t length;
};

/* Whether the record at this offset is in the 64-bit format. */
static bool is_64_bit(const dwcheck_module *module, uint64_t offset) {
    uint32_t length;
    memcpy(&length, module->frame + offset, sizeof length);
    return length == 0xffffffff;
}

/* The parts of a record of .debug_frame: where it ends, where what follows its CIE_pointer or its id begins, and the
   pointer, which in a CIE is all ones. */
struct parts {
    uint64_t next, rest, cie;
    bool is_cie;
};

static bool find_parts(const dwcheck_module *module, uint64_t offset, struct parts *parts) {
    const uint64_t end = module->frame_length;
    uint64_t length = 0, ones = UINT32_MAX, size = sizeof(uint32_t), at = offset + size;
    if (offset > end || end - offset < size) return false;
    memcpy(&length, module->frame + offset, size);
    if (length == UINT32_MAX) {
        ones = UINT64_MAX, size = sizeof ones;
        if (end - at < size) return false;
        memcpy(&length, module->frame + at, size);
        at += size;
    }
    if (length > end - at || length < size) return false;
    *parts = (struct parts){.next = at + length, .rest = at + size};
    memcpy(&parts->cie, module->frame + at, size);
    parts->is_cie = parts->cie == ones;
    return true;
}

/* Whether the record at this offset of .debug_frame is a CIE with an augmentation, as assemblers write for functions
   that are frames of signals, or an FDE of such a CIE; and which record comes next. */
static bool is_augmented(const dwcheck_module *module, uint64_t offset, uint64_t *next) {
    struct parts parts;
    if (module->kind != DWCHECK_DEBUG_FRAME || !find_parts(module, offset, &parts)) return false;
    *next = parts.next;
    if (!parts.is_cie && (!find_parts(module, parts.cie, &parts) || !parts.is_cie)) return false;
    return parts.next - parts.rest >= 2 && module->frame[parts.rest + 1] != 0; /* the version comes before it */
}

static bool add_record(struct records *records, const struct record *record) {
    if (records->count == records->room) {
        size_t room = records->room ? 2 * records->room : 64;
        struct record *bigger = realloc(records->first, room * sizeof *bigger);
        if (!bigger) return false;
        records->first = bigger;
        records->room = room;
    }
    records->first[records->count++] = *record;
    return true;
}

/* Reads all records of a section, but for those with augmentations in .debug_frame, which would be refused. Returns
   DWCHECK_DONE; or why one can't be read, or DWCHECK_NO_MEMORY. */
static uint32_t read_records(const dwcheck_module *module, struct records *records) {
    dwcheck_record record;
    dwcheck_fault fault;
    for (uint64_t offset = 0;; offset = record.next) {
        if (is_augmented(module, offset, &record.next)) continue;
        uint32_t status = module->frame_length == 0 ? DWCHECK_NONE : dwcheck_record_at(module, offset, &record, &fault);
        if (status != DWCHECK_DONE) return status == DWCHECK_NONE ? DWCHECK_DONE : status;
        const struct record one = {.offset = offset, .next = record.next, .start = record.start, .end = record.end,
                                   .cie = record.cie, .kind = record.kind, .is_64_bit = is_64_bit(module, offset)};
        if (!add_record(records, &one)) return DWCHECK_NO_MEMORY;
    }
}

/* ---- writing .eh_frame */

static bool have_same_bytes(const dwcheck_module *module, const struct record *one, const struct record *other) {
    const uint64_t length = one->next - one->offset;
    return other->next - other->offset == length && memcmp(module->frame + one->offset, module->frame + other->offset, length) == 0;
}

/* Finds the CIEs that have the same bytes, so that one of them is written, as linkers do in .eh_frame: each object has
   its own, and if a linker has kept one of several functions and all their FDEs, only those with one CIE are exact
   copies of each other. This is found out once, so that both passes of writing say the same of any bytes. */
static void find_same(const dwcheck_module *module, struct records *records) {
    enum { MOST = 64 };
    struct record *unlike[MOST]; /* if more differ, the others are written as they come */
    size_t count = 0;
    for (size_t i = 0; i < records->count; i++) {
        struct record *record = &records->first[i];
        size_t at = 0;
        record->same = record;
        if (record->kind != DWCHECK_RECORD_CIE) continue;
        while (at < count && !have_same_bytes(module, unlike[at], record)) at++;
        if (at < count) record->same = unlike[at];
        else if (count < MOST) unlike[count++] = record;
    }
}

static void put(struct output *output, const void *bytes, size_t length) {
    if (output->bytes && length) memcpy(output->bytes + output->length, bytes, length);
    output->length += length;
}

/* Writes a record of .debug_frame as one of .eh_frame: in the 32-bit format, with `id` as the four bytes before the
   rest, which is the same in both. Returns whether it isn't too long. */
static bool put_record(struct output *output, const dwcheck_module *debug_frame, const struct record *record, uint32_t id) {
    enum { SHORT = 4 + 4, LONG = 12 + 8, MOST = 0x7fffffff };
    const uint64_t body = record->offset + (record->is_64_bit ? LONG : SHORT);
    if (body > record->next || record->next - body > MOST || output->length > MOST) return false;
    const uint32_t length = (uint32_t)(record->next - body + sizeof id);
    put(output, &length, sizeof length);
    put(output, &id, sizeof id);
    put(output, debug_frame->frame + body, (size_t)(record->next - body));
    return true;
}

/* Whether an FDE may be one of code that is there: of code from `first` to `last`, but not of address 0, to which
   linkers move the FDEs of functions that they dropped. In many modules no code begins there, but the segment with the
   code does. */
static bool is_of_code(const struct record *record, uint64_t first, uint64_t last) {
    return record->kind == DWCHECK_RECORD_FDE && record->start != 0 && record->start < record->end && record->start >= first
           && record->end - 1 <= last;
}

static int by_offset(const void *left, const void *right) {
    const struct record *a = left, *b = right;
    return (a->offset > b->offset) - (a->offset < b->offset);
}

/* Writes an FDE, and before it its CIE, if that isn't there yet. Returns whether it could. */
static bool put_fde(struct output *output, const dwcheck_module *debug_frame, struct records *records, const struct record *fde) {
    const struct record wanted = {.offset = fde->cie};
    struct record *cie = bsearch(&wanted, records->first, records->count, sizeof wanted, by_offset);
    if (!cie || cie->kind != DWCHECK_RECORD_CIE) return false;
    cie = cie->same;
    if (!cie->copied) {
        cie->copied = output->length + 1;
        if (!put_record(output, debug_frame, cie, 0)) return false;
    }
    const uint64_t id = output->length + sizeof(uint32_t) - (cie->copied - 1); /* how far before these bytes the CIE is */
    return put_record(output, debug_frame, fde, (uint32_t)id);
}

/* Writes the FDEs that are wanted. Returns whether there is one, and each could be written. */
static bool put_all(struct output *output, const dwcheck_module *debug_frame, struct records *records, uint64_t first,
                    uint64_t last) {
    output->length = 0;
    for (size_t i = 0; i < records->count; i++) records->first[i].copied = 0;
    for (size_t i = 0; i < records->count; i++)
        if (is_of_code(&records->first[i], first, last) && !put_fde(output, debug_frame, records, &records->first[i])) return false;
    return output->length != 0;
}

uint32_t dwcheck_dl_as_eh_frame(const dwcheck_module *debug_frame, uint64_t first, uint64_t last, uint8_t **bytes,
                                size_t *length) {
    struct records records = {NULL, 0, 0};
    struct output output = {NULL, 0};
    uint32_t status = read_records(debug_frame, &records);
    if (status == DWCHECK_DONE) {
        find_same(debug_frame, &records);
        if (!put_all(&output, debug_frame, &records, first, last)) status = DWCHECK_NONE;
        else if (!(output.bytes = malloc(output.length))) status = DWCHECK_NO_MEMORY;
    } else if (status != DWCHECK_NO_MEMORY) {
        status = DWCHECK_NONE;
    }
    if (status == DWCHECK_DONE) {
        put_all(&output, debug_frame, &records, first, last);
        *bytes = output.bytes;
        *length = output.length;
    }
    free(records.first);
    return status;
}

/* ---- the search table */

static int by_start(const void *left, const void *right) {
    const struct record *a = left, *b = right;
    return (a->start > b->start) - (a->start < b->start);
}

/* Keeps the FDEs that cover addresses, by their first address. */
static void sort_by_address(struct records *records) {
    size_t kept = 0;
    for (size_t i = 0; i < records->count; i++)
        if (records->first[i].kind == DWCHECK_RECORD_FDE && records->first[i].start < records->first[i].end)
            records->first[kept++] = records->first[i];
    records->count = kept;
    if (kept) qsort(records->first, kept, sizeof *records->first, by_start);
}

/* Whether a difference fits the four bytes that a table has for it. */
static int fits(uint64_t difference) { return (int64_t)difference == (int32_t)difference; }

/* Writes the table of FDEs, which are in the order of their addresses: each address and where the record is, both
   from `from` on. Returns 0 if one doesn't fit. */
static int write_table(uint8_t *bytes, const struct records *fdes, uint64_t from) {
    enum { FIXED = 12, ENTRY = 8 };
    static const uint8_t encodings[] = {1, 0x1b, 3, 0x3b};
    const int32_t to_section = -4; /* the section is at the header's own address, as far as its table is read */
    const uint32_t count = (uint32_t)fdes->count;
    memcpy(bytes, encodings, sizeof encodings);
    memcpy(bytes + 4, &to_section, sizeof to_section);
    memcpy(bytes + 8, &count, sizeof count);
    for (size_t i = 0; i < fdes->count; i++) {
        const uint64_t start = fdes->first[i].start - from, offset = fdes->first[i].offset;
        if (!fits(start) || !fits(offset)) return 0;
        const int32_t entry[] = {(int32_t)start, (int32_t)offset};
        memcpy(bytes + FIXED + i * ENTRY, entry, sizeof entry);
    }
    return 1;
}

uint32_t dwcheck_dl_table(const dwcheck_module *module, uint8_t **bytes, size_t *length) {
    struct records records = {NULL, 0, 0};
    uint32_t status = read_records(module, &records);
    *bytes = NULL, *length = 0;
    if (status == DWCHECK_DONE) {
        sort_by_address(&records);
        *length = 12 + 8 * records.count;
        *bytes = malloc(*length);
        if (*bytes == NULL) status = DWCHECK_NO_MEMORY;
        else if (!write_table(*bytes, &records, module->section_address)) free(*bytes), *bytes = NULL, *length = 0;
    } else if (status != DWCHECK_NO_MEMORY) {
        status = DWCHECK_NONE;
    }
    free(records.first);
    return status;
}
