/* What an FDE and its CIE say of exceptions: the personality routine and the language-specific data. */
#include "unwind.h"

#include <string.h>

/* Bytes that are read from the left; once they don't suffice, all that is read is 0. */
struct reader {
    const uint8_t *at, *end;
    uint64_t distance; /* from here to the process that has the bytes */
    const struct word_reader *memory; /* of that process */
};

static uint64_t read_number(struct reader *reader, size_t size) {
    uint64_t value = 0;
    if ((size_t)(reader->end - reader->at) < size) {
        reader->at = reader->end;
        return 0;
    }
    memcpy(&value, reader->at, size);
    reader->at += size;
    return value;
}

static uint64_t read_leb(struct reader *reader, bool is_signed) {
    uint64_t value = 0, byte = 0;
    unsigned shift = 0;
    do {
        byte = read_number(reader, 1);
        if (shift < 64) value |= (byte & 0x7f) << shift;
        shift += 7;
    } while (byte & 0x80);
    return is_signed && shift < 64 && byte & 0x40 ? value | UINT64_MAX << shift : value;
}

static uint64_t widened(uint64_t value, unsigned bits) { return (uint64_t)((int64_t)(value << (64 - bits)) >> (64 - bits)); }

/* A pointer by its encoding (LSB, DWARF extensions); 0 if there is none, or for an encoding that compilers don't write. */
static uint64_t read_pointer(struct reader *reader, uint8_t encoding) {
    enum { OMITTED = 0xff, FORMAT = 0x0f, BASE = 0x70, FROM_HERE = 0x10, INDIRECT = 0x80 };
    uint64_t here = (uint64_t)reader->at + reader->distance, value;
    if (encoding == OMITTED) return 0;
    switch (encoding & FORMAT) {
    case 0x0: case 0x4: case 0xc: value = read_number(reader, 8); break;
    case 0x1: case 0x9: value = read_leb(reader, encoding & 8); break;
    case 0x2: value = read_number(reader, 2); break;
    case 0x3: value = read_number(reader, 4); break;
    case 0xa: value = widened(read_number(reader, 2), 16); break;
    case 0xb: value = widened(read_number(reader, 4), 32); break;
    default: return 0;
    }
    if (value == 0 || ((encoding & BASE) != 0 && (encoding & BASE) != FROM_HERE)) return 0;
    if (encoding & BASE) value += here;
    if (encoding & INDIRECT && !reader->memory->read(reader->memory->data, value, &value)) return 0;
    return value;
}

/* What the augmentation of a CIE says. */
struct augmentation { uint64_t personality; uint8_t of_addresses, of_data; bool has_data; };

static struct augmentation augmentation_of(struct reader reader) {
    enum { HEAD = 8, OMITTED = 0xff, FIRST_VERSION = 1 };
    struct augmentation result = {.of_data = OMITTED};
    read_number(&reader, HEAD);
    uint64_t version = read_number(&reader, 1);
    const char *letters = (const char *)reader.at, *last = memchr(letters, 0, (size_t)(reader.end - reader.at));
    if (!last || letters[0] != 'z') return result;
    reader.at = (const uint8_t *)last + 1;
    read_leb(&reader, false), read_leb(&reader, true);
    if (version == FIRST_VERSION) read_number(&reader, 1);
    else read_leb(&reader, false);
    read_leb(&reader, false);
    result.has_data = true;
    for (const char *letter = letters + 1; *letter; letter++) {
        if (*letter == 'R') result.of_addresses = (uint8_t)read_number(&reader, 1);
        else if (*letter == 'L') result.of_data = (uint8_t)read_number(&reader, 1);
        else if (*letter == 'P') result.personality = read_pointer(&reader, (uint8_t)read_number(&reader, 1));
        else if (*letter != 'S' && *letter != 'B') break;
    }
    return result;
}

void dwcheck_unwind_handlers(const dwcheck_module *module, uint64_t offset, const dwcheck_record *fde,
                             const struct in_process *in, unw_proc_info_t *info) {
    enum { HEAD = 8, FORMAT = 0x0f };
    dwcheck_record cie;
    dwcheck_fault fault;
    if (dwcheck_record_at(module, fde->cie, &cie, &fault) != DWCHECK_DONE) return;
    const struct augmentation augmentation =
        augmentation_of((struct reader){module->frame + fde->cie, module->frame + cie.next, in->cie, in->memory});
    struct reader reader = {module->frame + offset, module->frame + fde->next, in->fde, in->memory};
    read_number(&reader, HEAD);
    read_pointer(&reader, augmentation.of_addresses), read_pointer(&reader, augmentation.of_addresses & FORMAT);
    if (augmentation.has_data && read_leb(&reader, false) > 0) info->lsda = read_pointer(&reader, augmentation.of_data);
    info->handler = augmentation.personality;
}
