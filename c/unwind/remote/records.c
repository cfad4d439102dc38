/* An FDE of another process and its CIE, copied as they are read: as many bytes as their lengths say, and MOST_RECORD at most.
   All that follows is done with the copies. */
#include "remote.h"

#include <string.h>

enum { LENGTH = sizeof(uint32_t), HEAD = 2 * LENGTH, MOST_REMEMBERED = 512 };

/* The number of the step that this thread takes, and the records that a search has copied in it. The caller's find_proc_info
   makes the search in the midst of a step, which then needn't ask for the same words. */
static __thread struct {
    uint64_t step, found_in;
    unw_addr_space_t space;
    void *context;
    struct record record;
    uint8_t bytes[MOST_REMEMBERED];
} found;

void dwcheck_remote_begin_step(void) { found.step++; }

void dwcheck_remote_remember(const struct words *words, const struct record *record) {
    const uint32_t length = record->cie_length + record->fde_length;
    if (length > MOST_REMEMBERED) return;
    found.found_in = found.step, found.space = words->space, found.context = words->context;
    found.record = *record;
    memcpy(found.bytes, record->bytes, length);
}

/* Whether the search of this step has copied an FDE. */
static bool is_remembered(const struct words *words, uint64_t fde) {
    return found.found_in == found.step && found.space == words->space && found.context == words->context && found.record.fde == fde;
}

/* Reads the length of the record at an address, and the word after it, which is 0 in a CIE, and in an FDE leads to the CIE.
   Lengths of eight bytes aren't read. */
static bool read_head(struct words *words, uint64_t address, uint32_t *length, uint32_t *leads) {
    uint32_t head[2];
    if (!dwcheck_remote_copy(words, address, (uint8_t *)head, sizeof head)) return false;
    *length = head[0] + LENGTH, *leads = head[1];
    return head[0] >= LENGTH && head[0] <= MOST_RECORD - LENGTH;
}

/* Finds out where the two records are, and how long. */
static bool measure(struct words *words, uint64_t fde, struct record *record) {
    uint32_t leads, none;
    record->fde = fde;
    if (!read_head(words, fde, &record->fde_length, &leads) || leads == 0) return false;
    record->cie = fde + LENGTH - leads;
    return read_head(words, record->cie, &record->cie_length, &none) && none == 0;
}

/* Copies both records, and has the FDE lead to the CIE that is copied before it. */
static bool copy_both(struct words *words, const struct record *record, uint8_t *bytes) {
    const uint32_t leads = record->cie_length + LENGTH;
    if (!dwcheck_remote_copy(words, record->cie, bytes, record->cie_length)) return false;
    if (!dwcheck_remote_copy(words, record->fde, bytes + record->cie_length, record->fde_length)) return false;
    memcpy(bytes + leads, &leads, sizeof leads);
    return true;
}

/* The copies are on the stack, so an accessor that leaves the call by longjmp leaves no memory behind. */
int dwcheck_remote_with_record(struct words *words, uint64_t fde, use_record *use, void *data) {
    struct record record;
    words->error = 0;
    if (!measure(words, fde, &record)) return words->error < 0 ? words->error : -UNW_EBADFRAME;
    uint8_t bytes[record.cie_length + record.fde_length];
    if (!copy_both(words, &record, bytes)) return dwcheck_remote_error(words);
    record.bytes = bytes;
    return use(data, &record);
}

int dwcheck_remote_with_found_record(struct words *words, uint64_t fde, use_record *use, void *data) {
    if (!is_remembered(words, fde)) return dwcheck_remote_with_record(words, fde, use, data);
    struct record record = found.record;
    uint8_t bytes[MOST_REMEMBERED];
    record.bytes = memcpy(bytes, found.bytes, record.cie_length + record.fde_length);
    return use(data, &record);
}

/* The CIE's own address isn't that of the section: by it only the pointer to a personality routine is relative, which rows
   don't need. */
dwcheck_module dwcheck_remote_section(const struct record *record, uint64_t load_address) {
    return (dwcheck_module){.frame = record->bytes, .frame_length = (size_t)record->cie_length + record->fde_length,
                            .load_address = load_address, .kind = DWCHECK_DL_KIND, .order = DWCHECK_LITTLE, .address_size = 8,
                            .section_address = record->fde - record->cie_length};
}

bool dwcheck_remote_fde(const struct record *record, dwcheck_record *fde) {
    const dwcheck_module module = dwcheck_remote_section(record, 0);
    dwcheck_fault fault;
    return dwcheck_record_at(&module, record->cie_length, fde, &fault) == DWCHECK_DONE && fde->kind == DWCHECK_RECORD_FDE;
}

bool dwcheck_remote_procedure(struct words *words, const struct record *record, unw_proc_info_t *info) {
    const dwcheck_module module = dwcheck_remote_section(record, 0);
    const struct word_reader memory = {dwcheck_remote_read, words};
    const struct in_process in = {.fde = record->fde - (uint64_t)(record->bytes + record->cie_length),
                                  .cie = record->cie - (uint64_t)record->bytes, .memory = &memory};
    dwcheck_record fde;
    if (!dwcheck_remote_fde(record, &fde)) return false;
    memset(info, 0, sizeof *info);
    dwcheck_unwind_handlers(&module, record->cie_length, &fde, &in, info);
    info->start_ip = fde.start, info->end_ip = fde.end;
    return true;
}
