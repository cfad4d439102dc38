/* The function that has an address, as its FDE says. */
#include "unwind.h"

#include <string.h>

/* The entry of the search table for an address: the last one at or before it. Returns the offset of its FDE in the
   section; or the section's length if there is none. */
static uint64_t fde_of(const dwcheck_module *module, const dwcheck_header *header, uint64_t address) {
    enum { HEAD = 12, COUNT = 8, ENTRY = 8 };
    struct entry { int32_t first, fde; } entry;
    uint32_t count;
    const uint8_t *table = header->bytes;
    memcpy(&count, table + COUNT, sizeof count);
    if (count > (header->length - HEAD) / ENTRY) return module->frame_length;
    size_t low = 0, high = count;
    while (low < high) {
        size_t middle = low + (high - low) / 2;
        memcpy(&entry, table + HEAD + ENTRY * middle, sizeof entry);
        if (header->address + (uint64_t)(int64_t)entry.first <= address) low = middle + 1;
        else high = middle;
    }
    if (low == 0) return module->frame_length;
    memcpy(&entry, table + HEAD + ENTRY * (low - 1), sizeof entry);
    return header->address + (uint64_t)(int64_t)entry.fde - module->section_address;
}

/* The FDE of an address in a section without a search table, such as that of a registered table. */
static bool any_fde(const dwcheck_module *module, uint64_t address, uint64_t *offset, dwcheck_record *record) {
    dwcheck_fault fault;
    for (*offset = 0; *offset < module->frame_length; *offset = record->next) {
        if (dwcheck_record_at(module, *offset, record, &fault) != DWCHECK_DONE) return false;
        if (record->kind == DWCHECK_RECORD_FDE && address >= record->start && address < record->end) return true;
    }
    return false;
}

static bool record_of(const dwcheck_module *module, const dwcheck_header *header, uint64_t address, uint64_t *offset,
                      dwcheck_record *record) {
    dwcheck_fault fault;
    if (header->length == 0) return any_fde(module, address, offset, record);
    *offset = fde_of(module, header, address);
    return *offset < module->frame_length && dwcheck_record_at(module, *offset, record, &fault) == DWCHECK_DONE
           && record->kind == DWCHECK_RECORD_FDE && address >= record->start && address < record->end;
}

/* Of a registered function without rows its addresses and its personality routine are known. */
static bool is_registered(uint64_t address, unw_proc_info_t *info) {
    const unw_dyn_info_t *registered = dwcheck_unwind_registered(address);
    if (!registered || registered->format != UNW_INFO_FORMAT_DYNAMIC) return false;
    info->start_ip = registered->start_ip, info->end_ip = registered->end_ip, info->gp = registered->gp;
    info->handler = registered->u.pi.handler, info->flags = registered->u.pi.flags;
    return true;
}

int dwcheck_unwind_procedure(uint64_t address, unw_proc_info_t *info) {
    struct dwcheck_dl_module found;
    dwcheck_record record;
    uint64_t offset;
    memset(info, 0, offsetof(unw_proc_info_t, extra)); /* libunwind 1.6 for aarch64 has no more of it */
    if (is_registered(address, info)) return 0;
    if (!dwcheck_unwind_module_at(address, &found)) return -UNW_ENOINFO;
    const dwcheck_module module = dwcheck_dl_as_module(&found.eh_frame);
    const dwcheck_header header = dwcheck_dl_as_header(&found.eh_frame);
    if (!record_of(&module, &header, address - module.load_address, &offset, &record)) return -UNW_ENOINFO;
    dwcheck_unwind_handlers(&module, offset, &record, &(struct in_process){0, 0, &dwcheck_unwind_own_memory}, info);
    info->start_ip = record.start + module.load_address, info->end_ip = record.end + module.load_address;
    info->format = UNW_INFO_FORMAT_TABLE;
    return 0;
}
