/* The search of a table of another process: the caller's find_proc_info describes it, and has it searched by this call. */
#include "remote.h"

/* An entry leads from the first address of a function to its FDE: two distances. */
enum { DISTANCE = sizeof(int32_t), ENTRY = 2 * DISTANCE };

static bool distance_at(struct words *words, uint64_t address, uint64_t *distance) {
    int32_t value;
    if (!dwcheck_remote_copy(words, address, (uint8_t *)&value, sizeof value)) return false;
    *distance = (uint64_t)(int64_t)value;
    return true;
}

/* Finds the last entry at or before an address, and the address of its FDE. Asks for at most 65 words, however long the table
   says that it is. Returns 0, or an error. */
static int find_entry(struct words *words, const unw_dyn_info_t *table, uint64_t address, uint64_t *fde) {
    const uint64_t base = table->format == UNW_INFO_FORMAT_IP_OFFSET ? table->start_ip : table->u.rti.segbase;
    const uint64_t entries = table->u.rti.table_data;
    uint64_t low = 0, high = table->u.rti.table_len /* in words, which are as long as entries */, distance;
    while (low < high) {
        const uint64_t middle = low + (high - low) / 2;
        if (!distance_at(words, entries + middle * ENTRY, &distance)) return dwcheck_remote_error(words);
        if (base + distance <= address) low = middle + 1;
        else high = middle;
    }
    if (low == 0) return -UNW_ENOINFO;
    if (!distance_at(words, entries + (low - 1) * ENTRY + DISTANCE, &distance)) return dwcheck_remote_error(words);
    *fde = table->u.rti.segbase + distance;
    return 0;
}

struct search { struct words words; unw_word_t address; const unw_dyn_info_t *table; unw_proc_info_t *info; int need_unwind_info; };

/* Describes the function to which the table led. What a step needs of it is the address of its FDE. */
static int describe(void *data, const struct record *record) {
    struct search *search = data;
    unw_proc_info_t info;
    if (!dwcheck_remote_procedure(&search->words, record, &info)) return -UNW_EBADFRAME;
    info.start_ip += search->table->load_offset, info.end_ip += search->table->load_offset;
    info.gp = search->table->gp;
    if (search->address < info.start_ip || search->address >= info.end_ip) return -UNW_ENOINFO;
    if (search->need_unwind_info) {
        info.format = UNW_INFO_FORMAT_TABLE, info.unwind_info_size = (int)record->fde_length;
        info.unwind_info = (void *)record->fde;
    }
    *search->info = info;
    dwcheck_remote_remember(&search->words, record);
    return 0;
}

int dwarf_search_unwind_table(unw_addr_space_t space, unw_word_t address, unw_dyn_info_t *table, unw_proc_info_t *info,
                              int need_unwind_info, void *context) {
    struct search search = {.address = address, .table = table, .info = info, .need_unwind_info = need_unwind_info};
    uint64_t fde = 0;
    if (!space || !table || !info) return -UNW_EINVAL;
    if (table->format != UNW_INFO_FORMAT_REMOTE_TABLE && table->format != UNW_INFO_FORMAT_IP_OFFSET) return -UNW_ENOINFO;
    if (address < table->start_ip || address >= table->end_ip) return -UNW_ENOINFO;
    dwcheck_remote_begin(&search.words, space, context);
    const int result = find_entry(&search.words, table, address - table->load_offset, &fde);
    return result < 0 ? result : dwcheck_remote_with_record(&search.words, fde, describe, &search);
}
