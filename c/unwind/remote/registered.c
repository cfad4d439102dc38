/* Functions that another process has registered (_U_dyn_register): a list in its memory, to which the caller's accessor leads.
   They count before those of the caller's find_proc_info. */
#include "remote.h"

#include <string.h>

enum { MOST_REGISTERED = 4096 /* a list may lead back into itself */ };

/* The list begins with the address of its first entry, after two words of 32 bits. */
static bool first_of(struct words *words, uint64_t list, uint64_t *first) {
    return dwcheck_remote_copy(words, list + offsetof(unw_dyn_info_list_t, first), (uint8_t *)first, sizeof *first);
}

/* Reads how an entry begins: where the next one is, and which addresses it has. */
static bool read_range(struct words *words, uint64_t address, unw_dyn_info_t *entry) {
    return dwcheck_remote_copy(words, address, (uint8_t *)entry, offsetof(unw_dyn_info_t, gp));
}

static int find_entry(struct words *words, uint64_t list, uint64_t address, unw_dyn_info_t *entry) {
    uint64_t at;
    if (!first_of(words, list, &at)) return dwcheck_remote_error(words);
    for (int i = 0; at != 0 && i < MOST_REGISTERED; i++, at = (uint64_t)entry->next) {
        if (!read_range(words, at, entry)) return dwcheck_remote_error(words);
        if (address < entry->start_ip || address >= entry->end_ip) continue;
        return dwcheck_remote_copy(words, at, (uint8_t *)entry, sizeof *entry) ? 0 : dwcheck_remote_error(words);
    }
    return -UNW_ENOINFO;
}

/* The accessor says where the list is; most say that there is none. */
static int find_registered(struct words *words, uint64_t address, unw_dyn_info_t *entry) {
    const unw_accessors_t *accessors = &words->space->accessors;
    unw_word_t list = 0;
    if (!accessors->get_dyn_info_list_addr || accessors->get_dyn_info_list_addr(words->space, &list, words->context) < 0 || list == 0)
        return -UNW_ENOINFO;
    return find_entry(words, list, address, entry);
}

/* Of a function without a table its addresses and its personality routine are known. */
static void describe(const unw_dyn_info_t *entry, unw_proc_info_t *info) {
    info->start_ip = entry->start_ip, info->end_ip = entry->end_ip, info->gp = entry->gp;
    info->handler = entry->u.pi.handler, info->flags = entry->u.pi.flags;
    info->format = UNW_INFO_FORMAT_DYNAMIC;
}

int dwcheck_remote_find_registered(unw_addr_space_t space, uint64_t address, unw_proc_info_t *info, int need_unwind_info,
                                   void *context) {
    struct words words;
    unw_dyn_info_t entry;
    dwcheck_remote_begin(&words, space, context);
    const int result = find_registered(&words, address, &entry);
    if (result < 0) return result;
    if (entry.format == UNW_INFO_FORMAT_DYNAMIC) describe(&entry, info);
    if (entry.format == UNW_INFO_FORMAT_DYNAMIC) return 0;
    if (entry.format == UNW_INFO_FORMAT_TABLE) entry.format = UNW_INFO_FORMAT_REMOTE_TABLE;
    return dwarf_search_unwind_table(space, address, &entry, info, need_unwind_info, context);
}

/* Copies the name of a registered function, byte by byte up to its end. */
static int copy_name(struct words *words, uint64_t from, char *name, size_t size) {
    for (size_t i = 0; i < size; i++) {
        if (!dwcheck_remote_copy(words, from + i, (uint8_t *)&name[i], 1)) return dwcheck_remote_error(words);
        if (name[i] == '\0') return 0;
    }
    name[size - 1] = '\0';
    return -UNW_ENOMEM;
}

int dwcheck_remote_registered_name(unw_addr_space_t space, uint64_t address, char *name, size_t size, unw_word_t *offset,
                                   void *context) {
    struct words words;
    unw_dyn_info_t entry;
    dwcheck_remote_begin(&words, space, context);
    const int result = find_registered(&words, address, &entry);
    if (result < 0) return result;
    if (entry.format != UNW_INFO_FORMAT_DYNAMIC || !entry.u.pi.name_ptr) return -UNW_ENOINFO;
    if (offset) *offset = address - entry.start_ip;
    return copy_name(&words, entry.u.pi.name_ptr, name, size);
}
