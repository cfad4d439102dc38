/* Steps of a cursor of another process: by a kept row, or by the records to which the caller's find_proc_info leads, or by a
   guess where there are none. */
#include "remote.h"

#include <string.h>

int dwcheck_remote_find(unw_addr_space_t space, uint64_t address, unw_proc_info_t *info, int need_unwind_info, void *context) {
    const unw_accessors_t *accessors = &space->accessors;
    memset(info, 0, sizeof *info);
    const int result = dwcheck_remote_find_registered(space, address, info, need_unwind_info, context);
    if (result != -UNW_ENOINFO) return result;
    return accessors->find_proc_info ? accessors->find_proc_info(space, address, info, need_unwind_info, context) : -UNW_ENOINFO;
}

/* The accessor has it from dwarf_search_unwind_table: unwind_info is the address of the FDE, in the other process. */
int dwcheck_remote_find_fde(unw_addr_space_t space, uint64_t address, unw_proc_info_t *info, void *context) {
    const int result = dwcheck_remote_find(space, address, info, 1, context);
    if (result < 0) return result;
    const bool is_table = info->format == UNW_INFO_FORMAT_TABLE || info->format == UNW_INFO_FORMAT_REMOTE_TABLE;
    return is_table && info->unwind_info ? 0 : -UNW_ENOINFO;
}

/* A step by the records of an address, as they are copied. */
struct by_record { struct remote_cursor *walk; struct words *words; uint64_t key; const unw_proc_info_t *info; };

/* The function's addresses are those of its FDE, plus what the table's load_offset is. */
static int step_by_copy(void *data, const struct record *record) {
    const struct by_record *step = data;
    dwcheck_record fde;
    if (!dwcheck_remote_fde(record, &fde)) return -UNW_EBADFRAME;
    const uint64_t load_address = step->info->start_ip - fde.start;
    const struct kept_function function = {step->info->start_ip, fde.end + load_address, load_address, *record};
    dwcheck_remote_keep_function(step->walk, step->key, &function);
    return dwcheck_remote_step_by_record(step->walk, step->words, step->key, load_address, record);
}

/* Takes a step by the FDE of the address `key` - 1. */
int dwcheck_remote_step_by_search(struct remote_cursor *walk, struct words *words, uint64_t key) {
    unw_proc_info_t info;
    dwcheck_remote_begin_step();
    const int result = dwcheck_remote_find_fde(walk->space, key - 1, &info, walk->context);
    if (result < 0) return result;
    struct by_record step = {walk, words, key, &info};
    return dwcheck_remote_with_found_record(words, (uint64_t)info.unwind_info, step_by_copy, &step);
}

/* Takes a step by what is kept for the address, or by a search. */
static int step(struct remote_cursor *walk, struct words *words) {
    struct facts facts;
    struct kept_function function;
    uint8_t bytes[MOST_KEPT_BYTES];
    int result = NO_KEPT_ROW;
    switch (dwcheck_remote_kept(walk, &facts, &function, bytes)) {
    case KEPT_ROW: result = dwcheck_remote_step_by_kept_row(walk, words, &facts); break;
    case KEPT_FUNCTION:
        return dwcheck_remote_step_by_record(walk, words, walk->frame.key, function.load_address, &function.record);
    case KEPT_NOTHING: break;
    }
    return result == NO_KEPT_ROW ? dwcheck_remote_step_by_search(walk, words, walk->frame.key) : result;
}

/* If the frame pointer can't be read, it isn't known whether it leads to a frame. Nor whether a register has the return address
   of a frame that has made no call. */
static int guess(struct remote_cursor *walk, struct words *words) {
    const struct word_reader memory = {dwcheck_remote_read, words};
    const bool is_exact = walk->frame.key != walk->frame.values[IP];
    const uint64_t needed = UINT64_C(1) << FP | (is_exact ? CHANGED_BY_CALLS : 0);
    for (int i = 0; i < REGISTERS; i++)
        if (needed >> i & 1 && !dwcheck_remote_fetch(walk, words, i) && walk->places[i].kind != PLACE_NONE)
            return dwcheck_remote_error(words);
    return dwcheck_unwind_guess(&walk->frame, walk->places, &memory);
}

int dwcheck_remote_step(unw_cursor_t *cursor) {
    struct remote_cursor *own = dwcheck_remote_cursor(cursor);
    if (!own) return -UNW_EINVAL;
    if (own->frame.is_last) return 0;
    struct remote_cursor walk = *own;
    struct words words;
    const uint64_t address = walk.frame.values[IP], stack_pointer = walk.frame.values[SP];
    dwcheck_remote_begin(&words, walk.space, walk.context);
    int result = walk.frame.key == 0 ? -UNW_ENOINFO : step(&walk, &words);
    if (result == -UNW_ENOINFO) result = dwcheck_remote_leave_handler(&walk, &words);
    if (result == -UNW_ENOINFO) result = guess(&walk, &words);
    if (result > 0 && walk.frame.key == 0) result = dwcheck_unwind_end(&walk.frame); /* where some threads begin */
    if (result > 0 && walk.frame.values[IP] == address && walk.frame.values[SP] == stack_pointer) return -UNW_EBADFRAME;
    if (result < 0) return result;
    walk.changes++;
    *own = walk;
    return result;
}
