/* What the accessors of another process know of a cursor's function: its name and its addresses. And the rows of a function,
   one after the other. */
#include "remote.h"

#include <string.h>

int dwcheck_remote_get_proc_info(unw_cursor_t *cursor, unw_proc_info_t *info) {
    const struct remote_cursor *own = dwcheck_remote_cursor(cursor);
    if (!own || !info) return -UNW_EINVAL;
    const uint64_t address = own->frame.values[IP];
    const int result = dwcheck_remote_find(own->space, own->frame.key - 1, info, 0, own->context);
    if (result >= 0 || !IS_FUNCTION_WITHOUT_ROW) return result < 0 ? result : 0;
    memset(info, 0, sizeof *info);
    info->start_ip = address, info->end_ip = address + 1;
    return 0;
}

int dwcheck_remote_name_of(unw_addr_space_t space, uint64_t address, char *name, size_t size, unw_word_t *offset, void *context) {
    const unw_accessors_t *accessors = &space->accessors;
    unw_word_t unused = 0;
    name[0] = '\0';
    const int result = dwcheck_remote_registered_name(space, address, name, size, offset, context);
    if (result != -UNW_ENOINFO) return result;
    if (!accessors->get_proc_name) return -UNW_ENOINFO;
    return accessors->get_proc_name(space, address, name, size, offset ? offset : &unused, context);
}

/* A return address is looked up at the call before it, but its offset is its own. */
int dwcheck_remote_get_proc_name(unw_cursor_t *cursor, char *name, size_t size, unw_word_t *offset) {
    const struct remote_cursor *own = dwcheck_remote_cursor(cursor);
    if (!own || !name || size == 0) return -UNW_EINVAL;
    const uint64_t before = own->frame.values[IP] - (own->frame.key - 1);
    const int result = dwcheck_remote_name_of(own->space, own->frame.key - 1, name, size, offset, own->context);
    if (result == 0 && offset) *offset += before;
    return result;
}

/* ---- rows ---- */

struct iteration { const unw_proc_info_t *info; unw_reg_states_callback callback; void *token; };

/* The rows are found one by one, each by its first address, which is what the callback gets. */
static int go_through(void *data, const struct record *record) {
    const struct iteration *iteration = data;
    const dwcheck_header none = {.length = 0};
    dwcheck_record fde;
    if (!dwcheck_remote_fde(record, &fde)) return -UNW_EBADFRAME;
    const dwcheck_module module = dwcheck_remote_section(record, iteration->info->start_ip - fde.start);
    int result = 0;
    for (uint64_t address = fde.start, next; result >= 0 && address < fde.end; address = next) {
        const uint64_t first = address + module.load_address;
        dwcheck_row row;
        dwcheck_rule rules[1];
        uint32_t is_signal_frame;
        dwcheck_fault fault;
        if (dwcheck_row_in(&module, &none, first, &row, rules, 1, &is_signal_frame, &fault) != DWCHECK_DONE) return -UNW_EBADFRAME;
        next = row.end;
        struct row_state state = {ROW_MARK, first};
        result = iteration->callback(iteration->token, &state, sizeof state, first, next + module.load_address);
    }
    return result;
}

int dwcheck_remote_rows(unw_cursor_t *cursor, unw_reg_states_callback callback, void *token) {
    const struct remote_cursor *own = dwcheck_remote_cursor(cursor);
    if (!own || !callback) return -UNW_EINVAL;
    const struct remote_cursor walk = *own;
    struct words words;
    unw_proc_info_t info;
    dwcheck_remote_begin_step();
    const int result = dwcheck_remote_find_fde(walk.space, walk.frame.key - 1, &info, walk.context);
    if (result < 0) return result;
    dwcheck_remote_begin(&words, walk.space, walk.context);
    struct iteration iteration = {&info, callback, token};
    return dwcheck_remote_with_found_record(&words, (uint64_t)info.unwind_info, go_through, &iteration);
}

int dwcheck_remote_apply_row(unw_cursor_t *cursor, uint64_t address) {
    struct remote_cursor *own = dwcheck_remote_cursor(cursor);
    if (!own) return -UNW_EINVAL;
    if (own->frame.is_last) return 0;
    struct remote_cursor walk = *own;
    struct words words;
    dwcheck_remote_begin(&words, walk.space, walk.context);
    const int result = dwcheck_remote_step_by_search(&walk, &words, address + 1);
    if (result < 0) return result;
    walk.changes++;
    *own = walk;
    return result;
}
