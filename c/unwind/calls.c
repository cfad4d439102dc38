/* The calls of libunwind, under the names that its header gives to local ones. A cursor of another process, or such an
   address space, is passed on (remote/). */
#include "layout.h"
#include "remote/remote.h"
#include "unwind.h"

#include <endian.h>
#include <stdlib.h>
#include <string.h>

static struct unw_addr_space local;

#define MARK UINT64_C(0x646e776e752d6b63) /* what a cursor begins with once a call has filled it in */

static struct cursor *cursor_of(unw_cursor_t *cursor) {
    struct cursor *own = (void *)cursor;
    return own && own->mark == MARK ? own : NULL;
}

/* The frame of a cursor of either kind; NULL if it is none. */
static const struct frame *frame_of(const unw_cursor_t *cursor) {
    const struct cursor *own = (const void *)cursor;
    return own && own->mark == MARK ? &own->frame : dwcheck_remote_frame(cursor);
}

int unw_init_local2(unw_cursor_t *cursor, unw_context_t *context, int flag) {
    struct cursor *own = (void *)cursor;
    if (!cursor || !context || (flag != 0 && flag != UNW_INIT_SIGNAL_FRAME)) return -UNW_EINVAL;
    *own = (struct cursor){.mark = MARK, .context = (ucontext_t *)context, .is_exact = flag == UNW_INIT_SIGNAL_FRAME};
    dwcheck_unwind_frame_of(&own->frame, own->context, own->is_exact);
    return 0;
}

int unw_init_local(unw_cursor_t *cursor, unw_context_t *context) { return unw_init_local2(cursor, context, 0); }

int unw_init_remote(unw_cursor_t *cursor, unw_addr_space_t space, void *context) {
    return space == unw_local_addr_space ? unw_init_local(cursor, context) : dwcheck_remote_init(cursor, space, context);
}

int unw_step(unw_cursor_t *cursor) {
    struct cursor *own = cursor_of(cursor);
    if (!own) return dwcheck_remote_step(cursor);
    if (own->frame.is_last) return 0;
    struct cache *cache = dwcheck_unwind_claim();
    if (!cache) return -UNW_ENOMEM;
    int result = dwcheck_unwind_step(cache, &own->frame, &own->memory, NULL);
    dwcheck_unwind_give_back(cache);
    if (result > 0) own->steps++;
    return result;
}

/* ---- registers ---- */

int unw_get_reg(unw_cursor_t *cursor, int number, unw_word_t *value) {
    const struct cursor *own = cursor_of(cursor);
    if (!own) return dwcheck_remote_get_reg(cursor, number, value);
    if (!value) return -UNW_EINVAL;
    number = register_of(number);
    if (number < 0 || number >= REGISTERS) return -UNW_EBADREG;
    if (number != IP && !(own->frame.known >> number & 1)) return -UNW_EBADREG;
    *value = own->frame.values[number];
    return 0;
}

/* Writes to where the register is saved, so that the program continues with it. */
static int write_place(struct cursor *own, int number, unw_word_t value) {
    struct place places[REGISTERS];
    if (!dwcheck_unwind_places(own, places)) return -UNW_EUNSPEC;
    if (places[number].kind != PLACE_MEMORY || !dwcheck_unwind_can_read(places[number].at, sizeof value)) return -UNW_EBADREG;
    memcpy((void *)places[number].at, &value, sizeof value);
    return 0;
}

/* The registers in which a landing pad gets its arguments are the cursor's alone, as in libunwind. */
int unw_set_reg(unw_cursor_t *cursor, int number, unw_word_t value) {
    struct cursor *own = cursor_of(cursor);
    if (!own) return dwcheck_remote_set_reg(cursor, number, value);
    const int content = register_of(number);
    if (content == SP) return -UNW_EREADONLYREG;
    if (content < 0 || content >= REGISTERS) return -UNW_EBADREG;
    int result = is_argument(number) ? 0 : write_place(own, number, value);
    if (result < 0) return result;
    own->frame.values[content] = value;
    own->frame.known |= UINT64_C(1) << content;
    if (content == IP) own->frame.key = value + own->frame.is_interrupted;
    return 0;
}

int unw_get_fpreg(unw_cursor_t *cursor, int number, unw_fpreg_t *value) {
    (void)number, (void)value;
    return frame_of(cursor) ? -UNW_EBADREG : -UNW_EINVAL;
}

int unw_set_fpreg(unw_cursor_t *cursor, int number, unw_fpreg_t value) {
    (void)number, (void)value;
    return frame_of(cursor) ? -UNW_EBADREG : -UNW_EINVAL;
}

int unw_get_save_loc(unw_cursor_t *cursor, int number, unw_save_loc_t *location) {
    const struct cursor *own = cursor_of(cursor);
    struct place places[REGISTERS];
    if (!own) return dwcheck_remote_get_save_loc(cursor, number, location);
    if (!location) return -UNW_EINVAL;
    dwcheck_unwind_put_place((struct place){0, PLACE_NONE}, location);
    if (number < 0 || number >= REGISTERS || !(PLACED_REGISTERS >> number & 1)) return 0;
    if (!dwcheck_unwind_places(own, places)) return -UNW_EUNSPEC;
    dwcheck_unwind_put_place(places[number], location);
    return 0;
}

int unw_is_signal_frame(unw_cursor_t *cursor) {
    const struct cursor *own = cursor_of(cursor);
    const struct remote_cursor *remote = own ? NULL : dwcheck_remote_cursor(cursor);
    if (remote) return dwcheck_remote_is_signal_frame(remote);
    return own ? dwcheck_unwind_is_signal_frame(&own->frame) : -UNW_EINVAL;
}

int unw_is_guess(unw_cursor_t *cursor) {
    const struct frame *frame = frame_of(cursor);
    return frame ? (int)frame->guess : -UNW_EINVAL;
}

/* If the walk has left a signal handler, continues as if the handler returned, so that the signal mask is restored. */
int unw_resume(unw_cursor_t *cursor) {
    struct cursor *own = cursor_of(cursor);
    if (!own) return dwcheck_remote_resume(cursor);
    if (own->frame.is_last || !(own->frame.known >> SP & 1)) return -UNW_EBADFRAME;
    ucontext_t *saved = (void *)own->frame.signal_context;
    if (!saved) dwcheck_unwind_continue(own->frame.values);
    if (!dwcheck_unwind_can_read((uint64_t)saved, CONTEXT_LENGTH)) return -UNW_EBADFRAME;
    for (int i = 0; i < REGISTERS; i++)
        if (own->frame.known >> i & 1) *dwcheck_unwind_in_context(saved, i) = own->frame.values[i];
    dwcheck_unwind_return_from_signal(saved);
}

/* ---- rows of a function ---- */

struct row_look_up { const struct dwcheck_dl_module *module; uint64_t address; dwcheck_row row; uint32_t status; };

static void look_up(void *data) {
    struct row_look_up *wanted = data;
    const dwcheck_module module = dwcheck_dl_as_module(&wanted->module->eh_frame);
    const dwcheck_header header = dwcheck_dl_as_header(&wanted->module->eh_frame);
    dwcheck_rule rules[1];
    dwcheck_fault fault;
    uint32_t is_signal_frame;
    wanted->status = dwcheck_row_in(&module, &header, wanted->address, &wanted->row, rules, 1, &is_signal_frame, &fault);
}

/* The row of an address; or false. */
static bool row_at(const struct dwcheck_dl_module *module, uint64_t address, dwcheck_row *row) {
    struct row_look_up wanted = {.module = module, .address = address, .status = DWCHECK_REFUSED};
    struct cache *cache = dwcheck_unwind_claim();
    if (!cache) return false;
    dwcheck_unwind_on_stack(cache, look_up, &wanted);
    dwcheck_unwind_give_back(cache);
    *row = wanted.row;
    return wanted.status == DWCHECK_DONE;
}

int unw_reg_states_iterate(unw_cursor_t *cursor, unw_reg_states_callback callback, void *token) {
    const struct cursor *own = cursor_of(cursor);
    unw_proc_info_t info;
    struct dwcheck_dl_module module;
    dwcheck_row row;
    if (!own) return dwcheck_remote_rows(cursor, callback, token);
    if (!callback) return -UNW_EINVAL;
    int result = dwcheck_unwind_procedure(own->frame.key - 1, &info);
    if (result == 0 && !dwcheck_unwind_module_at(own->frame.key - 1, &module)) result = -UNW_ENOINFO;
    for (uint64_t address = info.start_ip; result >= 0 && address < info.end_ip; address = row.end + module.eh_frame.load_address) {
        if (!row_at(&module, address, &row)) return -UNW_EBADFRAME;
        struct row_state state = {ROW_MARK, address};
        result = callback(token, &state, sizeof state, address, row.end + module.eh_frame.load_address);
    }
    return result;
}

int unw_apply_reg_state(unw_cursor_t *cursor, void *state) {
    struct cursor *own = cursor_of(cursor);
    const struct row_state *row = state;
    if (!row || row->mark != ROW_MARK) return -UNW_EINVAL;
    if (!own) return dwcheck_remote_apply_row(cursor, row->address);
    struct cache *cache = dwcheck_unwind_claim();
    if (!cache) return -UNW_ENOMEM;
    int result = dwcheck_unwind_step_by(cache, &own->frame, &own->memory, row->address + 1);
    dwcheck_unwind_give_back(cache);
    own->has_no_places = 1;
    return result;
}

/* ---- functions ---- */

int unw_get_proc_info(unw_cursor_t *cursor, unw_proc_info_t *info) {
    const struct cursor *own = cursor_of(cursor);
    if (!own) return dwcheck_remote_get_proc_info(cursor, info);
    if (!info) return -UNW_EINVAL;
    const int result = dwcheck_unwind_procedure(own->frame.key - 1, info);
    if (result == 0 || !IS_FUNCTION_WITHOUT_ROW) return result;
    info->start_ip = own->frame.values[IP];
    info->end_ip = info->start_ip + 1;
    return 0;
}

int unw_get_proc_info_by_ip(unw_addr_space_t space, unw_word_t address, unw_proc_info_t *info, void *context) {
    if (!space || !info) return -UNW_EINVAL;
    return space == &local ? dwcheck_unwind_procedure(address, info) : dwcheck_remote_find(space, address, info, 0, context);
}

int unw_get_proc_info_in_range(unw_word_t start, unw_word_t end, unw_word_t table, unw_word_t table_length,
                               unw_word_t frame_header, unw_word_t frame_header_length, unw_addr_space_t space,
                               unw_word_t address, unw_proc_info_t *info, int need_unwind_info, void *context) {
    (void)start, (void)end, (void)table, (void)table_length, (void)frame_header, (void)frame_header_length;
    (void)space, (void)address, (void)info, (void)need_unwind_info, (void)context;
    return -UNW_ENOINFO;
}

int unw_get_proc_name_by_ip(unw_addr_space_t space, unw_word_t address, char *name, size_t size, unw_word_t *offset,
                            void *context) {
    if (!space || !name || size == 0) return -UNW_EINVAL;
    if (space != &local) return dwcheck_remote_name_of(space, address, name, size, offset, context);
    return dwcheck_unwind_name(address, name, size, offset);
}

int unw_get_elf_filename_by_ip(unw_addr_space_t space, unw_word_t address, char *name, size_t size, unw_word_t *offset,
                               void *context) {
    (void)context;
    if (!name || size == 0) return -UNW_EINVAL;
    if (space != &local) return -UNW_ENOINFO;
    return dwcheck_unwind_file(address, name, size, offset);
}

/* A return address is looked up at the call before it, but its offset is its own. */
static int at_frame(unw_cursor_t *cursor, char *name, size_t size, unw_word_t *offset,
                    int find(uint64_t address, char *name, size_t size, unw_word_t *offset)) {
    const struct cursor *own = cursor_of(cursor);
    if (!own || !name || size == 0) return -UNW_EINVAL;
    int result = find(own->frame.key - 1, name, size, offset);
    if (result == 0 && offset) *offset += own->frame.values[IP] - (own->frame.key - 1);
    return result;
}

int unw_get_proc_name(unw_cursor_t *cursor, char *name, size_t size, unw_word_t *offset) {
    if (!cursor_of(cursor)) return dwcheck_remote_get_proc_name(cursor, name, size, offset);
    return at_frame(cursor, name, size, offset, dwcheck_unwind_name);
}

int unw_get_elf_filename(unw_cursor_t *cursor, char *name, size_t size, unw_word_t *offset) {
    if (dwcheck_remote_frame(cursor)) return -UNW_ENOINFO;
    return at_frame(cursor, name, size, offset, dwcheck_unwind_file);
}

/* ---- many frames at once; unw_backtrace is in assembler ---- */

int unw_backtrace2(void **addresses, int size, unw_context_t *context, int flag) {
    if (size <= 0) return 0;
    if (!context) return unw_backtrace(addresses, size);
    if (flag != 0 && flag != UNW_INIT_SIGNAL_FRAME) return 0;
    struct frame frame;
    dwcheck_unwind_frame_of(&frame, (const ucontext_t *)context, flag != 0);
    const dwcheck_dl_place place = dwcheck_unwind_place_of(&frame);
    return dwcheck_unwind_addresses(addresses, size, &place);
}

/* ---- the address space ---- */

static int find_proc_info(unw_addr_space_t space, unw_word_t address, unw_proc_info_t *info, int need_unwind_info,
                          void *context) {
    (void)need_unwind_info;
    return unw_get_proc_info_by_ip(space, address, info, context);
}

static void put_unwind_info(unw_addr_space_t space, unw_proc_info_t *info, void *context) {
    (void)space, (void)info, (void)context;
}

static int get_dyn_info_list_addr(unw_addr_space_t space, unw_word_t *address, void *context) {
    (void)space, (void)context;
    *address = _U_dyn_info_list_addr();
    return 0;
}

static int access_mem(unw_addr_space_t space, unw_word_t address, unw_word_t *value, int is_write, void *context) {
    (void)space, (void)context;
    if (!is_write) return dwcheck_unwind_read(address, value) ? 0 : -UNW_EUNSPEC;
    memcpy((void *)address, value, sizeof *value);
    return 0;
}

static int access_reg(unw_addr_space_t space, unw_regnum_t number, unw_word_t *value, int is_write, void *context) {
    uint64_t *place = context ? dwcheck_unwind_in_context(context, number) : NULL;
    (void)space;
    if (!place) return -UNW_EBADREG;
    if (is_write) *place = *value;
    else *value = *place;
    return 0;
}

static int access_fpreg(unw_addr_space_t space, unw_regnum_t number, unw_fpreg_t *value, int is_write, void *context) {
    (void)space, (void)number, (void)value, (void)is_write, (void)context;
    return -UNW_EBADREG;
}

static int resume(unw_addr_space_t space, unw_cursor_t *cursor, void *context) {
    (void)space, (void)context;
    return unw_resume(cursor);
}

static struct unw_addr_space local = {
    .accessors = {.find_proc_info = find_proc_info, .put_unwind_info = put_unwind_info,
                  .get_dyn_info_list_addr = get_dyn_info_list_addr, .access_mem = access_mem, .access_reg = access_reg,
                  .access_fpreg = access_fpreg, .resume = resume, .get_proc_name = unw_get_proc_name_by_ip,
                  .get_elf_filename = unw_get_elf_filename_by_ip},
    .policy = UNW_CACHE_GLOBAL};
unw_addr_space_t unw_local_addr_space = &local;

/* Of the accessors, libunwind 1.6 has those before get_elf_filename, and a program that was compiled for it passes no
   more. */
unw_addr_space_t unw_create_addr_space(unw_accessors_t *accessors, int byte_order) {
    if (!accessors || (byte_order != 0 && byte_order != LITTLE_ENDIAN)) return NULL;
    unw_addr_space_t space = calloc(1, sizeof *space);
    if (!space) return NULL;
    memcpy(&space->accessors, accessors, offsetof(unw_accessors_t, get_elf_filename));
    space->policy = UNW_CACHE_NONE;
    space->kept = dwcheck_remote_new();
    if (space->kept) return space;
    free(space);
    return NULL;
}

void unw_destroy_addr_space(unw_addr_space_t space) {
    if (!space || space == &local) return;
    dwcheck_remote_free(space->kept);
    free(space);
}

unw_accessors_t *unw_get_accessors(unw_addr_space_t space) { return space ? &space->accessors : NULL; }

/* All rows are forgotten, and not only those of a range. */
static void flush(unw_addr_space_t space) {
    if (space == &local) dwcheck_unwind_flush();
    else __atomic_fetch_add(&space->generation, 1, __ATOMIC_ACQ_REL);
}

void unw_flush_cache(unw_addr_space_t space, unw_word_t low, unw_word_t high) {
    (void)low, (void)high;
    if (space) flush(space);
}

int unw_set_caching_policy(unw_addr_space_t space, unw_caching_policy_t policy) {
    if (!space || (policy != UNW_CACHE_NONE && policy != UNW_CACHE_GLOBAL && policy != UNW_CACHE_PER_THREAD)) return -UNW_EINVAL;
    if (space->policy != policy) flush(space);
    space->policy = policy;
    return 0;
}

int unw_set_cache_size(unw_addr_space_t space, size_t size, int flag) {
    (void)size;
    if (!space || flag != 0) return -UNW_EUNSPEC;
    flush(space);
    return 0;
}

void unw_set_iterate_phdr_function(unw_addr_space_t space, unw_iterate_phdr_func_t function) { (void)space, (void)function; }
