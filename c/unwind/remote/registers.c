/* The registers of a cursor of another process: they are asked for where they are saved, once they are wanted. */
#include "remote.h"

#define MARK UINT64_C(0x6574656d65722d75) /* what a cursor begins with once it is filled in */

struct remote_cursor *dwcheck_remote_cursor(unw_cursor_t *cursor) {
    struct remote_cursor *own = (void *)cursor;
    return own && own->mark == MARK ? own : NULL;
}

const struct frame *dwcheck_remote_frame(const unw_cursor_t *cursor) {
    const struct remote_cursor *own = (const void *)cursor;
    return own && own->mark == MARK ? &own->frame : NULL;
}

/* A process stops at an address, and not after a call, so that address is looked up. */
int dwcheck_remote_init(unw_cursor_t *cursor, unw_addr_space_t space, void *context) {
    struct remote_cursor walk = {.mark = MARK, .space = space, .context = context};
    struct words words;
    if (!cursor || !space) return -UNW_EINVAL;
    for (int i = 0; i < REGISTERS; i++) walk.places[i] = (struct place){(uint64_t)i, PLACE_REGISTER};
    dwcheck_remote_begin(&words, space, context);
    if (!dwcheck_remote_fetch(&walk, &words, IP) || !dwcheck_remote_fetch(&walk, &words, SP)) return dwcheck_remote_error(&words);
    walk.frame.key = walk.frame.values[IP] + 1;
    *(struct remote_cursor *)cursor = walk;
    return 0;
}

/* Fetches a register of a cursor, and notes its value there, unless the accessor has moved the cursor meanwhile. */
static int fetch(struct remote_cursor *own, int number, uint64_t *value) {
    struct remote_cursor walk = *own;
    struct words words;
    dwcheck_remote_begin(&words, walk.space, walk.context);
    if (!dwcheck_remote_fetch(&walk, &words, number)) return dwcheck_remote_error(&words);
    *value = walk.frame.values[number];
    if (own->changes == walk.changes) own->frame.values[number] = *value, own->frame.known |= UINT64_C(1) << number;
    return 0;
}

int dwcheck_remote_get_reg(unw_cursor_t *cursor, int number, unw_word_t *value) {
    struct remote_cursor *own = dwcheck_remote_cursor(cursor);
    if (!own || !value) return -UNW_EINVAL;
    number = register_of(number);
    if (number < 0 || number >= REGISTERS) return -UNW_EBADREG;
    if (number != IP && !(own->frame.known >> number & 1)) return fetch(own, number, value);
    *value = own->frame.values[number];
    return 0;
}

/* Writes a register to where it is saved, in the other process. */
static int write_place(const struct remote_cursor *walk, int number, unw_word_t value) {
    const unw_accessors_t *accessors = &walk->space->accessors;
    const struct place place = walk->places[number];
    if (place.kind == PLACE_MEMORY && accessors->access_mem)
        return accessors->access_mem(walk->space, place.at, &value, 1, walk->context);
    if (place.kind == PLACE_REGISTER && accessors->access_reg)
        return accessors->access_reg(walk->space, (int)place.at, &value, 1, walk->context);
    return -UNW_EBADREG;
}

/* The registers in which a landing pad gets its arguments are the cursor's alone, as in libunwind. */
int dwcheck_remote_set_reg(unw_cursor_t *cursor, int number, unw_word_t value) {
    struct remote_cursor *own = dwcheck_remote_cursor(cursor);
    if (!own) return -UNW_EINVAL;
    const int content = register_of(number);
    if (content == SP) return -UNW_EREADONLYREG;
    if (content < 0 || content >= REGISTERS) return -UNW_EBADREG;
    const struct remote_cursor walk = *own;
    const int result = is_argument(number) ? 0 : write_place(&walk, content, value);
    if (result < 0 || own->changes != walk.changes) return result < 0 ? result : 0;
    own->frame.values[content] = value;
    own->frame.known |= UINT64_C(1) << content;
    if (content == IP) own->frame.key = value + (own->frame.key - walk.frame.values[IP]);
    return 0;
}

int dwcheck_remote_get_save_loc(unw_cursor_t *cursor, int number, unw_save_loc_t *location) {
    const struct remote_cursor *own = dwcheck_remote_cursor(cursor);
    if (!own || !location) return -UNW_EINVAL;
    const bool is_placed = number >= 0 && number < REGISTERS && PLACED_REGISTERS >> number & 1;
    dwcheck_unwind_put_place(is_placed ? own->places[number] : (struct place){0, PLACE_NONE}, location);
    return 0;
}

/* Gives the stopped thread the registers of the cursor's frame, as many as are known; then the accessor has it continue. */
int dwcheck_remote_resume(unw_cursor_t *cursor) {
    struct remote_cursor *own = dwcheck_remote_cursor(cursor);
    if (!own) return -UNW_EINVAL;
    struct remote_cursor walk = *own;
    const unw_accessors_t *accessors = &walk.space->accessors;
    struct words words;
    if (walk.frame.is_last || !accessors->access_reg || !accessors->resume) return -UNW_EINVAL;
    dwcheck_remote_begin(&words, walk.space, walk.context);
    for (int i = 0; i < REGISTERS; i++) dwcheck_remote_fetch(&walk, &words, i);
    for (int i = 0; i < REGISTERS; i++) {
        unw_word_t value = walk.frame.values[i];
        const int result = walk.frame.known >> i & 1 ? accessors->access_reg(walk.space, i, &value, 1, walk.context) : 0;
        if (result < 0) return result;
    }
    return accessors->resume(walk.space, cursor, walk.context);
}
