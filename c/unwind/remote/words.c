/* The words of another process's memory, and its registers. A call asks for each word once: what it decides by a word and what
   it uses are then the same, even if the accessor gives another value the next time. */
#include "remote.h"

#include <string.h>

enum { WORD = sizeof(uint64_t) };

void dwcheck_remote_begin(struct words *words, unw_addr_space_t space, void *context) {
    words->space = space, words->context = context;
    words->error = 0, words->count = 0, words->missing = 0;
}

int dwcheck_remote_error(const struct words *words) { return words->error < 0 ? words->error : -UNW_EUNSPEC; }

/* Asks for a word, and notes it, if fewer than `most` are noted. */
static bool ask(struct words *words, uint64_t address, uint64_t *value, unsigned most) {
    for (unsigned i = 0; i < words->count; i++)
        if (words->addresses[i] == address) {
            *value = words->values[i];
            return !(words->missing >> i & 1);
        }
    const unw_accessors_t *accessors = &words->space->accessors;
    unw_word_t word = 0;
    const int result = accessors->access_mem ? accessors->access_mem(words->space, address, &word, 0, words->context) : -UNW_EINVAL;
    if (result < 0) words->error = result, word = 0;
    if (words->count < most) {
        words->missing |= (uint64_t)(result < 0) << words->count;
        words->addresses[words->count] = address, words->values[words->count++] = word;
    }
    *value = word;
    return result >= 0;
}

bool dwcheck_remote_ask(struct words *words, uint64_t address, uint64_t *value) { return ask(words, address, value, MOST_WORDS); }

bool dwcheck_remote_read(void *words, uint64_t address, uint64_t *word) { return dwcheck_remote_ask(words, address, word); }

/* Words that begin on a multiple of their size lie in one page, so no other page is touched than those of the bytes. */
bool dwcheck_remote_copy(struct words *words, uint64_t address, uint8_t *bytes, uint32_t length) {
    for (uint32_t done = 0, part; done < length; done += part) {
        const uint64_t within = (address + done) % WORD;
        uint64_t word;
        part = length - done < WORD - within ? length - done : (uint32_t)(WORD - within);
        if (!ask(words, address + done - within, &word, MOST_COPIED)) return false;
        memcpy(bytes + done, (const uint8_t *)&word + within, part);
    }
    return true;
}

size_t dwcheck_remote_blocks(const struct words *words, dwcheck_block blocks[MOST_WORDS]) {
    size_t count = 0;
    for (unsigned i = 0; i < words->count; i++)
        if (!(words->missing >> i & 1))
            blocks[count++] = (dwcheck_block){words->addresses[i], (const uint8_t *)&words->values[i], WORD};
    return count;
}

/* Asks for a register where it was when the process stopped. */
static bool ask_register(struct words *words, int number, uint64_t *value) {
    const unw_accessors_t *accessors = &words->space->accessors;
    unw_word_t word = 0;
    const int result = accessors->access_reg ? accessors->access_reg(words->space, number, &word, 0, words->context) : -UNW_EBADREG;
    if (result < 0) words->error = result;
    *value = word;
    return result >= 0;
}

bool dwcheck_remote_fetch(struct remote_cursor *walk, struct words *words, int number) {
    const struct place *place = &walk->places[number];
    uint64_t value;
    if (walk->frame.known >> number & 1) return true;
    if (place->kind == PLACE_NONE) words->error = -UNW_EBADREG;
    if (place->kind == PLACE_NONE) return false;
    if (!(place->kind == PLACE_MEMORY ? dwcheck_remote_ask(words, place->at, &value) : ask_register(words, (int)place->at, &value)))
        return false;
    walk->frame.values[number] = value;
    walk->frame.known |= UINT64_C(1) << number;
    return true;
}
