/* The pool of caches, and which module has which slot of a cache. */
#include "caches.h"

#include <stdatomic.h>

static struct dwcheck_dl_cache caches[DWCHECK_DL_CACHES];
static _Atomic uint64_t readers; /* walks without a cache */

/* ---- claims */

/* A number that differs between threads: that of their control blocks, which the processor has in a register. */
static uint64_t number_of_thread(void) { return (uint64_t)(uintptr_t)__builtin_thread_pointer(); }

enum { PAGE = 4096 };

/* Writes to each page of rows that no walk has used. A page that is read before it is written takes two page faults. */
static void write_first(dwcheck_dl_rows *rows) {
    volatile uint8_t *bytes = (volatile uint8_t *)rows;
    for (size_t at = 0; at < sizeof *rows; at += PAGE) bytes[at] = 0;
}

/* It begins with a write: for a page that was never used, a read before it would be a page fault more. */
static bool claim(struct dwcheck_dl_cache *cache) {
    uint64_t claims = 0;
    if (atomic_compare_exchange_strong(&cache->claims, &claims, 1)) return write_first(&cache->rows), true;
    return claims % 2 == 0 && atomic_compare_exchange_strong(&cache->claims, &claims, claims + 1);
}

struct dwcheck_dl_cache *dwcheck_dl_claim(void) {
    static const uint64_t factor = 0x9e3779b97f4a7c15;
    const uint64_t first = (number_of_thread() * factor >> 32) % DWCHECK_DL_CACHES;
    for (uint64_t i = 0; i < DWCHECK_DL_CACHES; i++) {
        struct dwcheck_dl_cache *cache = &caches[(first + i) % DWCHECK_DL_CACHES];
        if (claim(cache)) return cache;
    }
    return NULL;
}

void dwcheck_dl_release(struct dwcheck_dl_cache *cache) {
    uint64_t claims = atomic_load_explicit(&cache->claims, memory_order_relaxed);
    atomic_store_explicit(&cache->claims, claims + 1, memory_order_release);
}

void dwcheck_dl_begin_reading(void) { atomic_fetch_add(&readers, 1); }
void dwcheck_dl_end_reading(void) { atomic_fetch_sub(&readers, 1); }

void dwcheck_dl_now(struct dwcheck_dl_moment *moment) {
    for (int i = 0; i < DWCHECK_DL_CACHES; i++) moment->claims[i] = atomic_load(&caches[i].claims);
}

bool dwcheck_dl_is_past(const struct dwcheck_dl_moment *moment) {
    for (int i = 0; i < DWCHECK_DL_CACHES; i++)
        if (moment->claims[i] % 2 == 1 && atomic_load(&caches[i].claims) == moment->claims[i]) return false;
    return atomic_load(&readers) == 0;
}

/* ---- slots */

static uint64_t bit(int slot) { return UINT64_C(1) << slot; }

static bool has(const struct dwcheck_dl_object *object, uint64_t address) {
    return address >= object->first && address < object->end;
}

int dwcheck_dl_slot_of(const struct dwcheck_dl_cache *cache, uint64_t confirmed, uint64_t address) {
    for (; confirmed != 0; confirmed &= confirmed - 1) {
        const int slot = __builtin_ctzll(confirmed);
        if (has(&cache->modules[slot].object, address)) return slot;
    }
    return -1;
}

static bool is_at(const struct dwcheck_dl_cache *cache, uint32_t slot, const struct dwcheck_dl_object *object) {
    const struct dwcheck_dl_object *there = &cache->modules[slot].object;
    return slot < cache->used && there->first == object->first && there->number == object->number;
}

/* A slot that no module has; or one of another module, but not of one that this walk has confirmed, if there is
   another way. */
static uint32_t free_slot(struct dwcheck_dl_cache *cache, uint64_t confirmed) {
    if (cache->used < DWCHECK_DL_SLOTS) return cache->used++;
    for (int i = 0; i < DWCHECK_DL_SLOTS; i++) {
        cache->turn = (cache->turn + 1) % DWCHECK_DL_SLOTS;
        if (!(confirmed & bit((int)cache->turn))) break;
    }
    return cache->turn;
}

/* The slot of the module that was where an object is, or one that it may take. */
static uint32_t slot_for(struct dwcheck_dl_cache *cache, uint64_t confirmed, const struct dwcheck_dl_object *object) {
    static const uint64_t factor = 0x9e3779b97f4a7c15;
    uint8_t *hint = &cache->hints[object->first * factor >> 58];
    uint32_t slot = *hint;
    if (is_at(cache, slot, object)) return slot;
    for (slot = 0; slot < cache->used && !is_at(cache, slot, object); slot++) {}
    if (slot == cache->used) slot = free_slot(cache, confirmed);
    return *hint = (uint8_t)slot;
}

int dwcheck_dl_confirm(struct dwcheck_dl_cache *cache, uint64_t *confirmed, uint64_t address) {
    struct dwcheck_dl_object object;
    if (!dwcheck_dl_find(address, &object)) return -1;
    const int slot = (int)slot_for(cache, *confirmed, &object);
    struct dwcheck_dl_module *module = &cache->modules[slot];
    if (!dwcheck_dl_is_same(module, &object)) {
        *confirmed &= ~bit(slot);
        if (module->object.end != 0) dwcheck_dl_rows_forget(&cache->rows, (uint32_t)slot);
        dwcheck_dl_describe(&object, module);
    }
    *confirmed |= bit(slot);
    return slot;
}

const struct dwcheck_dl_module *dwcheck_dl_module_of(struct dwcheck_dl_cache *cache, uint64_t *confirmed, uint64_t address,
                                                     struct dwcheck_dl_module *room) {
    struct dwcheck_dl_object object;
    if (cache == NULL) {
        if (!dwcheck_dl_find(address, &object)) return NULL;
        dwcheck_dl_describe(&object, room);
        return room;
    }
    int slot = dwcheck_dl_slot_of(cache, *confirmed, address);
    if (slot < 0) slot = dwcheck_dl_confirm(cache, confirmed, address);
    return slot < 0 ? NULL : &cache->modules[slot];
}

/* A call of dwcheck_dl_rows_fill. */
struct fill {
    struct dwcheck_dl_cache *cache;
    uint64_t address;
    int slot;
    uint32_t status;
};

static uint32_t fill_by(const struct fill *fill, const struct dwcheck_dl_section *section) {
    dwcheck_fault fault;
    const dwcheck_module module = dwcheck_dl_as_module(section);
    const dwcheck_header header = dwcheck_dl_as_header(section);
    return dwcheck_dl_rows_fill(&fill->cache->rows, (uint32_t)fill->slot, &module, &header, fill->address, &fault);
}

static void fill(void *data) {
    struct fill *fill = data;
    const struct dwcheck_dl_module *module = &fill->cache->modules[fill->slot];
    const struct dwcheck_dl_section *section = dwcheck_dl_first_section(module);
    fill->status = DWCHECK_NONE;
    for (; section != NULL && fill->status == DWCHECK_NONE; section = dwcheck_dl_next_section(module, section))
        fill->status = fill_by(fill, section);
}

uint32_t dwcheck_dl_fill(struct dwcheck_dl_cache *cache, int slot, uint64_t address, struct dwcheck_dl_room room) {
    struct fill call = {cache, address, slot, DWCHECK_NO_MEMORY};
    if (dwcheck_dl_first_section(&cache->modules[slot]) == NULL) return DWCHECK_NONE;
    dwcheck_dl_call(room, fill, &call);
    return call.status == DWCHECK_NO_PLACE ? DWCHECK_DONE : call.status;
}
