/* Caches of rows, from a fixed pool: a walk claims one, so no lock is held, and a signal handler that interrupts the
   walk gets another one. The pool is in the library's own memory, so nothing is allocated, and a page that isn't used
   costs nothing. Each cache has a stack for the calls that need much of it, since a handler's may be small. */
#include "../dl/prepared.h"
#include "unwind.h"

#include <pthread.h>
#include <sched.h>
#include <signal.h>
#include <stdatomic.h>
#include <string.h>
#include <sys/auxv.h>

enum { CACHES = 64, SLOTS = 64, STACK = 96 * 1024, TRIES = 100, PROBES = 8, ID = 20 };

/* A module, and a copy of its build id. */
struct slot {
    struct dwcheck_dl_module module;
    uint8_t id[ID];
};

struct cache {
    atomic_bool is_claimed;
    uint32_t generation;
    const void *owner; /* the thread that has claimed it */
    uint64_t permanent; /* the slots of modules that stay loaded as long as this library */
    struct slot slots[SLOTS];
    dwcheck_dl_rows rows;
    uint8_t stack[STACK] __attribute__((aligned(64)));
};

static struct cache caches[CACHES];
static atomic_uint generation;

/* The cache that the thread has used last. */
static __thread unsigned last __attribute__((tls_model("initial-exec")));

static bool try_to_claim(struct cache *cache) {
    bool is_free = false;
    return !atomic_load_explicit(&cache->is_claimed, memory_order_relaxed)
           && atomic_compare_exchange_strong_explicit(&cache->is_claimed, &is_free, true, memory_order_acquire,
                                                      memory_order_relaxed);
}

/* Empties a cache whose rows are older than the last flush. */
static struct cache *refreshed(struct cache *cache) {
    unsigned now = atomic_load_explicit(&generation, memory_order_acquire);
    if (cache->generation == now) return cache;
    memset(&cache->rows, 0, sizeof cache->rows);
    memset(cache->slots, 0, sizeof cache->slots);
    cache->permanent = 0;
    cache->generation = now;
    return cache;
}

/* A thread begins with a cache that few others begin with. */
static unsigned first_of_thread(void) {
    const uint64_t thread = (uint64_t)__builtin_thread_pointer();
    if (last == 0) last = 1 + (unsigned)(thread * UINT64_C(0x9e3779b97f4a7c15) >> 58) % CACHES;
    return last - 1;
}

struct cache *dwcheck_unwind_claim(void) {
    unsigned first = first_of_thread();
    for (unsigned i = 0; i < TRIES * CACHES; i++) {
        unsigned number = (first + i) % CACHES;
        if (try_to_claim(&caches[number])) {
            last = 1 + number;
            caches[number].owner = __builtin_thread_pointer();
            return refreshed(&caches[number]);
        }
        if (number == first && i > 0) sched_yield();
    }
    return NULL;
}

void dwcheck_unwind_give_back(struct cache *cache) {
    atomic_store_explicit(&cache->is_claimed, false, memory_order_release);
}

/* The child of a fork has one thread, so it takes back the caches that others had. Their rows may be half written. */
static void in_child(void) {
    for (int i = 0; i < CACHES; i++) {
        if (!atomic_load(&caches[i].is_claimed) || caches[i].owner == __builtin_thread_pointer()) continue;
        caches[i].generation = atomic_load(&generation) - 1;
        atomic_store(&caches[i].is_claimed, false);
    }
}

__attribute__((constructor)) static void begin(void) { dwcheck_unwind_at_fork(in_child); }

dwcheck_dl_rows *dwcheck_unwind_rows(struct cache *cache) { return &cache->rows; }

void dwcheck_unwind_flush(void) { atomic_fetch_add(&generation, 1); }

/* The slot that an object has, or may take: a free one, or else that of another module. */
static int slot_for(const struct cache *cache, const struct dwcheck_dl_object *object) {
    const unsigned home = (unsigned)(object->first * UINT64_C(0x9e3779b97f4a7c15) >> 58);
    int unused = -1;
    for (unsigned i = 0; i < PROBES; i++) {
        const int slot = (int)((home + i) % SLOTS);
        const struct dwcheck_dl_object *there = &cache->slots[slot].module.object;
        if (there->end != 0 && there->first == object->first) return slot;
        if (there->end == 0 && unused < 0) unused = slot;
    }
    return unused < 0 ? (int)home : unused;
}

/* Whether an object is the module of a slot. It is what dwcheck_dl_is_same says, which takes a checksum of each build
   id; comparing the usual one with its copy takes less. */
static bool is_same(const struct slot *slot, const struct dwcheck_dl_object *object) {
    const struct dwcheck_dl_module *module = &slot->module;
    if (module->layout != 0 || module->id_length != ID || object->map == NULL) return dwcheck_dl_is_same(module, object);
    const struct dwcheck_dl_object *was = &module->object;
    return was->first == object->first && was->end == object->end && was->header == object->header && was->map == object->map
           && module->prepared == dwcheck_dl_preparations() && memcmp(slot->id, module->id, ID) == 0;
}

static bool has(const struct dwcheck_dl_object *object, uint64_t address) {
    return address - object->first < object->end - object->first;
}

/* The program, this library, and the C library, which this one needs, aren't unloaded before this library is. */
static bool is_permanent(const struct dwcheck_dl_object *object) {
    return has(object, getauxval(AT_PHDR)) || has(object, (uint64_t)&caches) || has(object, (uint64_t)pthread_sigmask);
}

/* Makes a slot that of another module. */
static void take_slot(struct cache *cache, int number, const struct dwcheck_dl_object *object) {
    struct slot *slot = &cache->slots[number];
    cache->permanent &= ~(UINT64_C(1) << number);
    if (slot->module.object.end != 0) dwcheck_dl_rows_forget(&cache->rows, (uint32_t)number);
    dwcheck_dl_describe(object, &slot->module);
    if (slot->module.id_length == ID) memcpy(slot->id, slot->module.id, ID);
    if (slot->module.eh_frame.frame_length != 0 && is_permanent(object)) cache->permanent |= UINT64_C(1) << number;
}

int dwcheck_unwind_slot(struct cache *cache, uint64_t address) {
    struct dwcheck_dl_object object;
    for (uint64_t left = cache->permanent; left != 0; left &= left - 1) {
        const int number = __builtin_ctzll(left);
        if (has(&cache->slots[number].module.object, address)) return number;
    }
    if (!dwcheck_dl_find(address, &object)) return -1;
    const int number = slot_for(cache, &object);
    struct slot *slot = &cache->slots[number];
    if (slot->module.object.end == 0 || !is_same(slot, &object)) take_slot(cache, number, &object);
    return slot->module.eh_frame.frame_length == 0 ? -1 : number;
}

uint64_t dwcheck_unwind_permanent(const struct cache *cache) { return cache->permanent; }

void dwcheck_unwind_on_stack(struct cache *cache, void (*function)(void *), void *data) {
    sigset_t all, before;
    sigfillset(&all);
    if (pthread_sigmask(SIG_BLOCK, &all, &before) != 0) return;
    dwcheck_unwind_call(function, data, cache->stack + STACK);
    pthread_sigmask(SIG_SETMASK, &before, NULL);
}

struct filling { struct cache *cache; int slot; uint64_t address; uint32_t status; };

static void fill(void *data) {
    struct filling *filling = data;
    const struct dwcheck_dl_module *found = &filling->cache->slots[filling->slot].module;
    const dwcheck_module module = dwcheck_dl_as_module(&found->eh_frame);
    const dwcheck_header header = dwcheck_dl_as_header(&found->eh_frame);
    dwcheck_fault fault;
    filling->status = dwcheck_dl_rows_fill(&filling->cache->rows, (uint32_t)filling->slot, &module, &header, filling->address,
                                           &fault);
}

uint32_t dwcheck_unwind_fill(struct cache *cache, int slot, uint64_t address) {
    struct filling filling = {cache, slot, address, DWCHECK_REFUSED};
    dwcheck_unwind_on_stack(cache, fill, &filling);
    return filling.status;
}
