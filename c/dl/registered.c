/* Code that the program has registered, in the order of its addresses. A change makes a new version, so that readers
   need no lock. */
#include "registered.h"
#include "dwcheck-dl.h"
#include "retired.h"

#include <pthread.h>
#include <stdatomic.h>
#include <stdlib.h>
#include <string.h>

struct code {
    uint64_t first, last, number;
    const uint8_t *frame;
    size_t length;
};

struct version {
    struct dwcheck_dl_retired retired;
    size_t count;
    struct code codes[];
};

static _Atomic(struct version *) newest;

/* Only the thread that holds the lock uses what follows. */
static pthread_mutex_t lock = PTHREAD_MUTEX_INITIALIZER;
static struct dwcheck_dl_retired *retired;
static uint64_t last_number;

/* How many begin at an address or below it. */
static size_t count_up_to(const struct version *version, uint64_t address) {
    size_t low = 0, high = version == NULL ? 0 : version->count;
    while (low < high) {
        const size_t middle = low + (high - low) / 2;
        if (version->codes[middle].first <= address) low = middle + 1;
        else high = middle;
    }
    return low;
}

/* The registered code that has an address; NULL if there is none. */
static const struct code *code_at(uint64_t address) {
    const struct version *version = atomic_load(&newest);
    const size_t count = count_up_to(version, address);
    return count > 0 && version->codes[count - 1].last >= address ? &version->codes[count - 1] : NULL;
}

bool dwcheck_dl_find_registered(uint64_t address, struct dwcheck_dl_object *object) {
    const struct code *code = code_at(address);
    if (code == NULL) return false;
    *object = (struct dwcheck_dl_object){.first = code->first, .end = code->last + 1, .number = code->number};
    return true;
}

void dwcheck_dl_describe_registered(const struct dwcheck_dl_object *object, struct dwcheck_dl_module *module) {
    const struct code *code = code_at(object->first);
    if (code == NULL || code->number != object->number) return;
    module->eh_frame = (struct dwcheck_dl_section){
        .frame = code->frame, .frame_length = code->length, .frame_address = (uintptr_t)code->frame};
}

/* Publishes a version in the place of the newest one. */
static void publish(struct version *version) {
    struct version *old = atomic_exchange(&newest, version);
    dwcheck_dl_retire(&retired, old == NULL ? NULL : &old->retired);
}

/* A version with room for this many. NULL if there isn't enough memory. */
static struct version *version_of(size_t count) {
    struct version *version = malloc(sizeof *version + count * sizeof *version->codes);
    if (version != NULL) version->count = count;
    return version;
}

static uint32_t add(const struct code *code) {
    const struct version *old = atomic_load(&newest);
    const size_t count = old == NULL ? 0 : old->count, before = count_up_to(old, code->last);
    if (before > 0 && old->codes[before - 1].last >= code->first) return DWCHECK_OVERLAPS;
    struct version *version = version_of(count + 1);
    if (version == NULL) return DWCHECK_NO_MEMORY;
    if (before > 0) memcpy(version->codes, old->codes, before * sizeof *code);
    version->codes[before] = *code;
    if (before < count) memcpy(version->codes + before + 1, old->codes + before, (count - before) * sizeof *code);
    publish(version);
    return DWCHECK_DONE;
}

static uint32_t take(uint64_t first) {
    const struct version *old = atomic_load(&newest);
    const size_t at = count_up_to(old, first);
    if (at == 0 || old->codes[at - 1].first != first) return DWCHECK_NONE;
    struct version *version = version_of(old->count - 1);
    if (version == NULL) return DWCHECK_NO_MEMORY;
    memcpy(version->codes, old->codes, (at - 1) * sizeof *old->codes);
    memcpy(version->codes + at - 1, old->codes + at, (old->count - at) * sizeof *old->codes);
    publish(version);
    return DWCHECK_DONE;
}

uint32_t dwcheck_dl_register(uint64_t first, uint64_t last, const uint8_t *eh_frame, size_t length) {
    if (first > last || last == UINT64_MAX) return DWCHECK_BAD_RANGE;
    pthread_mutex_lock(&lock);
    const struct code code = {first, last, ++last_number, eh_frame, length};
    const uint32_t status = add(&code);
    pthread_mutex_unlock(&lock);
    return status;
}

uint32_t dwcheck_dl_unregister(uint64_t first) {
    pthread_mutex_lock(&lock);
    const uint32_t status = take(first);
    pthread_mutex_unlock(&lock);
    return status;
}
