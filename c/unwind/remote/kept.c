/* The rows that steps in an address space have found before, and the records of functions. Rows are kept by parts, each of which
   is made when the first row of it is kept; with more rows there are more parts. A call claims all for a moment, in which it
   asks for nothing, so none waits for a caller's accessor. One that can't claim them does without.

   A caller may have one address space for several processes, and tell them apart by the context that it passes (strace does):
   so what is kept is that of a context.

   The proved walk takes the rows from dwcheck_rows. There all rows of a context have one slot, though each was found in a
   section of its own: the copy of two records. What a walk takes is the row that was found for its address. */
#include "remote.h"

#include <stdatomic.h>
#include <stdlib.h>
#include <string.h>

enum { MOST_PARTS = 16, ENTRIES = 512, ROWS_OF_A_PART = 384, FUNCTIONS = 2048, BLOCK = 128, TRIES = 1000, SLOTS = 64 };

struct entry { uint64_t key; uint32_t slot; struct facts facts; };
struct function_entry { uint32_t slot; struct kept_function function; };

struct part {
    dwcheck_rows rows;
    struct entry entries[ENTRIES];
};

/* Functions are found by the block of addresses in which they were looked up. Their bytes are on the heap. */
struct kept_rows {
    atomic_bool is_claimed;
    uint32_t generation, parts, filled, slots;
    const void *contexts[SLOTS];
    struct part *part[MOST_PARTS];
    struct function_entry *functions;
};

static uint64_t hash(uint64_t number, uint32_t slot) { return (number + ((uint64_t)slot << 48)) * UINT64_C(0x9e3779b97f4a7c15) >> 32; }

static void forget_all(struct kept_rows *kept, uint32_t generation) {
    for (int i = 0; i < MOST_PARTS; i++) free(kept->part[i]), kept->part[i] = NULL;
    for (int i = 0; kept->functions && i < FUNCTIONS; i++) free((void *)kept->functions[i].function.record.bytes);
    free(kept->functions), kept->functions = NULL;
    kept->parts = 1, kept->filled = kept->slots = 0;
    kept->generation = generation;
}

/* Claims what an address space keeps, without what is from before its last flush. NULL if it keeps nothing, or if another
   thread has it for long. */
static struct kept_rows *claim(unw_addr_space_t space) {
    struct kept_rows *kept = space->policy == UNW_CACHE_NONE ? NULL : space->kept;
    for (int i = 0; kept && i < TRIES; i++) {
        bool is_free = false;
        if (!atomic_compare_exchange_strong_explicit(&kept->is_claimed, &is_free, true, memory_order_acquire, memory_order_relaxed))
            continue;
        const uint32_t generation = __atomic_load_n(&space->generation, __ATOMIC_ACQUIRE);
        if (kept->generation != generation) forget_all(kept, generation);
        return kept;
    }
    return NULL;
}

static void give_back(struct kept_rows *kept) { atomic_store_explicit(&kept->is_claimed, false, memory_order_release); }

/* The slot of a context; or the number of slots if it has none. */
static uint32_t slot_of(const struct kept_rows *kept, const void *context) {
    uint32_t slot = 0;
    while (slot < kept->slots && kept->contexts[slot] != context) slot++;
    return slot;
}

/* The slot of a context, which gets one if it has none. If no slot is left, all is forgotten. */
static uint32_t slot_for(struct kept_rows *kept, const void *context) {
    const uint32_t slot = slot_of(kept, context);
    if (slot < kept->slots) return slot;
    if (slot == SLOTS) forget_all(kept, kept->generation);
    kept->contexts[kept->slots] = context;
    return kept->slots++;
}

/* The part of a key, which may be NULL, and the entry there. */
static struct part **part_of(struct kept_rows *kept, uint64_t key, uint32_t slot) {
    return &kept->part[hash(key, slot) / ENTRIES % kept->parts];
}
static struct entry *entry_of(struct part *part, uint64_t key, uint32_t slot) { return &part->entries[hash(key, slot) % ENTRIES]; }

/* Where the function of the address `key` - 1 is kept. */
static struct function_entry *function_of(struct kept_rows *kept, uint64_t key, uint32_t slot) {
    return &kept->functions[hash((key - 1) / BLOCK, slot) % FUNCTIONS];
}

/* The part in which a row is to be kept, which may be made for it. With four times as many parts, most rows are looked up in
   another one, and found anew. */
static struct part *part_for(struct kept_rows *kept, uint64_t key, uint32_t slot) {
    if (kept->filled++ >= kept->parts * ROWS_OF_A_PART && kept->parts < MOST_PARTS) kept->parts *= 4;
    struct part **part = part_of(kept, key, slot);
    if (!*part) *part = calloc(1, sizeof **part);
    return *part;
}

static uint32_t length_of(const struct kept_function *function) { return function->record.cie_length + function->record.fde_length; }

static bool is_of(const struct function_entry *entry, uint64_t key, uint32_t slot) {
    return entry->slot == slot && key - 1 >= entry->function.start && key - 1 < entry->function.end;
}

enum kept dwcheck_remote_kept(const struct remote_cursor *walk, struct facts *facts, struct kept_function *function,
                              uint8_t bytes[MOST_KEPT_BYTES]) {
    const uint64_t key = walk->frame.key;
    struct kept_rows *kept = claim(walk->space);
    enum kept result = KEPT_NOTHING;
    if (!kept) return result;
    const uint32_t slot = slot_of(kept, walk->context);
    struct part *part = *part_of(kept, key, slot);
    const struct entry *entry = part ? entry_of(part, key, slot) : NULL;
    const struct function_entry *there = kept->functions ? function_of(kept, key, slot) : NULL;
    if (entry && entry->key == key && entry->slot == slot) {
        *facts = entry->facts;
        result = KEPT_ROW;
    } else if (there && is_of(there, key, slot)) {
        *function = there->function;
        function->record.bytes = memcpy(bytes, there->function.record.bytes, length_of(&there->function));
        result = KEPT_FUNCTION;
    }
    give_back(kept);
    return result;
}

void dwcheck_remote_keep_row(const struct remote_cursor *walk, uint64_t key, const struct facts *facts, const dwcheck_module *module) {
    struct kept_rows *kept = claim(walk->space);
    if (!kept) return;
    const uint32_t slot = slot_for(kept, walk->context);
    struct part *part = part_for(kept, key, slot);
    const dwcheck_header none = {.length = 0};
    dwcheck_fault fault;
    if (part && dwcheck_rows_fill(&part->rows, slot, module, &none, key - 1, &fault) == DWCHECK_DONE)
        *entry_of(part, key, slot) = (struct entry){key, slot, *facts};
    give_back(kept);
}

/* Puts a copy of a function in the place of another one. */
static void put_function(struct function_entry *to, uint32_t slot, const struct kept_function *from) {
    uint8_t *bytes = malloc(length_of(from));
    if (!bytes) return;
    memcpy(bytes, from->record.bytes, length_of(from));
    free((void *)to->function.record.bytes);
    *to = (struct function_entry){slot, *from};
    to->function.record.bytes = bytes;
}

void dwcheck_remote_keep_function(const struct remote_cursor *walk, uint64_t key, const struct kept_function *function) {
    struct kept_rows *kept = length_of(function) <= MOST_KEPT_BYTES ? claim(walk->space) : NULL;
    if (!kept) return;
    const uint32_t slot = slot_for(kept, walk->context);
    if (!kept->functions) kept->functions = calloc(FUNCTIONS, sizeof *kept->functions);
    if (kept->functions) put_function(function_of(kept, key, slot), slot, function);
    give_back(kept);
}

uint32_t dwcheck_remote_walk(const struct remote_cursor *walk, dwcheck_place *place, const dwcheck_block *block) {
    struct kept_rows *kept = claim(walk->space);
    if (!kept) return DWCHECK_STOP_MISSING;
    const uint32_t slot = slot_of(kept, walk->context);
    struct part *part = slot < kept->slots ? *part_of(kept, place->key, slot) : NULL;
    uint32_t stop = DWCHECK_STOP_MISSING;
    uint64_t address;
    size_t count;
    if (part) dwcheck_walk(&part->rows, UINT64_C(1) << slot, place, block, 1, &address, 1, &count, &stop);
    give_back(kept);
    return stop;
}

struct kept_rows *dwcheck_remote_new(void) {
    struct kept_rows *kept = calloc(1, sizeof *kept);
    if (kept) kept->parts = 1;
    return kept;
}

void dwcheck_remote_free(struct kept_rows *kept) {
    forget_all(kept, 0);
    free(kept);
}
