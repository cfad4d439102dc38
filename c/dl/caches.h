/* The rows that walks keep: a fixed number of caches, each with the modules that its rows are of. A walk claims one, so
   that no other walk uses it, also none in a signal handler. */
#ifndef DWCHECK_DL_CACHES_H
#define DWCHECK_DL_CACHES_H

#include "find.h"
#include "room.h"
#include "rows.h"

enum { DWCHECK_DL_SLOTS = 64, DWCHECK_DL_CHUNK = 64, DWCHECK_DL_FRAMES = 6 };

/* What the first walks use lies together, since each page that is touched for the first time takes a microsecond or
   two. */
struct dwcheck_dl_cache {
    _Atomic uint64_t claims; /* how often it was claimed and released: odd while a walk has it */
    uint32_t used, turn;     /* how many slots have a module, and which one has lost its own last */
    uint8_t hints[DWCHECK_DL_SLOTS]; /* the slot that the module of an address may have */
    union { /* what the walk has found last */
        uint64_t addresses[DWCHECK_DL_CHUNK];
        dwcheck_dl_frame frames[DWCHECK_DL_FRAMES];
    } found;
    struct dwcheck_dl_module modules[DWCHECK_DL_SLOTS];
    dwcheck_dl_rows rows;
} __attribute__((aligned(4096)));

/* Claims a cache for a walk: preferably the one that the thread had last. Returns NULL if walks have all of them. It
   takes no lock. A cache that isn't released, since siglongjmp has left the walk, stays claimed. */
DWCHECK_DL_HIDDEN struct dwcheck_dl_cache *dwcheck_dl_claim(void);
DWCHECK_DL_HIDDEN void dwcheck_dl_release(struct dwcheck_dl_cache *cache);

/* The slot of the module that has an address, if this walk has confirmed it; else -1. */
DWCHECK_DL_HIDDEN int dwcheck_dl_slot_of(const struct dwcheck_dl_cache *cache, uint64_t confirmed, uint64_t address);

/* Confirms the module that has an address for this walk: its bit in `confirmed` becomes set. The rows of another module
   that had its slot are forgotten. Returns the slot, or -1 if no module has the address. */
DWCHECK_DL_HIDDEN int dwcheck_dl_confirm(struct dwcheck_dl_cache *cache, uint64_t *confirmed, uint64_t address);

/* Keeps the row of an address of a module that is confirmed. Returns DWCHECK_DONE, also if there is a row that can't be
   kept, and walks say so; DWCHECK_NONE if no row covers the address; DWCHECK_NO_MEMORY if there isn't enough stack; or
   why the row can't be read. */
DWCHECK_DL_HIDDEN uint32_t dwcheck_dl_fill(struct dwcheck_dl_cache *cache, int slot, uint64_t address,
                                           struct dwcheck_dl_room room);

/* The module of an address: that of the cache, or if it is NULL, what `room` becomes. Returns NULL if there is none. */
DWCHECK_DL_HIDDEN const struct dwcheck_dl_module *dwcheck_dl_module_of(struct dwcheck_dl_cache *cache, uint64_t *confirmed,
                                                                       uint64_t address, struct dwcheck_dl_module *room);

/* For what readers use and writers replace: walks that have no cache are counted while they read. */
DWCHECK_DL_HIDDEN void dwcheck_dl_begin_reading(void);
DWCHECK_DL_HIDDEN void dwcheck_dl_end_reading(void);

/* The claims of all caches at some moment. What was replaced before it isn't read any more, once each walk is done that
   was under way then. */
enum { DWCHECK_DL_CACHES = 19 };
struct dwcheck_dl_moment {
    uint64_t claims[DWCHECK_DL_CACHES];
};
DWCHECK_DL_HIDDEN void dwcheck_dl_now(struct dwcheck_dl_moment *moment);
DWCHECK_DL_HIDDEN bool dwcheck_dl_is_past(const struct dwcheck_dl_moment *moment);

#endif
