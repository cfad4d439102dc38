/* Finds the module of an address in this process, and its tables, at any moment: by _dl_find_object of glibc 2.35 and
   later, which takes no lock and which signal handlers may call. */
#ifndef DWCHECK_DL_FIND_H
#define DWCHECK_DL_FIND_H

#include "dwcheck.h"
#include <link.h>
#include <stdbool.h>

#define DWCHECK_DL_HIDDEN __attribute__((visibility("hidden")))

/* What the loader says of the module that has an address. Two modules with the same values may still differ, if one has
   been loaded in the place of the other. */
struct dwcheck_dl_object {
    uint64_t first, end;        /* its addresses: from the first one up to, but not including, `end` */
    const uint8_t *header;      /* its .eh_frame_hdr section; NULL if it has none */
    const struct link_map *map; /* NULL for code that the program has registered */
    uint64_t number;            /* of registered code; else 0 */
};

/* A section in the format of .eh_frame, and the header with its search table. */
struct dwcheck_dl_section {
    const uint8_t *frame, *table;
    size_t frame_length, table_length; /* 0 if there is none */
    uint64_t load_address, frame_address, table_address; /* the last two are as linked */
};

/* A module with its tables, and what tells it from another one with the same object. */
struct dwcheck_dl_module {
    struct dwcheck_dl_object object;
    struct dwcheck_dl_section eh_frame;
    const struct dwcheck_dl_section *debug_frame; /* what dwcheck_dl_prepare has written of it; NULL if nothing */
    const uint8_t *id; /* its build id, or if it has none on its first page, the beginning of its section */
    size_t id_length;
    uint64_t identity; /* a checksum of these bytes */
    uint64_t layout;   /* one of its name and its segments, if it has no build id; else 0 */
    uint64_t prepared; /* which dwcheck_dl_prepare was the last one before */
};

/* Writes what the loader says of the module that has an address, or what the program has registered for it. Returns
   whether there is one. */
DWCHECK_DL_HIDDEN bool dwcheck_dl_find(uint64_t address, struct dwcheck_dl_object *object);

/* Reads the module of an object: its tables and its identity. A module that is found so must not be unloaded meanwhile,
   which no module is that has a frame on the stack. */
DWCHECK_DL_HIDDEN void dwcheck_dl_describe(const struct dwcheck_dl_object *object, struct dwcheck_dl_module *module);

/* Whether an object, which has just been found, is the module that was described earlier. */
DWCHECK_DL_HIDDEN bool dwcheck_dl_is_same(const struct dwcheck_dl_module *module, const struct dwcheck_dl_object *object);

/* What the .eh_frame sections of this process are. */
#if defined(__aarch64__)
enum { DWCHECK_DL_KIND = DWCHECK_EH_FRAME_AARCH64 };
#else
enum { DWCHECK_DL_KIND = DWCHECK_EH_FRAME };
#endif

/* A section and its header, for the calls of dwcheck.h. */
static inline dwcheck_module dwcheck_dl_as_module(const struct dwcheck_dl_section *section) {
    return (dwcheck_module){.frame = section->frame, .frame_length = section->frame_length, .load_address = section->load_address,
                            .order = DWCHECK_LITTLE, .address_size = sizeof(void *), .kind = DWCHECK_DL_KIND,
                            .section_address = section->frame_address, .room = SIZE_MAX};
}

static inline dwcheck_header dwcheck_dl_as_header(const struct dwcheck_dl_section *section) {
    return (dwcheck_header){section->table, section->table_length, section->table_address};
}

/* The section of a module that is asked for the row of an address first, or after another one that doesn't cover it; NULL
   if there is none. The order is that of dwcheck_process_add_both. */
static inline const struct dwcheck_dl_section *dwcheck_dl_first_section(const struct dwcheck_dl_module *module) {
    if (module->debug_frame != NULL) return module->debug_frame;
    return module->eh_frame.frame_length != 0 ? &module->eh_frame : NULL;
}

static inline const struct dwcheck_dl_section *dwcheck_dl_next_section(const struct dwcheck_dl_module *module,
                                                                       const struct dwcheck_dl_section *section) {
    return section == module->debug_frame && module->eh_frame.frame_length != 0 ? &module->eh_frame : NULL;
}

#endif
