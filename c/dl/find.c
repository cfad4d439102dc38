/* Finds the module of an address, and says whether it is still the one that was found before. */
#define _GNU_SOURCE
#include "find.h"
#include "image.h"
#include "list.h"
#include "prepared.h"
#include "registered.h"

#include <dlfcn.h>
#include <string.h>

#if DWCHECK_DL_HAS_FIND_OBJECT
static bool find_loaded(uint64_t address, struct dwcheck_dl_object *object) {
    struct dl_find_object found;
    if (_dl_find_object((void *)(uintptr_t)address, &found) != 0) return false;
    *object = (struct dwcheck_dl_object){.first = (uintptr_t)found.dlfo_map_start, .end = (uintptr_t)found.dlfo_map_end,
                                         .header = found.dlfo_eh_frame, .map = found.dlfo_link_map};
    return true;
}
#else
static bool find_loaded(uint64_t address, struct dwcheck_dl_object *object) { return dwcheck_dl_find_listed(address, object); }
#endif

bool dwcheck_dl_find(uint64_t address, struct dwcheck_dl_object *object) {
    return find_loaded(address, object) || dwcheck_dl_find_registered(address, object);
}

/* A checksum of the name and the segments. */
static uint64_t layout_of(const struct dl_phdr_info *info) {
    uint64_t sum = dwcheck_dl_sum(0, info->dlpi_name, strlen(info->dlpi_name));
    return dwcheck_dl_sum(sum, info->dlpi_phdr, info->dlpi_phnum * sizeof *info->dlpi_phdr);
}

/* What tells the module from another one with the same object: its build id, or if it has none, its name, its segments
   and the beginning of its section. */
static void set_identity(struct dwcheck_dl_module *module, const struct dl_phdr_info *info) {
    enum { MOST = 1024 };
    struct dwcheck_dl_bytes id = dwcheck_dl_build_id(&module->object, info);
    if (id.length == 0) {
        module->layout = layout_of(info) | 1;
        const struct dwcheck_dl_section *section = &module->eh_frame;
        id = (struct dwcheck_dl_bytes){section->frame, section->frame_length < MOST ? section->frame_length : MOST};
    }
    module->id = id.first, module->id_length = id.length;
    module->identity = dwcheck_dl_sum(0, id.first, id.length);
}

static void set_tables(struct dwcheck_dl_module *module, const struct dl_phdr_info *info) {
    const uint8_t *header = module->object.header;
    struct dwcheck_dl_bytes frame = {NULL, 0}, table = {NULL, 0};
    if (header != NULL) {
        frame = dwcheck_dl_eh_frame_of(info, header);
        table = dwcheck_dl_table_of(info, header);
    } else if (module->object.map->l_prev == NULL) { /* the program: gcc -static writes no header */
        frame = dwcheck_dl_frame_of_program(info);
    }
    module->eh_frame = (struct dwcheck_dl_section){
        .frame = frame.first, .frame_length = frame.length, .frame_address = (uintptr_t)frame.first,
        .table = table.first, .table_length = table.length, .table_address = (uintptr_t)table.first};
}

void dwcheck_dl_describe(const struct dwcheck_dl_object *object, struct dwcheck_dl_module *module) {
    struct dl_phdr_info info;
    *module = (struct dwcheck_dl_module){.object = *object};
    if (object->map == NULL) {
        dwcheck_dl_describe_registered(object, module);
        return;
    }
    if (!dwcheck_dl_info_of(object, &info)) return;
    set_tables(module, &info);
    set_identity(module, &info);
    dwcheck_dl_use_prepared(module);
}

static bool is_same_object(const struct dwcheck_dl_object *one, const struct dwcheck_dl_object *other) {
    return one->first == other->first && one->end == other->end && one->header == other->header && one->map == other->map
           && one->number == other->number;
}

bool dwcheck_dl_is_same(const struct dwcheck_dl_module *module, const struct dwcheck_dl_object *object) {
    struct dl_phdr_info info;
    if (!is_same_object(&module->object, object)) return false;
    if (object->map == NULL) return true; /* its number is given once */
    if (module->prepared != dwcheck_dl_preparations()) return false;
    if (module->layout != 0 && (!dwcheck_dl_info_of(object, &info) || (layout_of(&info) | 1) != module->layout)) return false;
    return dwcheck_dl_sum(0, module->id, module->id_length) == module->identity;
}
