/* Reads .debug_frame of modules, for walks that come later. */
#define _GNU_SOURCE
#include "caches.h"
#include "debug_frame.h"
#include "dwcheck-dl.h"
#include "files.h"
#include "list.h"
#include "prepared.h"
#include "retired.h"

#include <pthread.h>
#include <stdatomic.h>
#include <stdlib.h>
#include <string.h>
#include <unistd.h>

/* A section that was made for a module, which lies after its search table in the same piece of memory. */
struct made {
    struct dwcheck_dl_retired retired;
    struct made *_Atomic next;
    struct dwcheck_dl_object object;
    uint64_t identity, layout;
    struct dwcheck_dl_section section;
    bool is_there;
    uint8_t bytes[];
};

static struct made *_Atomic all;
static _Atomic uint64_t preparations;

/* Only the thread that holds the lock uses what follows. */
static pthread_mutex_t lock = PTHREAD_MUTEX_INITIALIZER;
static struct dwcheck_dl_retired *retired;

uint64_t dwcheck_dl_preparations(void) { return atomic_load(&preparations); }

/* Whether a section was made for the module that is described. Where modules are listed, each list has entries of its
   own for them. */
static bool is_for(const struct made *made, const struct dwcheck_dl_module *module) {
    return made->object.first == module->object.first && made->object.end == module->object.end
           && (made->object.map == module->object.map || !DWCHECK_DL_HAS_FIND_OBJECT)
           && made->identity == module->identity && made->layout == module->layout;
}

static struct made *find(const struct dwcheck_dl_module *module) {
    struct made *made = atomic_load(&all);
    while (made != NULL && !is_for(made, module)) made = atomic_load(&made->next);
    return made;
}

void dwcheck_dl_use_prepared(struct dwcheck_dl_module *module) {
    module->prepared = dwcheck_dl_preparations();
    const struct made *made = find(module);
    if (made != NULL) module->debug_frame = &made->section;
}

/* ---- making a section */

/* The code of a module, as linked: from the first to the last address of the segments that may be executed. */
struct code {
    uint64_t first, last;
};

static bool find_code(const struct dl_phdr_info *info, struct code *code) {
    *code = (struct code){UINT64_MAX, 0};
    for (size_t i = 0; i < info->dlpi_phnum; i++) {
        const ElfW(Phdr) *segment = &info->dlpi_phdr[i];
        if (segment->p_type != PT_LOAD || !(segment->p_flags & PF_X) || segment->p_memsz == 0) continue;
        if (segment->p_vaddr < code->first) code->first = segment->p_vaddr;
        if (segment->p_vaddr + segment->p_memsz - 1 > code->last) code->last = segment->p_vaddr + segment->p_memsz - 1;
    }
    return code->first <= code->last;
}

/* A section and its table, of which malloc gave the bytes. */
struct pieces {
    uint8_t *frame, *table;
    size_t frame_length, table_length;
};

/* Makes them of .debug_frame, if that has no fault: as in dwcheck_process_add_both, one costs all its rows. */
static uint32_t make_pieces(struct pieces *pieces, const struct code *code, struct dwcheck_dl_bytes debug_frame) {
    dwcheck_module module = {.frame = debug_frame.first, .frame_length = debug_frame.length, .section_address = code->first,
                             .order = DWCHECK_LITTLE, .address_size = sizeof(void *), .kind = DWCHECK_DEBUG_FRAME};
    dwcheck_counts counts;
    dwcheck_fault fault;
    uint32_t status = dwcheck_dl_as_eh_frame(&module, code->first, code->last, &pieces->frame, &pieces->frame_length);
    if (status != DWCHECK_DONE) return status;
    module.kind = DWCHECK_DL_KIND, module.frame = pieces->frame, module.frame_length = pieces->frame_length;
    status = dwcheck_module_check(&module, &counts, &fault);
    return status != DWCHECK_DONE ? status : dwcheck_dl_table(&module, &pieces->table, &pieces->table_length);
}

/* Joins them. Returns NULL if there isn't enough memory. */
static struct made *joined(const struct pieces *pieces) {
    struct made *made = malloc(sizeof *made + pieces->table_length + pieces->frame_length);
    if (made == NULL) return NULL;
    *made = (struct made){.section = {.table = made->bytes, .table_length = pieces->table_length,
                                      .frame = made->bytes + pieces->table_length, .frame_length = pieces->frame_length}};
    if (pieces->table_length != 0) memcpy(made->bytes, pieces->table, pieces->table_length);
    memcpy(made->bytes + pieces->table_length, pieces->frame, pieces->frame_length);
    return made;
}

/* Makes the section of a module. Returns DWCHECK_DONE; or another status if nothing of .debug_frame can be used. */
static uint32_t make(struct made **made, const struct dl_phdr_info *info, struct dwcheck_dl_bytes debug_frame) {
    struct pieces pieces = {NULL, NULL, 0, 0};
    struct code code;
    if (debug_frame.length == 0 || !find_code(info, &code)) return DWCHECK_NONE;
    uint32_t status = make_pieces(&pieces, &code, debug_frame);
    if (status == DWCHECK_DONE && (*made = joined(&pieces)) == NULL) status = DWCHECK_NO_MEMORY;
    free(pieces.frame);
    free(pieces.table);
    if (status != DWCHECK_DONE) return status;
    (*made)->section.load_address = info->dlpi_addr;
    (*made)->section.frame_address = (*made)->section.table_address = code.first;
    return DWCHECK_DONE;
}

/* ---- all modules */

struct preparation {
    uint32_t status;
    bool is_changed;
};

/* Describes the module of an entry of the loader's list. It counts as a reader, since another thread may replace what
   it reads; but not for longer, so that what is retired later in this call can be freed in it. */
static bool describe(const struct dl_phdr_info *info, struct dwcheck_dl_module *module) {
    struct dwcheck_dl_object object;
    struct code code;
    if (!find_code(info, &code)) return false;
    dwcheck_dl_begin_reading();
    const bool is_found = dwcheck_dl_find(info->dlpi_addr + code.first, &object) && object.map != NULL;
    if (is_found) dwcheck_dl_describe(&object, module);
    dwcheck_dl_end_reading();
    return is_found;
}

static uint32_t make_for(const struct dl_phdr_info *info, const struct dwcheck_dl_module *module, struct made **made) {
    const struct dwcheck_dl_bytes id = {module->id, module->layout == 0 ? module->id_length : 0}; /* its build id */
    uint8_t *frame = NULL;
    size_t length = 0;
    const int file = dwcheck_dl_open_file(info);
    if (file < 0) return DWCHECK_NONE;
    uint32_t status = dwcheck_dl_debug_frame_of(file, info, id, &frame, &length);
    close(file);
    if (status != DWCHECK_DONE) return status;
    status = make(made, info, (struct dwcheck_dl_bytes){frame, length});
    free(frame);
    return status;
}

static int look(struct dl_phdr_info *info, size_t size, void *data) {
    struct preparation *preparation = data;
    struct dwcheck_dl_module module;
    struct made *made;
    (void)size;
    if (!describe(info, &module)) return 0;
    if ((made = find(&module)) != NULL) return made->is_there = true, 0;
    const uint32_t status = make_for(info, &module, &made);
    if (status == DWCHECK_NO_MEMORY) preparation->status = status;
    if (status != DWCHECK_DONE) return 0;
    made->object = module.object, made->identity = module.identity, made->layout = module.layout, made->is_there = true;
    atomic_store(&made->next, atomic_load(&all));
    atomic_store(&all, made);
    preparation->is_changed = true;
    return 0;
}

/* Takes those away whose modules are gone. A walk that begins after the number has changed doesn't use them. */
static void remove_gone(void) {
    for (struct made *_Atomic *at = &all; atomic_load(at) != NULL;) {
        struct made *made = atomic_load(at);
        if (made->is_there) {
            at = &made->next;
            continue;
        }
        atomic_store(at, atomic_load(&made->next));
        atomic_fetch_add(&preparations, 1);
        dwcheck_dl_retire(&retired, &made->retired);
    }
}

uint32_t dwcheck_dl_prepare(void) {
    struct preparation preparation = {.status = DWCHECK_DONE};
    int cancel;
    if (dwcheck_dl_list() != DWCHECK_DONE) return DWCHECK_NO_MEMORY;
    pthread_setcancelstate(PTHREAD_CANCEL_DISABLE, &cancel); /* open and close would leave with the lock held */
    pthread_mutex_lock(&lock);
    for (struct made *made = atomic_load(&all); made != NULL; made = atomic_load(&made->next)) made->is_there = false;
    dl_iterate_phdr(look, &preparation);
    remove_gone();
    if (preparation.is_changed) atomic_fetch_add(&preparations, 1);
    dwcheck_dl_retire(&retired, NULL);
    pthread_mutex_unlock(&lock);
    pthread_setcancelstate(cancel, NULL);
    return preparation.status;
}
