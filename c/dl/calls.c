/* Calls about modules that read what the loader says: none of them changes what walks do. */
#define _GNU_SOURCE
#include "caches.h"
#include "dwcheck-dl.h"
#include "files.h"
#include "list.h"

#include <fcntl.h>
#include <limits.h>
#include <stdatomic.h>
#include <sys/syscall.h>
#include <unistd.h>

/* The name of the program's file, which the kernel is asked for once. Meanwhile others take the name of a link to it. */
static const char *name_of_program(void) {
    static char name[PATH_MAX + 1];
    static atomic_int state;
    enum { UNKNOWN, ASKING, KNOWN };
    int expected = UNKNOWN;
    if (atomic_compare_exchange_strong(&state, &expected, ASKING)) {
        const long length = syscall(SYS_readlinkat, AT_FDCWD, DWCHECK_DL_PROGRAM, name, PATH_MAX);
        if (length > 0) atomic_store(&state, KNOWN);
    }
    return atomic_load(&state) == KNOWN ? name : DWCHECK_DL_PROGRAM;
}

uint32_t dwcheck_dl_update(dwcheck_dl_counts *counts) {
    if (counts != NULL) *counts = (dwcheck_dl_counts){0, 0, 0, 0};
    return dwcheck_dl_list();
}

uint32_t dwcheck_dl_module_at(uint64_t address, dwcheck_dl_loaded *module) {
    struct dwcheck_dl_object object;
    dwcheck_dl_begin_reading();
    const bool is_found = dwcheck_dl_find(address, &object);
    dwcheck_dl_end_reading();
    if (!is_found) return DWCHECK_NONE;
    *module = (dwcheck_dl_loaded){.first = object.first, .end = object.end, .name = ""};
    if (object.map == NULL) return DWCHECK_DONE;
    module->load_address = object.map->l_addr;
    module->name = object.map->l_name[0] ? object.map->l_name : name_of_program();
    return DWCHECK_DONE;
}
