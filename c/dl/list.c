/* Lists the modules by dl_iterate_phdr, which takes a lock: so signal handlers use the last list. */
#define _GNU_SOURCE
#include "list.h"

#if DWCHECK_DL_HAS_FIND_OBJECT

uint32_t dwcheck_dl_list(void) { return DWCHECK_DONE; }

bool dwcheck_dl_find_listed(uint64_t address, struct dwcheck_dl_object *object) {
    return (void)address, (void)object, false;
}

#else

#include "retired.h"

#include <pthread.h>
#include <stdatomic.h>
#include <stdlib.h>
#include <string.h>

/* A module, and what stands for its entry in the loader's own list. */
struct listed {
    struct dwcheck_dl_object object;
    struct link_map map;
    char name[256]; /* as much of it as fits */
};

struct list {
    struct dwcheck_dl_retired retired;
    size_t count, room;
    struct listed modules[];
};

static _Atomic(struct list *) newest;

/* Only the thread that holds the lock uses what follows. */
static pthread_mutex_t lock = PTHREAD_MUTEX_INITIALIZER;
static struct dwcheck_dl_retired *retired;

static uint64_t page_of(uint64_t address) { return address & ~UINT64_C(4095); }

/* The addresses of a module: from the page of its first segment to the end of the last one. */
static void set_object(struct dwcheck_dl_object *object, const struct dl_phdr_info *info) {
    *object = (struct dwcheck_dl_object){.first = UINT64_MAX};
    for (size_t i = 0; i < info->dlpi_phnum; i++) {
        const ElfW(Phdr) *segment = &info->dlpi_phdr[i];
        const uint64_t first = info->dlpi_addr + segment->p_vaddr, end = first + segment->p_memsz;
        if (segment->p_type == PT_GNU_EH_FRAME) object->header = (const void *)(uintptr_t)first;
        if (segment->p_type != PT_LOAD) continue;
        if (page_of(first) < object->first) object->first = page_of(first);
        if (end > object->end) object->end = end;
    }
}

static int count_module(struct dl_phdr_info *info, size_t size, void *data) {
    (void)info, (void)size;
    ++*(size_t *)data;
    return 0;
}

/* The first module is the program, and has no name here, whatever the loader calls it. */
static int add_module(struct dl_phdr_info *info, size_t size, void *data) {
    struct list *list = data;
    (void)size;
    if (list->count == list->room) return 1; /* another one has come since they were counted; the next list has it */
    struct listed *listed = &list->modules[list->count];
    *listed = (struct listed){.map = {.l_addr = info->dlpi_addr, .l_name = listed->name}};
    if (list->count > 0) {
        strncpy(listed->name, info->dlpi_name, sizeof listed->name - 1);
        listed->map.l_prev = &list->modules[0].map;
    }
    set_object(&listed->object, info);
    listed->object.map = &listed->map;
    list->count++;
    return 0;
}

uint32_t dwcheck_dl_list(void) {
    size_t count = 0;
    pthread_mutex_lock(&lock);
    dl_iterate_phdr(count_module, &count);
    struct list *list = malloc(sizeof *list + count * sizeof *list->modules);
    if (list != NULL) {
        *list = (struct list){.room = count};
        dl_iterate_phdr(add_module, list);
        struct list *old = atomic_exchange(&newest, list);
        dwcheck_dl_retire(&retired, old == NULL ? NULL : &old->retired);
    }
    pthread_mutex_unlock(&lock);
    return list == NULL ? DWCHECK_NO_MEMORY : DWCHECK_DONE;
}

bool dwcheck_dl_find_listed(uint64_t address, struct dwcheck_dl_object *object) {
    const struct list *list = atomic_load(&newest);
    for (size_t i = 0; list != NULL && i < list->count; i++) {
        const struct dwcheck_dl_object *listed = &list->modules[i].object;
        if (address >= listed->first && address < listed->end) return *object = *listed, true;
    }
    return false;
}

#endif
