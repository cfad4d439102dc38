/* The name of the function that has an address, by the symbol tables of the module's file, if that is still the one that was
   loaded; and the file that it is of. No memory is allocated. */
#include "../dl/files.h"
#include "unwind.h"

#include <link.h>
#include <string.h>
#include <sys/mman.h>
#include <unistd.h>

typedef struct dwcheck_dl_bytes bytes;

/* The loader gives no name for the program itself. */
static const char *path_of(const struct link_map *map) {
    return map && map->l_name && map->l_name[0] ? map->l_name : DWCHECK_DL_PROGRAM;
}

/* Of names that aren't of a file: longer ones are cut. */
enum { LONGEST = 1 << 20 };

/* A registered function has the name that it was given. */
static int registered_name(const unw_dyn_info_t *info, uint64_t address, char *name, size_t size, unw_word_t *offset) {
    if (info->format != UNW_INFO_FORMAT_DYNAMIC || !info->u.pi.name_ptr) return -UNW_ENOINFO;
    if (offset) *offset = address - info->start_ip;
    return dwcheck_unwind_put_name((const char *)info->u.pi.name_ptr, LONGEST, name, size);
}

int dwcheck_unwind_name(uint64_t address, char *name, size_t size, unw_word_t *offset) {
    struct dwcheck_dl_object object;
    struct dl_phdr_info info;
    const unw_dyn_info_t *registered = dwcheck_unwind_registered(address);
    name[0] = '\0';
    if (registered) return registered_name(registered, address, name, size, offset);
    if (!dwcheck_dl_find(address, &object) || !object.map) return -UNW_EUNSPEC; /* so does libunwind */
    const bytes image = {(const uint8_t *)object.first, object.end - object.first};
    const bytes file = dwcheck_dl_info_of(&object, &info) ? dwcheck_dl_map_file(&info) : (bytes){NULL, 0};
    const bytes read = file.length ? file : image;
    int result = dwcheck_unwind_symbol(read.first, read.length, address - object.map->l_addr, name, size, offset);
    if (file.length) munmap((void *)file.first, file.length);
    return result;
}

/* The place of an address in its file; the address within the module if its segments can't be read. */
static uint64_t place_in_file(const struct dwcheck_dl_object *object, uint64_t address) {
    struct dl_phdr_info info;
    if (!dwcheck_dl_info_of(object, &info)) return address - object->first;
    for (size_t i = 0; i < info.dlpi_phnum; i++) {
        const ElfW(Phdr) *part = &info.dlpi_phdr[i];
        const uint64_t within = address - info.dlpi_addr - part->p_vaddr;
        if (part->p_type == PT_LOAD && within < part->p_filesz) return within + part->p_offset;
    }
    return address - object->first;
}

int dwcheck_unwind_file(uint64_t address, char *name, size_t size, unw_word_t *offset) {
    struct dwcheck_dl_object object;
    name[0] = '\0';
    if (!dwcheck_dl_find(address, &object) || !object.map) return -UNW_EUNSPEC; /* so does libunwind */
    const char *path = path_of(object.map);
    int result = dwcheck_unwind_put_name(path, LONGEST, name, size);
    if (strcmp(path, DWCHECK_DL_PROGRAM) == 0) {
        ssize_t length = readlink(path, name, size - 1);
        if (length < 0) return -UNW_ENOINFO;
        name[length] = '\0';
        result = (size_t)length < size - 1 ? 0 : -UNW_ENOMEM;
    }
    if (offset) *offset = place_in_file(&object, address);
    return result;
}
