/* Functions that a program has made and registered: their names, and tables of FDEs by which they are unwound. They are
   registered under a lock, and read without one; while a walk meets a function, it stays registered. */
#include "unwind.h"

#include <pthread.h>
#include <stdatomic.h>
#include <string.h>

static pthread_mutex_t lock = PTHREAD_MUTEX_INITIALIZER;
static unw_dyn_info_list_t list = {.version = 1};

unw_word_t _U_dyn_info_list_addr(void) { return (unw_word_t)&list; }

void _U_dyn_register(unw_dyn_info_t *info) {
    if (!info) return;
    pthread_mutex_lock(&lock);
    list.generation++;
    info->next = list.first;
    info->prev = NULL;
    if (info->next) info->next->prev = info;
    __atomic_store_n(&list.first, info, __ATOMIC_RELEASE);
    pthread_mutex_unlock(&lock);
}

void _U_dyn_cancel(unw_dyn_info_t *info) {
    if (!info) return;
    pthread_mutex_lock(&lock);
    list.generation++;
    if (info->prev) __atomic_store_n(&info->prev->next, info->next, __ATOMIC_RELEASE);
    else if (list.first == info) __atomic_store_n(&list.first, info->next, __ATOMIC_RELEASE);
    if (info->next) info->next->prev = info->prev;
    info->next = info->prev = NULL;
    pthread_mutex_unlock(&lock);
}

const unw_dyn_info_t *dwcheck_unwind_registered(uint64_t address) {
    const unw_dyn_info_t *info = __atomic_load_n(&list.first, __ATOMIC_ACQUIRE);
    while (info && (address < info->start_ip || address >= info->end_ip)) info = __atomic_load_n(&info->next, __ATOMIC_ACQUIRE);
    return info;
}

/* The address of the FDE to which a registered table leads; or 0. Its entries are pairs of distances from a base. */
static uint64_t fde_of(const unw_dyn_info_t *info, uint64_t address) {
    struct entry { int32_t first, fde; } entry;
    const uint8_t *table = (const uint8_t *)info->u.rti.table_data;
    uint64_t base = info->format == UNW_INFO_FORMAT_IP_OFFSET ? info->start_ip : info->u.rti.segbase;
    size_t low = 0, high = info->u.rti.table_len * sizeof(unw_word_t) / sizeof entry;
    while (table && low < high) {
        size_t middle = low + (high - low) / 2;
        memcpy(&entry, table + sizeof entry * middle, sizeof entry);
        if (base + (uint64_t)(int64_t)entry.first <= address) low = middle + 1;
        else high = middle;
    }
    if (!table || low == 0) return 0;
    memcpy(&entry, table + sizeof entry * (low - 1), sizeof entry);
    return info->u.rti.segbase + (uint64_t)(int64_t)entry.fde;
}

/* The end of the record at an address; 0 if it is in no usual format. */
static uint64_t end_of_record(uint64_t record) {
    enum { LONG_FORMAT = 0xfffffff0u };
    uint32_t length;
    if (!dwcheck_unwind_can_read(record, 8)) return 0;
    memcpy(&length, (const void *)record, sizeof length);
    return length == 0 || length >= LONG_FORMAT ? 0 : record + sizeof length + length;
}

/* The FDE and its CIE as a section, which begins with the first of the two. */
bool dwcheck_unwind_registered_table(uint64_t address, struct dwcheck_dl_module *module) {
    const unw_dyn_info_t *info = dwcheck_unwind_registered(address);
    uint32_t distance;
    if (!info || (info->format != UNW_INFO_FORMAT_TABLE && info->format != UNW_INFO_FORMAT_REMOTE_TABLE
                  && info->format != UNW_INFO_FORMAT_IP_OFFSET))
        return false;
    uint64_t fde = fde_of(info, address), fde_end = fde ? end_of_record(fde) : 0;
    if (fde_end == 0) return false;
    memcpy(&distance, (const void *)(fde + sizeof distance), sizeof distance);
    uint64_t cie = fde + sizeof distance - distance, cie_end = end_of_record(cie);
    if (cie_end == 0) return false;
    uint64_t first = cie < fde ? cie : fde, end = cie < fde ? fde_end : cie_end;
    *module = (struct dwcheck_dl_module){
        .object = {.first = info->start_ip, .end = info->end_ip},
        .eh_frame = {.frame = (const uint8_t *)first, .frame_length = end - first, .frame_address = first}};
    return true;
}
