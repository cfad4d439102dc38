/* What the bytes of a module in memory say: its segments, its build id, its .eh_frame section. */
#ifndef DWCHECK_DL_IMAGE_H
#define DWCHECK_DL_IMAGE_H

#include "find.h"

/* Bytes of a module, of a file that is mapped into memory, or of a part of it. */
struct dwcheck_dl_bytes {
    const uint8_t *first;
    size_t length;
};

/* Finds the program headers of an object, at the beginning of its first page. Returns whether they are there; `info`
   has what dl_iterate_phdr would say of the module, but for its counts. */
DWCHECK_DL_HIDDEN bool dwcheck_dl_info_of(const struct dwcheck_dl_object *object, struct dl_phdr_info *info);

/* The end of the segment that has this address, as loaded, and may be read; 0 if there is none. */
DWCHECK_DL_HIDDEN uint64_t dwcheck_dl_end_of_segment(const struct dl_phdr_info *info, uint64_t address);

/* The .eh_frame section to which the header at an address leads; of length 0 if the header isn't as linkers write it. */
DWCHECK_DL_HIDDEN struct dwcheck_dl_bytes dwcheck_dl_eh_frame_of(const struct dl_phdr_info *info, const uint8_t *header);

/* The header at an address, if it has a search table of the usual form; else of length 0. */
DWCHECK_DL_HIDDEN struct dwcheck_dl_bytes dwcheck_dl_table_of(const struct dl_phdr_info *info, const uint8_t *header);

/* The build id, if a note on the module's first page has it; else of length 0. */
DWCHECK_DL_HIDDEN struct dwcheck_dl_bytes dwcheck_dl_build_id(const struct dwcheck_dl_object *object,
                                                              const struct dl_phdr_info *info);

/* Adds bytes to a checksum. */
DWCHECK_DL_HIDDEN uint64_t dwcheck_dl_sum(uint64_t sum, const void *bytes, size_t length);

#endif
