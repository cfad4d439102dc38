/* A .debug_frame section as one of .eh_frame, in which rows can be looked up in place. */
#ifndef DWCHECK_DL_DEBUG_FRAME_H
#define DWCHECK_DL_DEBUG_FRAME_H

#include "dwcheck.h"

/* Writes each FDE of a .debug_frame section, with its CIE, as the records of an .eh_frame section; but only
   FDEs of the code from `first` to `last`, and not at address 0, since linkers leave those of functions
   that they dropped. The addresses are as linked. Returns DWCHECK_DONE, and then the caller frees `bytes`;
   DWCHECK_NONE if there is no such FDE, or a record can't be read; or DWCHECK_NO_MEMORY. */
__attribute__((visibility("hidden")))
uint32_t dwcheck_dl_as_eh_frame(const dwcheck_module *debug_frame, uint64_t first, uint64_t last, uint8_t **bytes,
                                size_t *length);

/* Writes the search table of an .eh_frame section, as linkers write .eh_frame_hdr, for a header that lies at the
   section's own address as linked. Returns DWCHECK_DONE, and then the caller frees `bytes`, which is NULL if an
   address doesn't fit into a table; or DWCHECK_NO_MEMORY. */
__attribute__((visibility("hidden")))
uint32_t dwcheck_dl_table(const dwcheck_module *module, uint8_t **bytes, size_t *length);

#endif
