/* The file of a module that is loaded, and its sections. */
#ifndef DWCHECK_DL_FILES_H
#define DWCHECK_DL_FILES_H

#include "image.h"

/* The file of the program itself, for which the loader gives an empty name. It can be opened even if the file has been
   deleted or replaced since. */
#define DWCHECK_DL_PROGRAM "/proc/self/exe"

/* Opens the file of a module, if it is still the one that was loaded: its segments and its notes are those in memory.
   Else, or if it can't be read, it returns -1. */
DWCHECK_DL_HIDDEN int dwcheck_dl_open_file(const struct dl_phdr_info *info);

/* Maps such a file. If it can't, the length is 0. munmap takes it back. */
DWCHECK_DL_HIDDEN struct dwcheck_dl_bytes dwcheck_dl_map_file(const struct dl_phdr_info *info);

/* Reads the .debug_frame section of such a file, if it isn't compressed. The file must have the module's build id, since
   code in memory may be changed, as debuggers do; or if the module has none, and `id` is of length 0, the code in memory
   must be that of the file, which alone tells then whether the file has been replaced. Returns DWCHECK_DONE, and then
   the caller frees `frame`; DWCHECK_NONE if there is no such section; or DWCHECK_NO_MEMORY. */
DWCHECK_DL_HIDDEN uint32_t dwcheck_dl_debug_frame_of(int file, const struct dl_phdr_info *info, struct dwcheck_dl_bytes id,
                                                     uint8_t **frame, size_t *length);

#endif
