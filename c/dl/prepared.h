/* Sections that no segment has: read from files, and kept until their modules are gone. */
#ifndef DWCHECK_DL_PREPARED_H
#define DWCHECK_DL_PREPARED_H

#include "image.h"

/* Gives a module the section that dwcheck_dl_prepare has made of its .debug_frame, if it has made one. */
DWCHECK_DL_HIDDEN void dwcheck_dl_use_prepared(struct dwcheck_dl_module *module);

/* A number that changes with each dwcheck_dl_prepare that has changed something. */
DWCHECK_DL_HIDDEN uint64_t dwcheck_dl_preparations(void);

/* The .eh_frame section of the program, by the section table of its file: of a static program without .eh_frame_hdr. It
   makes only system calls, so a signal handler may ask for it. */
DWCHECK_DL_HIDDEN struct dwcheck_dl_bytes dwcheck_dl_frame_of_program(const struct dl_phdr_info *info);

#endif
