/* The sections of the module that has an address: as dwcheck-dl finds them, or those of a registered table. Nothing here
   reads .debug_frame. */
#include "unwind.h"

bool dwcheck_unwind_module_at(uint64_t address, struct dwcheck_dl_module *module) {
    struct dwcheck_dl_object object;
    if (!dwcheck_dl_find(address, &object)) return dwcheck_unwind_registered_table(address, module);
    dwcheck_dl_describe(&object, module);
    return module->eh_frame.frame_length != 0;
}
