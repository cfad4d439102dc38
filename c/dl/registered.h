/* Code that the program has registered with its rows, such as that of a JIT compiler. */
#ifndef DWCHECK_DL_REGISTERED_H
#define DWCHECK_DL_REGISTERED_H

#include "find.h"

/* Writes the registered code that has an address. Returns whether there is any. */
DWCHECK_DL_HIDDEN bool dwcheck_dl_find_registered(uint64_t address, struct dwcheck_dl_object *object);

/* Writes the section of registered code to the module, if it is still registered. */
DWCHECK_DL_HIDDEN void dwcheck_dl_describe_registered(const struct dwcheck_dl_object *object, struct dwcheck_dl_module *module);

#endif
