/* The local address space under the name that libunwind-x86_64.so.8 and libunwind-aarch64.so.8 have for it. */
#include "dwcheck-unwind.h"

extern unw_addr_space_t UNW_ARCH_OBJ(local_addr_space);
unw_addr_space_t UNW_ARCH_OBJ(local_addr_space);

__attribute__((constructor)) static void begin(void) { UNW_ARCH_OBJ(local_addr_space) = unw_local_addr_space; }
