/* libunwind-x86_64.so.8, or libunwind-aarch64.so.8: the names that programs use which haven't said UNW_LOCAL_ONLY. Each
   goes on to the call of the local name in libunwind.so.8, which takes cursors and address spaces of other processes
   too. */
#if defined(__aarch64__)
#include "../aarch64/assembler.h"
#define HAND_ON(name) FUNCTION(_Uaarch64_##name); BTI_C; adrp x16, :got:_ULaarch64_##name; \
    ldr x16, [x16, :got_lo12:_ULaarch64_##name]; br x16; END(_Uaarch64_##name)
#else
#define HAND_ON(name) .globl _Ux86_64_##name; .type _Ux86_64_##name, @function; .p2align 4; \
    _Ux86_64_##name: .cfi_startproc; jmp *_ULx86_64_##name@GOTPCREL(%rip); .cfi_endproc; \
    .size _Ux86_64_##name, . - _Ux86_64_##name
#define NOTES .section .note.GNU-stack, "", @progbits
#endif
    .text
HAND_ON(apply_reg_state)
HAND_ON(create_addr_space)
HAND_ON(destroy_addr_space)
HAND_ON(dwarf_find_debug_frame)
HAND_ON(dwarf_find_unwind_table)
HAND_ON(dwarf_search_unwind_table)
HAND_ON(get_elf_filename)
HAND_ON(get_elf_filename_by_ip)
HAND_ON(get_fpreg)
HAND_ON(get_proc_info)
HAND_ON(get_proc_info_by_ip)
HAND_ON(get_proc_info_in_range)
HAND_ON(get_proc_name)
HAND_ON(get_proc_name_by_ip)
HAND_ON(get_reg)
HAND_ON(get_save_loc)
HAND_ON(init_local)
HAND_ON(init_local2)
HAND_ON(init_remote)
HAND_ON(is_signal_frame)
HAND_ON(reg_states_iterate)
HAND_ON(resume)
HAND_ON(set_cache_size)
HAND_ON(set_caching_policy)
HAND_ON(set_fpreg)
HAND_ON(set_iterate_phdr_function)
HAND_ON(set_reg)
HAND_ON(step)

NOTES
