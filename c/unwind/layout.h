/* The sizes and places of libunwind 1.6 and 1.8, to which programs are compiled. This file is compiled with our
   header, and in a test (c/tests/unwind_layout.c) with libunwind's own. */
#ifndef DWCHECK_UNWIND_LAYOUT_H
#define DWCHECK_UNWIND_LAYOUT_H

#ifdef WITH_LIBUNWIND
#include <libunwind.h>
#else
#include "dwcheck-unwind.h"
#endif
#include <stddef.h>

#define SIZE(type, bytes) _Static_assert(sizeof(type) == (bytes), #type)
#define PLACE(type, field, offset) _Static_assert(offsetof(type, field) == (offset), #type "." #field)
#define VALUE(name, number) _Static_assert((name) == (number), #name)

SIZE(unw_word_t, 8);
SIZE(unw_fpreg_t, 16);
SIZE(unw_caching_policy_t, 4);

PLACE(unw_proc_info_t, start_ip, 0);
PLACE(unw_proc_info_t, end_ip, 8);
PLACE(unw_proc_info_t, lsda, 16);
PLACE(unw_proc_info_t, handler, 24);
PLACE(unw_proc_info_t, gp, 32);
PLACE(unw_proc_info_t, flags, 40);
PLACE(unw_proc_info_t, format, 48);
PLACE(unw_proc_info_t, unwind_info_size, 52);
PLACE(unw_proc_info_t, unwind_info, 56);
PLACE(unw_proc_info_t, extra, 64);

PLACE(unw_save_loc_t, u, 8);
PLACE(unw_save_loc_t, extra, 16);

PLACE(unw_accessors_t, find_proc_info, 0);
PLACE(unw_accessors_t, access_mem, 24);
PLACE(unw_accessors_t, resume, 48);
PLACE(unw_accessors_t, get_proc_name, 56);

SIZE(unw_dyn_info_t, 88);
PLACE(unw_dyn_info_t, start_ip, 16);
PLACE(unw_dyn_info_t, format, 40);
PLACE(unw_dyn_info_t, load_offset, 48);
PLACE(unw_dyn_info_t, u, 56);
SIZE(unw_dyn_info_list_t, 16);
PLACE(unw_dyn_info_list_t, first, 8);

VALUE(UNW_ENOINFO, 10);
VALUE(UNW_EINVAL, 8);
VALUE(UNW_EBADFRAME, 7);
VALUE(UNW_EREADONLYREG, 4);
VALUE(UNW_CACHE_PER_THREAD, 2);
VALUE(UNW_INIT_SIGNAL_FRAME, 1);
VALUE(UNW_SLT_REG, 2);
VALUE(UNW_INFO_FORMAT_IP_OFFSET, 4);

#if defined(__aarch64__)
/* The `extra` of 1.6 has no bytes in C, so how long those structures are differs. */
SIZE(unw_context_t, 992);
PLACE(unw_context_t, uc_mcontext, 176);
PLACE(unw_context_t, uc_mcontext.regs, 184);
PLACE(unw_context_t, uc_mcontext.sp, 432);
PLACE(unw_context_t, uc_mcontext.pc, 440);
PLACE(unw_context_t, uc_mcontext.pstate, 448);
SIZE(unw_cursor_t, 250 * 8);
VALUE(UNW_AARCH64_X29, 29);
VALUE(UNW_AARCH64_PC, 32);
VALUE(UNW_AARCH64_PSTATE, 33);
VALUE(UNW_AARCH64_V31, 95);
VALUE(UNW_AARCH64_CFA, 31);
VALUE(UNW_REG_IP, 30);
VALUE(UNW_REG_SP, 31);
VALUE(UNW_REG_EH, 0);
VALUE(UNW_REG_LAST, 97);
#else
SIZE(unw_context_t, 968);
PLACE(unw_context_t, uc_mcontext, 40);
SIZE(unw_cursor_t, 127 * 8);
SIZE(unw_proc_info_t, 72);
SIZE(unw_save_loc_t, 24);
VALUE(UNW_X86_64_RDX, 1);
VALUE(UNW_X86_64_RCX, 2);
VALUE(UNW_X86_64_RBP, 6);
VALUE(UNW_X86_64_RSP, 7);
VALUE(UNW_X86_64_R15, 15);
VALUE(UNW_X86_64_CFA, 17);
VALUE(UNW_REG_IP, 16);
VALUE(UNW_REG_SP, 7);
VALUE(UNW_REG_EH, 0);
VALUE(UNW_REG_LAST, 16);
#endif

#endif
