/* dwcheck-unwind: libunwind's calls for the stacks of the running process and of others, over the walks of dwcheck.h. The
   libraries build/unwind/libunwind.so.8, libunwind-x86_64.so.8 and libunwind-ptrace.so.0 have the names and the binary
   interface of libunwind 1.6 and 1.8 for x86-64 Linux with glibc 2.35 or later: a program that is linked to libunwind uses
   them by its library path alone. For aarch64, build/aarch64/unwind has the same, and libunwind-aarch64.so.8 in place of
   the second one.
   This header is for programs that are built new; it declares the same names and types as <libunwind.h>, so a file
   includes one of the two. The rows of frames are looked up and walked by proved calls; the rest is plain C, which is
   tested and not proved.

   A call that fails returns the negative of a number below. Of the running process, any thread may make the calls, also in a
   signal handler, but for _U_dyn_register and _U_dyn_cancel. They neither allocate nor lock, and take up to 4 KB of stack. A
   handler that leaves a call by siglongjmp takes one of 64 caches away; without a free one a call returns -UNW_ENOMEM.

   Another process is read by the caller's accessors alone. What an accessor returns where it fails, the call returns. An
   accessor may give wrong values, make any call, also with the cursor of the call that asks, or leave that by longjmp, and
   then the cursor is as it was. A step asks for each word of the stack once, and for each of an FDE and its CIE, which it
   copies; these have at most 64 KB each. Unless the policy is UNW_CACHE_NONE, rows that were found are kept on the heap until
   they are flushed, for each context: in some 1.3 MB where there are thousands of functions, and in 3.2 MB at most. A step
   takes up to 60 KB of stack, and 200 KB with the longest records. Threads may use one address space at once.

   How the calls differ from libunwind's:
   - Of another process: unw_proc_info_t's unwind_info is the address of the FDE there, and nothing to be freed, so put_unwind_info
     isn't called. Records with a length of eight bytes aren't read, rows are looked for in .eh_frame alone
     (dwarf_find_debug_frame finds nothing), unw_get_elf_filename returns -UNW_ENOINFO, and UNW_CACHE_PER_THREAD is
     UNW_CACHE_GLOBAL. Core files (libunwind-coredump) aren't read.
   - A cursor that unw_init_local hasn't filled in, or a null pointer in place of one, is refused: -UNW_EINVAL.
   - At a frame whose FDE the library refuses, or has no room for (dwcheck_row_in: an expression of more than 16 bytes), a
     step returns -UNW_EBADFRAME.
   - Memory is read only after the kernel has said that it can be: of the thread's own stack once, of others in each walk.
   - Rows are kept with each caching policy, since the module of each is confirmed before use; a cache has one size.
   - unw_resume leaves the floating-point environment as it is, and a DW_CFA_GNU_args_size counts as nothing.
   - Names aren't looked for in compressed debug information (.gnu_debugdata), nor in a file that was replaced since.
   - unw_set_iterate_phdr_function does nothing: modules are those that the loader knows.
   - On aarch64, unw_getcontext is a call of this library's own. An address is given without its signature, and one that is
     written gets none. Registers of floating-point numbers aren't known, and unw_resume leaves them as they are. Where code
     without a row has made a call, the caller is found by x29, while libunwind 1.6 gives the frame again. libunwind 1.8 ends
     a walk before a frame whose x29 is 0; here it goes on by rows. Of another process, records of functions are kept, and no
     rows; a signature is what this processor takes for one, and no accessor is asked for it; and where no row covers a
     frame, the accessor has to read its code, since a signal handler may return there.
   - _ReadULEB, _ReadSLEB and __libunwind_Unwind_GetBSP, which are helpers of libunwind's, aren't there, and the calls for
     exceptions and backtrace are those of libgcc_s and the C library. */
#ifndef DWCHECK_UNWIND_H
#define DWCHECK_UNWIND_H

#ifdef LIBUNWIND_H
#error "dwcheck-unwind.h takes the place of libunwind.h"
#endif
#define LIBUNWIND_H

#include <stddef.h>
#include <stdint.h>
#include <ucontext.h>

#ifdef __cplusplus
extern "C" {
#endif

#define UNW_VERSION_MAJOR 1
#define UNW_VERSION_MINOR 8
#define UNW_VERSION_EXTRA 1
#define UNW_VERSION_CODE(major, minor) ((major) << 16 | (minor))
#define UNW_VERSION UNW_VERSION_CODE(UNW_VERSION_MAJOR, UNW_VERSION_MINOR)
#if defined(__aarch64__)
#define UNW_TARGET aarch64
#define UNW_TARGET_AARCH64 1
#define UNW_TDEP_CURSOR_LEN 250
#define UNW_TDEP_NUM_EH_REGS 4
#define UNW_OBJ(name) _ULaarch64_##name
#define UNW_ARCH_OBJ(name) _Uaarch64_##name
#else
#define UNW_TARGET x86_64
#define UNW_TARGET_X86_64 1
#define UNW_TDEP_CURSOR_LEN 127
#define UNW_TDEP_NUM_EH_REGS 2
#define UNW_OBJ(name) _ULx86_64_##name
#define UNW_ARCH_OBJ(name) _Ux86_64_##name
#endif
#define UNW_NUM_EH_REGS UNW_TDEP_NUM_EH_REGS

typedef uint64_t unw_word_t;
typedef int64_t unw_sword_t;
typedef int unw_regnum_t;
typedef long double unw_tdep_fpreg_t;
typedef unw_tdep_fpreg_t unw_fpreg_t;

/* What a call returns, negated. */
typedef enum {
    UNW_ESUCCESS = 0,
    UNW_EUNSPEC,      /* unspecified: memory that can't be read, say */
    UNW_ENOMEM,       /* no cache is free, or a name is longer than its buffer */
    UNW_EBADREG,      /* no such register, or its value isn't known */
    UNW_EREADONLYREG, /* a register that can't be written */
    UNW_ESTOPUNWIND,
    UNW_EINVALIDIP,
    UNW_EBADFRAME,    /* the frame's row is damaged, or the caller would be the frame itself */
    UNW_EINVAL,       /* a wrong argument, or what isn't supported */
    UNW_EBADVERSION,
    UNW_ENOINFO       /* nothing is known of the address */
} unw_error_t;

/* Registers by their DWARF numbers. On aarch64 libunwind takes x30 for the instruction pointer: unw_get_reg gives the
   frame's address for it, and also for pc. */
#if defined(__aarch64__)
typedef enum {
    UNW_AARCH64_X0, UNW_AARCH64_X1, UNW_AARCH64_X2, UNW_AARCH64_X3, UNW_AARCH64_X4, UNW_AARCH64_X5, UNW_AARCH64_X6,
    UNW_AARCH64_X7, UNW_AARCH64_X8, UNW_AARCH64_X9, UNW_AARCH64_X10, UNW_AARCH64_X11, UNW_AARCH64_X12, UNW_AARCH64_X13,
    UNW_AARCH64_X14, UNW_AARCH64_X15, UNW_AARCH64_X16, UNW_AARCH64_X17, UNW_AARCH64_X18, UNW_AARCH64_X19, UNW_AARCH64_X20,
    UNW_AARCH64_X21, UNW_AARCH64_X22, UNW_AARCH64_X23, UNW_AARCH64_X24, UNW_AARCH64_X25, UNW_AARCH64_X26, UNW_AARCH64_X27,
    UNW_AARCH64_X28, UNW_AARCH64_X29, UNW_AARCH64_X30, UNW_AARCH64_SP, UNW_AARCH64_PC, UNW_AARCH64_PSTATE,
    UNW_AARCH64_RA_SIGN_STATE, UNW_AARCH64_VG = 46,
    UNW_AARCH64_V0 = 64, UNW_AARCH64_V1, UNW_AARCH64_V2, UNW_AARCH64_V3, UNW_AARCH64_V4, UNW_AARCH64_V5, UNW_AARCH64_V6,
    UNW_AARCH64_V7, UNW_AARCH64_V8, UNW_AARCH64_V9, UNW_AARCH64_V10, UNW_AARCH64_V11, UNW_AARCH64_V12, UNW_AARCH64_V13,
    UNW_AARCH64_V14, UNW_AARCH64_V15, UNW_AARCH64_V16, UNW_AARCH64_V17, UNW_AARCH64_V18, UNW_AARCH64_V19, UNW_AARCH64_V20,
    UNW_AARCH64_V21, UNW_AARCH64_V22, UNW_AARCH64_V23, UNW_AARCH64_V24, UNW_AARCH64_V25, UNW_AARCH64_V26, UNW_AARCH64_V27,
    UNW_AARCH64_V28, UNW_AARCH64_V29, UNW_AARCH64_V30, UNW_AARCH64_V31, UNW_AARCH64_FPSR, UNW_AARCH64_FPCR,
    UNW_TDEP_LAST_REG = UNW_AARCH64_FPCR,
    UNW_AARCH64_CFA = UNW_AARCH64_SP,
    UNW_TDEP_IP = UNW_AARCH64_X30, UNW_TDEP_SP = UNW_AARCH64_SP, UNW_TDEP_EH = UNW_AARCH64_X0
} aarch64_regnum_t;
#else
typedef enum {
    UNW_X86_64_RAX, UNW_X86_64_RDX, UNW_X86_64_RCX, UNW_X86_64_RBX, UNW_X86_64_RSI, UNW_X86_64_RDI, UNW_X86_64_RBP,
    UNW_X86_64_RSP, UNW_X86_64_R8, UNW_X86_64_R9, UNW_X86_64_R10, UNW_X86_64_R11, UNW_X86_64_R12, UNW_X86_64_R13,
    UNW_X86_64_R14, UNW_X86_64_R15, UNW_X86_64_RIP,
    UNW_TDEP_LAST_REG = UNW_X86_64_RIP,
    UNW_X86_64_CFA, /* the stack pointer of the frame, which is the CFA of the one that it called */
    UNW_TDEP_IP = UNW_X86_64_RIP, UNW_TDEP_SP = UNW_X86_64_RSP, UNW_TDEP_BP = UNW_X86_64_RBP, UNW_TDEP_EH = UNW_X86_64_RAX
} x86_64_regnum_t;
#endif

typedef enum {
    UNW_REG_IP = UNW_TDEP_IP, UNW_REG_SP = UNW_TDEP_SP, UNW_REG_EH = UNW_TDEP_EH, UNW_REG_LAST = UNW_TDEP_LAST_REG
} unw_frame_regnum_t;

typedef enum { UNW_CACHE_NONE, UNW_CACHE_GLOBAL, UNW_CACHE_PER_THREAD } unw_caching_policy_t;

/* For unw_init_local2: the context is that of a signal handler, so its address is the interrupted one, and no return
   address. */
typedef enum { UNW_INIT_SIGNAL_FRAME = 1 } unw_init_local2_flags_t;

/* Where a walk is. It may be copied. The context with which it began must stay. */
typedef struct unw_cursor { unw_word_t opaque[UNW_TDEP_CURSOR_LEN]; } unw_cursor_t;
#if defined(__aarch64__)
/* It begins as a ucontext_t does, and is shorter. */
struct unw_sigcontext {
    uint64_t fault_address, regs[31], sp, pc, pstate;
    uint8_t __reserved[66 * 8] __attribute__((aligned(16)));
};
typedef struct {
    unsigned long uc_flags;
    struct ucontext *uc_link;
    stack_t uc_stack;
    sigset_t uc_sigmask;
    struct unw_sigcontext uc_mcontext;
} unw_tdep_context_t;
#else
typedef ucontext_t unw_tdep_context_t;
#endif
typedef unw_tdep_context_t unw_context_t;

typedef struct unw_addr_space *unw_addr_space_t;
typedef struct { char unused; } unw_tdep_proc_info_t;
typedef struct unw_tdep_save_loc { char unused; } unw_tdep_save_loc_t;

#define UNW_PI_FLAG_FIRST_TDEP_BIT 16
#define UNW_PI_FLAG_DEBUG_FRAME 32

/* A function, as its FDE says: its addresses, its language-specific data and its personality routine, or 0. */
typedef struct unw_proc_info {
    unw_word_t start_ip, end_ip, lsda, handler, gp, flags;
    int format, unwind_info_size;
    void *unwind_info;
    unw_tdep_proc_info_t extra;
} unw_proc_info_t;

typedef enum unw_save_loc_type { UNW_SLT_NONE, UNW_SLT_MEMORY, UNW_SLT_REG } unw_save_loc_type_t;
typedef struct unw_save_loc {
    unw_save_loc_type_t type;
    union { unw_word_t addr; unw_regnum_t regnum; } u;
    unw_tdep_save_loc_t extra;
} unw_save_loc_t;

typedef int (*unw_reg_states_callback)(void *token, void *reg_states_data, size_t reg_states_data_size, unw_word_t start_ip,
                                       unw_word_t end_ip);

typedef struct unw_accessors {
    int (*find_proc_info)(unw_addr_space_t, unw_word_t, unw_proc_info_t *, int, void *);
    void (*put_unwind_info)(unw_addr_space_t, unw_proc_info_t *, void *);
    int (*get_dyn_info_list_addr)(unw_addr_space_t, unw_word_t *, void *);
    int (*access_mem)(unw_addr_space_t, unw_word_t, unw_word_t *, int, void *);
    int (*access_reg)(unw_addr_space_t, unw_regnum_t, unw_word_t *, int, void *);
    int (*access_fpreg)(unw_addr_space_t, unw_regnum_t, unw_fpreg_t *, int, void *);
    int (*resume)(unw_addr_space_t, unw_cursor_t *, void *);
    int (*get_proc_name)(unw_addr_space_t, unw_word_t, char *, size_t, unw_word_t *, void *);
    int (*get_elf_filename)(unw_addr_space_t, unw_word_t, char *, size_t, unw_word_t *, void *);
    int (*get_proc_ip_range)(unw_addr_space_t, unw_word_t, unw_word_t *, unw_word_t *, void *);
    unw_word_t (*ptrauth_insn_mask)(unw_addr_space_t, void *);
} unw_accessors_t;

/* ---- functions that a program registers at run time -------------------------------------------------------------- */
typedef enum {
    UNW_INFO_FORMAT_DYNAMIC,      /* a name; rows can't be read from it */
    UNW_INFO_FORMAT_TABLE,        /* a search table of FDEs */
    UNW_INFO_FORMAT_REMOTE_TABLE, /* the same */
    UNW_INFO_FORMAT_ARM_EXIDX,
    UNW_INFO_FORMAT_IP_OFFSET     /* the same, with addresses relative to start_ip */
} unw_dyn_info_format_t;

typedef struct unw_dyn_op { int8_t tag, qp; int16_t reg; int32_t when; unw_word_t val; } unw_dyn_op_t;
typedef struct unw_dyn_region_info {
    struct unw_dyn_region_info *next;
    int32_t insn_count;
    uint32_t op_count;
    unw_dyn_op_t op[1];
} unw_dyn_region_info_t;
typedef struct unw_dyn_proc_info {
    unw_word_t name_ptr, handler;
    uint32_t flags;
    int32_t pad0;
    unw_dyn_region_info_t *regions;
} unw_dyn_proc_info_t;
typedef struct unw_dyn_table_info { unw_word_t name_ptr, segbase, table_len; unw_word_t *table_data; } unw_dyn_table_info_t;
typedef struct unw_dyn_remote_table_info { unw_word_t name_ptr, segbase, table_len, table_data; } unw_dyn_remote_table_info_t;
typedef struct unw_dyn_info {
    struct unw_dyn_info *next, *prev;
    unw_word_t start_ip, end_ip, gp;
    int32_t format, pad;
    unw_word_t load_offset;
    union { unw_dyn_proc_info_t pi; unw_dyn_table_info_t ti; unw_dyn_remote_table_info_t rti; } u;
} unw_dyn_info_t;
typedef struct unw_dyn_info_list { uint32_t version, generation; unw_dyn_info_t *first; } unw_dyn_info_list_t;

void _U_dyn_register(unw_dyn_info_t *info);
void _U_dyn_cancel(unw_dyn_info_t *info);
unw_word_t _U_dyn_info_list_addr(void);

/* ---- the calls --------------------------------------------------------------------------------------------------- */
#define unw_local_addr_space UNW_OBJ(local_addr_space)
#define unw_create_addr_space UNW_OBJ(create_addr_space)
#define unw_destroy_addr_space UNW_OBJ(destroy_addr_space)
#define unw_init_local UNW_OBJ(init_local)
#define unw_init_local2 UNW_OBJ(init_local2)
#define unw_init_remote UNW_OBJ(init_remote)
#define unw_step UNW_OBJ(step)
#define unw_resume UNW_OBJ(resume)
#define unw_get_proc_info UNW_OBJ(get_proc_info)
#define unw_get_proc_info_by_ip UNW_OBJ(get_proc_info_by_ip)
#define unw_get_proc_info_in_range UNW_OBJ(get_proc_info_in_range)
#define unw_reg_states_iterate UNW_OBJ(reg_states_iterate)
#define unw_apply_reg_state UNW_OBJ(apply_reg_state)
#define unw_get_reg UNW_OBJ(get_reg)
#define unw_set_reg UNW_OBJ(set_reg)
#define unw_get_fpreg UNW_OBJ(get_fpreg)
#define unw_set_fpreg UNW_OBJ(set_fpreg)
#define unw_get_save_loc UNW_OBJ(get_save_loc)
#define unw_is_signal_frame UNW_OBJ(is_signal_frame)
#define unw_get_proc_name UNW_OBJ(get_proc_name)
#define unw_get_proc_name_by_ip UNW_OBJ(get_proc_name_by_ip)
#define unw_get_elf_filename UNW_OBJ(get_elf_filename)
#define unw_get_elf_filename_by_ip UNW_OBJ(get_elf_filename_by_ip)
#define unw_set_caching_policy UNW_OBJ(set_caching_policy)
#define unw_set_cache_size UNW_OBJ(set_cache_size)
#define unw_set_iterate_phdr_function UNW_OBJ(set_iterate_phdr_function)
#define unw_get_accessors UNW_ARCH_OBJ(get_accessors)
#define unw_getcontext UNW_ARCH_OBJ(getcontext)
#define unw_is_fpreg UNW_ARCH_OBJ(is_fpreg)
#define unw_regname UNW_ARCH_OBJ(regname)
#define unw_flush_cache UNW_ARCH_OBJ(flush_cache)
#define unw_strerror UNW_ARCH_OBJ(strerror)

struct dl_phdr_info;
typedef int (*unw_iterate_phdr_callback_t)(struct dl_phdr_info *, size_t, void *);
typedef int (*unw_iterate_phdr_func_t)(unw_iterate_phdr_callback_t, void *);

extern unw_addr_space_t unw_local_addr_space;

unw_addr_space_t unw_create_addr_space(unw_accessors_t *accessors, int byte_order);
void unw_destroy_addr_space(unw_addr_space_t space);
unw_accessors_t *unw_get_accessors(unw_addr_space_t space);
void unw_flush_cache(unw_addr_space_t space, unw_word_t low, unw_word_t high);
int unw_set_caching_policy(unw_addr_space_t space, unw_caching_policy_t policy);
int unw_set_cache_size(unw_addr_space_t space, size_t size, int flag);
void unw_set_iterate_phdr_function(unw_addr_space_t space, unw_iterate_phdr_func_t function);
const char *unw_regname(unw_regnum_t number);
const char *unw_strerror(int error);
int unw_is_fpreg(int number);

/* Writes the registers at the call. */
int unw_getcontext(unw_context_t *context) __attribute__((returns_twice));
int unw_init_local(unw_cursor_t *cursor, unw_context_t *context);
int unw_init_local2(unw_cursor_t *cursor, unw_context_t *context, int flag);
int unw_init_remote(unw_cursor_t *cursor, unw_addr_space_t space, void *context);

/* Moves to the caller. Returns 1; 0 if there is none, and then the address becomes 0; or an error. */
int unw_step(unw_cursor_t *cursor);
int unw_resume(unw_cursor_t *cursor);
int unw_get_reg(unw_cursor_t *cursor, int number, unw_word_t *value);
int unw_set_reg(unw_cursor_t *cursor, int number, unw_word_t value);
int unw_get_fpreg(unw_cursor_t *cursor, int number, unw_fpreg_t *value);
int unw_set_fpreg(unw_cursor_t *cursor, int number, unw_fpreg_t value);
int unw_get_save_loc(unw_cursor_t *cursor, int number, unw_save_loc_t *location);
int unw_is_signal_frame(unw_cursor_t *cursor);
int unw_get_proc_info(unw_cursor_t *cursor, unw_proc_info_t *info);
int unw_get_proc_info_by_ip(unw_addr_space_t space, unw_word_t address, unw_proc_info_t *info, void *context);
int unw_get_proc_info_in_range(unw_word_t start, unw_word_t end, unw_word_t table, unw_word_t table_length,
                               unw_word_t frame_header, unw_word_t frame_header_length, unw_addr_space_t space,
                               unw_word_t address, unw_proc_info_t *info, int need_unwind_info, void *context);
int unw_get_proc_name(unw_cursor_t *cursor, char *name, size_t size, unw_word_t *offset);
int unw_get_proc_name_by_ip(unw_addr_space_t space, unw_word_t address, char *name, size_t size, unw_word_t *offset,
                            void *context);
int unw_get_elf_filename(unw_cursor_t *cursor, char *name, size_t size, unw_word_t *offset);
int unw_get_elf_filename_by_ip(unw_addr_space_t space, unw_word_t address, char *name, size_t size, unw_word_t *offset,
                               void *context);
int unw_reg_states_iterate(unw_cursor_t *cursor, unw_reg_states_callback callback, void *token);
int unw_apply_reg_state(unw_cursor_t *cursor, void *state);

/* Writes the return addresses of the caller's stack, at most `size`, and returns their number. */
int unw_backtrace(void **addresses, int size);
/* The same from a context, whose own address is the first. */
int unw_backtrace2(void **addresses, int size, unw_context_t *context, int flag);

/* ---- other processes --------------------------------------------------------------------------------------------- */
/* The accessors of a process that ptrace has stopped, in libunwind-ptrace.so.0; `context` is what _UPT_create
   returns. */
void *_UPT_create(int process);
void _UPT_destroy(void *context);
int _UPT_find_proc_info(unw_addr_space_t space, unw_word_t address, unw_proc_info_t *info, int need_unwind_info, void *context);
void _UPT_put_unwind_info(unw_addr_space_t space, unw_proc_info_t *info, void *context);
int _UPT_get_dyn_info_list_addr(unw_addr_space_t space, unw_word_t *address, void *context);
int _UPT_access_mem(unw_addr_space_t space, unw_word_t address, unw_word_t *value, int is_write, void *context);
int _UPT_access_reg(unw_addr_space_t space, unw_regnum_t number, unw_word_t *value, int is_write, void *context);
int _UPT_access_fpreg(unw_addr_space_t space, unw_regnum_t number, unw_fpreg_t *value, int is_write, void *context);
int _UPT_get_proc_name(unw_addr_space_t space, unw_word_t address, char *name, size_t size, unw_word_t *offset, void *context);
int _UPT_resume(unw_addr_space_t space, unw_cursor_t *cursor, void *context);
extern unw_accessors_t _UPT_accessors;

/* Searches a table of another process, in a find_proc_info. `unwind_info` becomes the address of the FDE there. */
#define dwarf_search_unwind_table UNW_OBJ(dwarf_search_unwind_table)
int dwarf_search_unwind_table(unw_addr_space_t space, unw_word_t address, unw_dyn_info_t *table, unw_proc_info_t *info,
                              int need_unwind_info, void *context);

/* By what the frame was found at which a cursor is: 0 if it was by the row of the frame that it called, else by one of
   libunwind's guesses, which is made where no row covers the address. Not in libunwind. */
typedef enum {
    UNW_GUESS_NONE = 0,
    UNW_GUESS_PLT,           /* the frame before was in an entry of a PLT, which has pushed nothing */
    UNW_GUESS_CALL,          /* the frame before is where no code can be: the return address is where a call puts it */
    UNW_GUESS_FRAME_POINTER  /* the frame before keeps a frame pointer in rbp, or x29 */
} unw_guess_t;
int unw_is_guess(unw_cursor_t *cursor);

#ifdef __cplusplus
}
#endif
#endif
