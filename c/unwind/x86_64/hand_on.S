/* The names under which libunwind has the calls of libgcc_s: each goes on to the call there. The plain names, such as
   _Unwind_Resume, aren't defined here: they are found in libgcc_s, to which this library is linked. */
#define HAND_ON(name) .globl __libunwind_##name; .type __libunwind_##name, @function; .p2align 4; \
    __libunwind_##name: .cfi_startproc; jmp *_##name@GOTPCREL(%rip); .cfi_endproc; \
    .size __libunwind_##name, . - __libunwind_##name

    .text
HAND_ON(Unwind_Backtrace)
HAND_ON(Unwind_DeleteException)
HAND_ON(Unwind_FindEnclosingFunction)
HAND_ON(Unwind_ForcedUnwind)
HAND_ON(Unwind_GetCFA)
HAND_ON(Unwind_GetDataRelBase)
HAND_ON(Unwind_GetGR)
HAND_ON(Unwind_GetIP)
HAND_ON(Unwind_GetIPInfo)
HAND_ON(Unwind_GetLanguageSpecificData)
HAND_ON(Unwind_GetRegionStart)
HAND_ON(Unwind_GetTextRelBase)
HAND_ON(Unwind_RaiseException)
HAND_ON(Unwind_Resume)
HAND_ON(Unwind_Resume_or_Rethrow)
HAND_ON(Unwind_SetGR)
HAND_ON(Unwind_SetIP)

    .section .note.GNU-stack, "", @progbits
