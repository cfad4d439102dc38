/* Functions whose rows differ in .debug_frame, which the directives write, and in .eh_frame, which is written by hand
   below. Each has the address of a decoy on its stack, where only .eh_frame says that its return address is, and keeps
   the right one in return_address. */
    .cfi_sections .debug_frame
    .text
    .globl differs, partly, decoy
    .type differs, %function
    .type partly, %function

/* The function in which the decoy is: by .eh_frame the last one of a stack. */
    .balign 4
outermost:
    nop
decoy:
    nop
outermost_end:

#if defined(__x86_64__)
#define RETURN_ADDRESS 16
/* The CFA is rsp + 8, and the return address is below it. */
#define INITIAL 0x0c, 7, 8, 0x80 | 16, 1
/* It is the value of breg7 + 32. */
#define MIDDLE 0x0f, 2, 0x77, 32

/* Calls its argument. */
differs:
    .cfi_startproc
    mov (%rsp), %rax
    mov %rax, return_address(%rip)
    lea decoy(%rip), %rax
    push %rax
    .cfi_adjust_cfa_offset 8
    call *%rdi
    pop %rax
    .cfi_adjust_cfa_offset -8
    ret
    .cfi_endproc
differs_end:

/* Calls it twice. .debug_frame has rows for the first call alone. */
partly:
    .cfi_startproc
    mov (%rsp), %rax
    mov %rax, return_address(%rip)
    lea decoy(%rip), %rax
    push %rdi
    push %rdi
    push %rax
    .cfi_escape 0x0f, 2, 0x77, 32
    call *%rdi
    .cfi_endproc
partly_middle:
    call *8(%rsp)
    add $24, %rsp
    ret
partly_end:

#else
#define RETURN_ADDRESS 30
/* The CFA is sp + 48, x29 is 48 bytes below it, and x30 24 bytes. */
#define INITIAL 0x0c, 31, 48, 0x80 | 29, 6, 0x80 | 30, 3
/* It is the value of breg31 + 48, and x30 is 40 bytes below it. */
#define MIDDLE 0x0f, 2, 0x8f, 48, 0x80 | 30, 5

differs:
    .cfi_startproc
    adrp x9, return_address
    str x30, [x9, :lo12:return_address]
    adr x9, decoy
    stp x29, x30, [sp, #-48]!
    .cfi_def_cfa_offset 48
    .cfi_offset 29, -48
    .cfi_offset 30, -40
    stp x0, x9, [sp, #16]
    blr x0
    ldp x29, x30, [sp], #48
    .cfi_def_cfa_offset 0
    .cfi_restore 29
    .cfi_restore 30
    ret
    .cfi_endproc
differs_end:

partly:
    .cfi_startproc
    adrp x9, return_address
    str x30, [x9, :lo12:return_address]
    adr x9, decoy
    stp x29, x30, [sp, #-48]!
    .cfi_escape 0x0f, 2, 0x8f, 48
    .cfi_offset 29, -48
    .cfi_offset 30, -40
    stp x0, x9, [sp, #16]
    blr x0
    .cfi_endproc
partly_middle:
    ldr x9, [sp, #16]
    blr x9
    ldp x29, x30, [sp], #48
    ret
partly_end:
#endif

    .macro cie name, augmentation
\name: .long \name\()_end - \name\()_id
\name\()_id: .long 0
    .byte 1
    .asciz "\augmentation"
    .uleb128 1
    .sleb128 -8
    .byte RETURN_ADDRESS
    .uleb128 1
    .byte 0x1b /* addresses are four bytes, relative to their own place */
    .byte INITIAL
    .balign 8
\name\()_end:
    .endm

    .macro fde function, cie, instructions:vararg
    .long \function\()_fde_end - \function\()_fde
\function\()_fde: .long \function\()_fde - \cie
    .long \function - .
    .long \function\()_end - \function
    .uleb128 0
    .byte \instructions
    .balign 8
\function\()_fde_end:
    .endm

/* By .eh_frame, the first function is a signal frame, the second one has another row from its middle on, and the return
   address of the third one is undefined. */
    .section .eh_frame, "a", %progbits
    cie of_signals, zRS
    cie of_calls, zR
    fde differs, of_signals, 0
    fde partly, of_calls, 2, partly_middle - partly, MIDDLE
    fde outermost, of_calls, 7, RETURN_ADDRESS

    .section .note.GNU-stack, "", %progbits
