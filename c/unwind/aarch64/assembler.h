/* How functions are written in assembler for aarch64, with rows, so that walks go on through them. Jumps lead to
   `bti c`, and return addresses are signed, which the note at the end of each object says. They are hints, for any
   assembler. PUSH_FRAME saves x29 and x30 at the top of a frame, and POP_FRAME restores them. */
#define BTI_C hint #34
#define SIGN hint #25; .cfi_negate_ra_state
#define AUTHENTICATE hint #29; .cfi_negate_ra_state
#define PUSH_FRAME \
    stp x29, x30, [sp, #-16]!; .cfi_def_cfa_offset 16; .cfi_offset x29, -16; .cfi_offset x30, -8
#define POP_FRAME \
    ldp x29, x30, [sp], #16; .cfi_def_cfa_offset 0; .cfi_restore x29; .cfi_restore x30
#define FUNCTION(name) .globl name; .type name, %function; .balign 4; name: .cfi_startproc
#define END(name) .cfi_endproc; .size name, . - name
#define NOTES                                                                                                             \
    .section .note.GNU-stack, "", %progbits;                                                                              \
    .section .note.gnu.property, "a";                                                                                     \
    .balign 8; .word 4, 16, 5; .asciz "GNU"; .word 0xc0000000, 4, 3, 0
