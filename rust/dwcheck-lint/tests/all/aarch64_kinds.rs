//! Functions for aarch64 with one planted defect of a kind, and the same functions with right rows.

use crate::common::assembly::AARCH64;

/// A frame of a pair of registers, in which a function calls another one.
const CALLS: &str = "stp x29, x30, [sp, #-32]!
    .cfi_def_cfa_offset 32
    .cfi_offset x29, -32
    .cfi_offset x30, -24
    BODY
    ldp x29, x30, [sp], #32
    .cfi_restore x29
    .cfi_restore x30
    .cfi_def_cfa_offset 0
    ret";

/// The function with this body.
fn calls(body: &str) -> String {
    CALLS.replace("BODY", body)
}

#[test]
fn a_register_is_pushed_without_a_row() {
    let text = "str x19, [sp, #-16]!
        RIGHT .cfi_def_cfa_offset 16
        RIGHT .cfi_offset x19, -16
        mov x19, x0
        add x0, x19, #1
        ldr x19, [sp], #16
        RIGHT .cfi_restore x19
        RIGHT .cfi_def_cfa_offset 0
        ret";
    AARCH64.planted("push", "push without row", text);
}

#[test]
fn the_row_of_a_prologue_comes_late() {
    let text = "sub sp, sp, #32
        RIGHT .cfi_def_cfa_offset 32
        mov x9, x0
        WRONG .cfi_def_cfa_offset 32
        str x9, [sp]
        add sp, sp, #32
        .cfi_def_cfa_offset 0
        ret";
    AARCH64.planted("prologue", "moved prologue", text);
}

#[test]
fn a_subtraction_has_no_row() {
    let text = "sub sp, sp, #32
        RIGHT .cfi_def_cfa_offset 32
        str x9, [sp]
        add sp, sp, #32
        RIGHT .cfi_def_cfa_offset 0
        ret";
    AARCH64.planted("subtraction", "subtraction without row", text);
}

#[test]
fn the_row_of_an_epilogue_comes_late() {
    let body = "sub sp, sp, #64
        .cfi_def_cfa_offset 96
        blr x1
        add sp, sp, #64
        RIGHT .cfi_def_cfa_offset 32
        mov x0, #1
        WRONG .cfi_def_cfa_offset 32";
    AARCH64.planted("epilogue", "moved epilogue", &calls(body));
}

#[test]
fn the_cfa_is_by_a_frame_pointer_that_is_the_callers_again() {
    let text = calls("mov x29, sp\n.cfi_def_cfa_register x29\nblr x1");
    let text =
        text.replace(".cfi_def_cfa_offset 0\n", "RIGHT .cfi_def_cfa sp, 0\nmov x0, #1\nWRONG .cfi_def_cfa sp, 0\n");
    AARCH64.planted("restored", "CFA register restored", &text);
}

#[test]
fn the_cfa_is_by_a_register_that_was_overwritten() {
    let text = "mov x9, sp
        .cfi_def_cfa x9, 0
        RIGHT .cfi_def_cfa sp, 0
        mul x9, x9, x0
        mov x0, x9
        .cfi_def_cfa sp, 0
        ret";
    AARCH64.planted("overwritten", "CFA register overwritten", text);
}

#[test]
fn a_branch_at_the_end_of_a_block_has_the_row_of_other_code() {
    let text = "sub sp, sp, #16
        .cfi_def_cfa_offset 16
        cbz x0, 1f
        add sp, sp, #16
        RIGHT .cfi_def_cfa_offset 0
        b f
        1:
        RIGHT .cfi_def_cfa_offset 16
        add sp, sp, #16
        .cfi_def_cfa_offset 0
        ret";
    AARCH64.planted("branch", "wrong row at jmp", text);
}

#[test]
fn the_row_of_a_join_fits_one_way_alone() {
    let text = "cbz x0, 1f
        sub sp, sp, #16
        .cfi_def_cfa_offset 16
        str x1, [sp]
        RIGHT add sp, sp, #16
        RIGHT .cfi_def_cfa_offset 0
        mov x0, #1
        WRONG .cfi_def_cfa_offset 0
        1: mov x1, #1
        ret";
    AARCH64.planted("join", "wrong row at a join", text);
}

#[test]
fn a_pair_is_saved_elsewhere() {
    let text = "stp x19, x20, [sp, #-32]!
        .cfi_def_cfa_offset 32
        RIGHT .cfi_offset x19, -32
        RIGHT .cfi_offset x20, -24
        WRONG .cfi_offset x19, -16
        WRONG .cfi_offset x20, -8
        mov x19, x0
        mov x20, x1
        ldp x19, x20, [sp], #32
        .cfi_restore x19
        .cfi_restore x20
        .cfi_def_cfa_offset 0
        ret";
    AARCH64.planted("elsewhere", "register never saved", text);
}

/// x29 and x30 are stored as a pair, and the row has another place for x30.
#[test]
fn the_return_address_is_saved_elsewhere() {
    let text = calls("blr x1").replace(".cfi_offset x30, -24", "RIGHT .cfi_offset x30, -24\nWRONG .cfi_offset x30, -8");
    AARCH64.planted("return-elsewhere", "return address never saved", &text);
}

/// A call has overwritten x30, which nothing has saved, while the row has no rule for it.
#[test]
fn the_return_address_is_lost_in_a_call() {
    let text = calls("blr x1").replace("    .cfi_offset x30", "    RIGHT .cfi_offset x30");
    AARCH64.planted("return-lost", "return address overwritten", &text);
}
