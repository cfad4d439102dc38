//! Code for aarch64: planted defects, rules that only this machine needs, and programs by gcc and clang.

use crate::common::assembly::AARCH64;
use crate::common::gimli_rows::readable;
use crate::common::programs::{C, LEVELS};
use crate::common::{found, has, Folder, Found};
use dwcheck_lint::coverage::Reason;
use dwcheck_lint::machine::Machine;

/// The compiler.
const GCC: &str = AARCH64.0;

#[test]
fn a_push_of_a_pair_with_a_late_row() {
    let text = "stp x29, x30, [sp, #-32]!
        RIGHT .cfi_def_cfa_offset 32
        RIGHT .cfi_offset x29, -32
        RIGHT .cfi_offset x30, -24
        mov x29, sp
        WRONG .cfi_def_cfa_offset 32
        WRONG .cfi_offset x29, -32
        WRONG .cfi_offset x30, -24
        blr x1
        ldp x29, x30, [sp], #32
        .cfi_restore x29
        .cfi_restore x30
        .cfi_def_cfa_offset 0
        ret";
    AARCH64.planted("late", "late push", text);
}

#[test]
fn a_pop_of_a_pair_without_a_row() {
    let text = "stp x29, x30, [sp, #-32]!
        .cfi_def_cfa_offset 32
        .cfi_offset x29, -32
        .cfi_offset x30, -24
        blr x1
        ldp x29, x30, [sp], #32
        RIGHT .cfi_restore x29
        RIGHT .cfi_restore x30
        RIGHT .cfi_def_cfa_offset 0
        mov x0, #1
        WRONG .cfi_restore x29
        WRONG .cfi_restore x30
        WRONG .cfi_def_cfa_offset 0
        ret";
    AARCH64.planted("pop", "pop without row", text);
}

#[test]
fn registers_in_the_slots_of_others() {
    let text = "stp x19, x20, [sp, #-16]!
        .cfi_def_cfa_offset 16
        RIGHT .cfi_offset x19, -16
        RIGHT .cfi_offset x20, -8
        WRONG .cfi_offset x19, -8
        WRONG .cfi_offset x20, -16
        mov x19, x0
        mov x20, x1
        ldp x19, x20, [sp], #16
        .cfi_restore x19
        .cfi_restore x20
        .cfi_def_cfa_offset 0
        ret";
    AARCH64.planted("slot", "slot overwritten", text);
}

/// Registers that rows speak of: the halves of vectors that a function has to give back are judged where the
/// FDE has a rule for them.
#[test]
fn vectors_that_rows_speak_of() {
    let text = "stp d8, d9, [sp, #-16]!
        .cfi_def_cfa_offset 16
        .cfi_offset 72, -16
        RIGHT .cfi_offset 73, -8
        fmov d9, #1.0
        mov x0, #1
        WRONG .cfi_offset 73, -8
        fmov d8, d9
        ldp d8, d9, [sp], #16
        .cfi_restore 72
        .cfi_restore 73
        .cfi_def_cfa_offset 0
        ret";
    AARCH64.planted("vector", "register overwritten", text);
    let silent = text.lines().filter(|line| !line.contains(" 72") && !line.contains(" 73")).collect::<Vec<_>>();
    AARCH64.quiet("silent", &silent.join("\n"), "");
}

/// The return address is in x30, until a call or a move overwrites it.
#[test]
fn the_return_address_is_in_its_register() {
    let text = "mov x9, x30
        RIGHT .cfi_register x30, x9
        bl g
        mov x30, x9
        RIGHT .cfi_same_value x30
        ret
        .cfi_endproc
        g: .cfi_startproc
        mov x0, #1
        ret";
    AARCH64.planted("link", "return address overwritten", text);
}

#[test]
fn large_frames_by_a_register() {
    let text = "mov x12, #4112
        movk x12, #1, lsl #16
        sub sp, sp, x12
        RIGHT .cfi_def_cfa_offset 69648
        str x0, [sp]
        WRONG .cfi_def_cfa_offset 69648
        ldr x0, [sp]
        add sp, sp, x12
        .cfi_def_cfa_offset 0
        ret";
    AARCH64.planted("large", "moved stack pointer", text);
}

/// Rows for calls: what LLVM 14 writes. Only calls are judged.
#[test]
fn rows_that_are_meant_for_calls() {
    let text = "sub sp, sp, #32
        stp x29, x30, [sp, #16]
        add x29, sp, #16
        .cfi_def_cfa x29, 16
        WRONG .cfi_offset x30, -16
        WRONG .cfi_offset x29, -8
        RIGHT .cfi_offset x30, -8
        RIGHT .cfi_offset x29, -16
        blr x0
        ldp x29, x30, [sp, #16]
        add sp, sp, #32
        ret";
    AARCH64.planted("calls", "return address", text);
}

/// Rows for calls: a jump to a part of the function, before there is the frame that its row has for its call.
#[test]
fn jumps_to_parts_whose_rows_are_meant_for_calls() {
    let body = "cbz x0, f.cold
        stp x29, x30, [sp, #-16]!
        .cfi_def_cfa_offset 16
        .cfi_offset w29, -16
        .cfi_offset w30, -8
        blr x1
        ldp x29, x30, [sp], #16
        ret";
    let after = ".section .text.unlikely, \"ax\"
        nop
        .cfi_startproc
        .cfi_def_cfa_offset 16
        .cfi_offset w29, -16
        .cfi_offset w30, -8
        f.cold: stp x29, x30, [sp, #-16]!
        blr x2
        ldp x29, x30, [sp], #16
        ret
        .cfi_endproc";
    AARCH64.quiet("part-for-calls", body, after);
}

/// Alignment: the stack pointer is a multiple of 16, so rounding it down to one changes nothing.
#[test]
fn stack_pointers_that_are_aligned_already() {
    let body = "sub sp, sp, #32
        .cfi_def_cfa_offset 32
        mov x9, sp
        and x9, x9, #-16
        mov sp, x9
        add sp, sp, #32
        .cfi_def_cfa_offset 0
        ret";
    AARCH64.quiet("aligned", body, "");
}

/// Jump targets: the rows describe the frame that `longjmp` goes to.
#[test]
fn rows_of_a_jump_to_another_frame() {
    AARCH64.quiet("jump", ".cfi_def_cfa x0, 0\n.cfi_offset x19, 0\n.cfi_offset x30, 8\nldp x19, x30, [x0]\nldr x4, [x0, #16]\nmov sp, x4\nbr x30", "");
}

/// Jump targets: a call on the way there, for which the return address is in another register.
#[test]
fn calls_on_the_way_to_another_frame() {
    let body = "mov x13, x30
        .cfi_def_cfa x0, 0
        .cfi_offset x19, 0
        .cfi_register x30, x13
        bl g
        mov x30, x13
        .cfi_same_value x30
        ldp x19, x30, [x0]
        ldr x4, [x0, #16]
        mov sp, x4
        br x30";
    AARCH64.quiet("way", body, "g: .cfi_startproc\nmov x1, #1\nret\n.cfi_endproc");
}

/// Exception returns: the stack pointer of another frame is set at the end.
#[test]
fn functions_that_return_to_a_handler() {
    let body = "stp x0, x1, [sp, #-32]!
        .cfi_def_cfa_offset 32
        .cfi_offset x0, -32
        .cfi_offset x1, -24
        stp x2, x3, [sp, #16]
        .cfi_offset x2, -16
        .cfi_offset x3, -8
        blr x5
        mov x4, x0
        ldp x2, x3, [sp, #16]
        ldp x0, x1, [sp], #32
        .cfi_restore x0
        .cfi_restore x1
        .cfi_restore x2
        .cfi_restore x3
        .cfi_def_cfa_offset 0
        add sp, sp, x4
        ret";
    // The call overwrites x30, of which these rows don't speak.
    AARCH64.quiet("handler", &body.replace("blr x5\n", ""), "");
}

/// Tables of jumps with entries of one and of two bytes, which count instructions.
#[test]
fn tables_of_short_entries() {
    let body = "cmp w0, #2
        b.hi 4f
        adrp x1, table
        add x1, x1, :lo12:table
        LOAD
        adr x0, 1f
        ADD
        br x1
        1: mov x0, #1
        ret
        2: mov x0, #2
        ret
        3: mov x0, #3
        ret
        4: stp x29, x30, [sp, #-16]!
        .cfi_def_cfa_offset 16
        .cfi_offset x29, -16
        .cfi_offset x30, -8
        5: blr x2
        ldp x29, x30, [sp], #16
        .cfi_restore x29
        .cfi_restore x30
        .cfi_def_cfa_offset 0
        ret
        .section .rodata
        table: .DATA (1b-1b)/4, (2b-1b)/4, (3b-1b)/4, (5b-1b)/4
        .text";
    let bytes = body.replace("LOAD", "ldrb w1, [x1, w0, uxtw]").replace("ADD", "add x1, x0, w1, sxtb #2");
    let halves = body.replace("LOAD", "ldrh w1, [x1, w0, uxtw #1]").replace("ADD", "add x1, x0, w1, sxth #2");
    for (name, body) in [("bytes", bytes.replace("DATA", "byte")), ("halves", halves.replace("DATA", "hword"))] {
        if let Some(found) = AARCH64.found(name, &body, "") {
            assert_eq!((found.kinds.len(), found.coverage.assumed), (0, 0), "{}", body);
        }
    }
}

#[test]
fn c_by_gcc() {
    if !has(GCC) {
        return;
    }
    let folder = Folder::new("aarch64-c");
    folder.write("a.c", C);
    for level in LEVELS {
        for option in
            ["", "-fomit-frame-pointer", "-fstack-clash-protection", "-fno-shrink-wrap", "-mno-outline-atomics"]
        {
            let Found { kinds, coverage } = found(&folder, &format!("{} -w {} {} a.c -o out", GCC, level, option));
            assert_eq!(kinds, [""; 0], "{} {}", level, option);
            let others = coverage.skipped(Reason::Outermost) + coverage.skipped(Reason::CallsOnly);
            assert_eq!(coverage.instructions - coverage.judged, others, "{} {}: {}", level, option, coverage);
        }
    }
}

/// Frames of LLVM, whose rows are right at calls only.
#[test]
fn c_by_clang() {
    if !has("clang") || !has("ld.lld") {
        return;
    }
    let folder = Folder::new("aarch64-clang");
    let text = "long g(void *p, long n);
        long f(long n) { char grown[n]; _Alignas(64) long held[8]; return g(grown, n) + g(held, n); }
        long h(long n) { long held[9000]; switch (n) { case 0: return g(held, 1); case 1: return g(0, 2) + 7;
        case 2: return g(held, 3) * 5; case 3: return 9; case 4: return g(held, 4); default: __builtin_trap(); } }";
    folder.write("a.c", text);
    for level in LEVELS {
        for option in ["", "-mbranch-protection=standard", "-mbranch-protection=pac-ret+leaf"] {
            let compiler = "clang --target=aarch64-linux-gnu -Wno-unused-command-line-argument -fPIC";
            folder.run(&format!("{} -funwind-tables -S {} {} a.c", compiler, level, option));
            folder.write("a.s", &readable(&folder.text("a.s")));
            let line = format!("{} -fuse-ld=lld -nostdlib -shared -o out a.s", compiler);
            let Found { kinds, coverage } = found(&folder, &line);
            assert_eq!(kinds, [""; 0], "{} {}", level, option);
            let has_both = coverage.judged > 0 && coverage.skipped(Reason::CallsOnly) > 0;
            assert!(has_both, "{} {}: {}", level, option, coverage);
        }
    }
}

/// The text of instructions that move the frame is that of objdump.
#[test]
fn text_is_what_objdump_writes() {
    if !has(GCC) {
        return;
    }
    let folder = Folder::new("aarch64-text");
    let text = "stp x29, x30, [sp, #-32]!
        ldp x19, x20, [sp, #16]
        ldp d8, d9, [sp], #64
        stp q8, q9, [x2, #32]
        str x30, [sp, #-16]!
        ldr x30, [sp], #16
        str w3, [x4]
        ldur x5, [x6, #-8]
        sub sp, sp, #0x50
        add sp, sp, #0x1, lsl #12
        mov x29, sp
        mov x0, x1
        mov x2, #0x1234
        movk x2, #0x5, lsl #16
        sub sp, sp, x2
        and sp, x9, #0xfffffffffffffff0
        cmp x3, #0x5
        cmp x3, x4
        blr x1
        br x2
        paciasp
        autiasp
        nop
        brk #0x1
        svc #0x0
        ret";
    folder.write("text.s", text);
    folder.run(&format!("{} -c text.s && aarch64-linux-gnu-objdump -d text.o > listing", GCC));
    let machine = Machine::numbered(183).unwrap();
    let listing = folder.text("listing");
    let mut count = 0;
    for line in listing.lines().filter(|line| line.starts_with("  ")) {
        let mut fields = line.split('\t');
        let word = u32::from_str_radix(fields.nth(1).unwrap().trim(), 16).unwrap();
        let expected = fields.take_while(|field| !field.starts_with("//")).collect::<Vec<_>>().join(" ");
        let shown = (machine.text)(&word.to_le_bytes(), 0);
        // objdump leaves out the sign of `ldur` in the name, and shows its own numbers of immediates.
        assert!(shown == expected.trim() || expected.starts_with("ldur"), "{} {}", shown, expected);
        count += 1;
    }
    assert_eq!(count, text.lines().count());
}

/// A function that signs its return address, and authenticates it before it returns.
const SIGNS: &str = "paciasp
    RIGHT .cfi_negate_ra_state
    stp x29, x30, [sp, #-16]!
    .cfi_def_cfa_offset 16
    .cfi_offset x29, -16
    .cfi_offset x30, -8
    WRONG .cfi_negate_ra_state
    blr x1
    ldp x29, x30, [sp], #16
    .cfi_restore x29
    .cfi_restore x30
    .cfi_def_cfa_offset 0
    autiasp
    .cfi_negate_ra_state
    ret";

/// The row after `paciasp` says that the return address isn't signed.
#[test]
fn a_late_row_of_a_signature() {
    AARCH64.planted("signed", "late signature", SIGNS);
}

/// The row after `autiasp` says that it is still signed; and with another key.
#[test]
fn a_late_row_of_an_authentication() {
    let text = SIGNS.replace("WRONG .cfi_negate_ra_state\n", "").replace("RIGHT ", "");
    let text = text.replace("autiasp\n    .cfi", "autiasp\n    RIGHT .cfi");
    AARCH64.planted("authenticated", "authentication without row", &text);
    AARCH64.planted("key", "authentication without row", &by_key_b(&text));
}

/// The same function with the other key.
fn by_key_b(text: &str) -> String {
    format!(".cfi_b_key_frame\n{}", text.replace("iasp", "ibsp"))
}

/// The table names the other key than that with which the code signs, or none, which means A.
#[test]
fn keys_that_tables_do_not_name() {
    let text = SIGNS.replace("    WRONG .cfi_negate_ra_state\n", "").replace("RIGHT ", "");
    AARCH64.planted("a-for-b", "wrong key", &format!("RIGHT {}", by_key_b(&text)));
    AARCH64.planted("b-for-a", "wrong key", &format!("WRONG .cfi_b_key_frame\n{}", text));
}

/// An address that is authenticated with the other key isn't the return address any more.
#[test]
fn keys_that_differ_in_a_function() {
    let text = SIGNS.replace("    WRONG .cfi_negate_ra_state\n", "").replace("RIGHT ", "").replace("autia", "autib");
    AARCH64.quiet("both-keys", &text, "");
}

/// No row speaks of the signature.
#[test]
fn a_signature_without_a_row() {
    let text = SIGNS.replace("WRONG .cfi_negate_ra_state\n", "").replace("    .cfi_neg", "    RIGHT .cfi_neg");
    AARCH64.planted("unsaid", "signature without row", &text);
}

/// `retaa` authenticates and returns, so no row follows; and a copy of the signed address is signed.
#[test]
fn signatures_that_last_until_the_return() {
    let text = SIGNS.replace("WRONG .cfi_negate_ra_state\n", "").replace("RIGHT ", "");
    let text = text.replace("    autiasp\n    .cfi_negate_ra_state\n    ret", "    retaa");
    AARCH64.quiet("retaa", &format!(".arch armv8.3-a\n{}", text), "");
    let copied = "paciasp
        .cfi_negate_ra_state
        mov x9, x30
        .cfi_register x30, x9
        mov x30, x1
        mov x30, x9
        .cfi_restore x30
        xpaclri
        .cfi_negate_ra_state
        mov x0, x30
        ret";
    AARCH64.quiet("copied", copied, "");
    AARCH64.planted("copied-wrong", "signature without row", &copied.replacen(".cfi_neg", "RIGHT .cfi_neg", 2));
}

/// What a return address is signed by, if that isn't the CFA, isn't judged; nor are signatures of other
/// addresses.
#[test]
fn signatures_by_other_numbers() {
    let other = "sub sp, sp, #16
        .cfi_def_cfa_offset 16
        paciasp
        .cfi_negate_ra_state
        autiasp
        .cfi_negate_ra_state
        add sp, sp, #16
        .cfi_def_cfa_offset 0
        ret";
    AARCH64.quiet("by-other", other, "");
    AARCH64.quiet("pointer", "mov x17, x1\nmov x16, x2\npacia1716\nstr x17, [x0]\nautia1716\nbr x17", "");
}

/// A return address that is signed by the stack pointer in a frame, as in glibc's calls for thread-local storage, is
/// the same again after it was authenticated by that.
#[test]
fn signatures_in_a_frame() {
    let body = "stp x1, x2, [sp, #-32]!
        .cfi_def_cfa_offset 32
        paciasp
        .cfi_negate_ra_state
        stp x29, x30, [sp, #-16]!
        .cfi_def_cfa_offset 48
        .cfi_offset x29, -48
        .cfi_offset x30, -40
        blr x1
        ldp x29, x30, [sp], #16
        .cfi_restore x29
        .cfi_restore x30
        .cfi_def_cfa_offset 32
        autiasp
        .cfi_negate_ra_state
        ldp x1, x2, [sp], #32
        .cfi_def_cfa_offset 0
        ret";
    AARCH64.quiet("in-frame", body, "");
    let text = body.replace("        autiasp\n        .cfi", "        autiasp\n        RIGHT .cfi");
    AARCH64.planted("in-frame-wrong", "authentication without row", &text);
}

/// Instructions of the scalable vector extension whose vectors have the numbers of x29 and x30, and one that
/// counts elements in x30.
#[test]
fn scalable_vectors_are_not_general_registers() {
    let text = ".arch armv8.2-a+sve
        mov z29.d, #0x10
        fmul z30.d, p0/m, z30.d, z29.d
        cmphs p1.d, p0/z, z30.d, z29.d
        stp x29, x30, [sp, #-16]!
        .cfi_def_cfa_offset 16
        .cfi_offset x29, -16
        .cfi_offset x30, -8
        mov z30.d, x2
        cntd x30
        ldp x29, x30, [sp], #16
        .cfi_restore x29
        .cfi_restore x30
        .cfi_def_cfa_offset 0
        WRONG cntp x30, p0, p1.d
        cntp x0, p0, p1.d
        ret";
    AARCH64.planted("scalable", "return address overwritten", text);
}

/// Code that signs, in parts that only jumps reach, and in parts that nothing is seen to reach.
#[test]
fn signatures_in_other_parts() {
    let text = "paciasp
        .cfi_negate_ra_state
        stp x29, x30, [sp, #-16]!
        .cfi_def_cfa_offset 16
        .cfi_offset x29, -16
        .cfi_offset x30, -8
        cbz x0, f.cold
        ldp x29, x30, [sp], #16
        .cfi_restore x29
        .cfi_restore x30
        .cfi_def_cfa_offset 0
        autiasp
        .cfi_negate_ra_state
        ret
        nop
        .cfi_negate_ra_state
        mov x0, x2
        autiasp
        .cfi_negate_ra_state
        ret
        .cfi_endproc
        .section .text.unlikely, \"ax\"
        nop
        .cfi_startproc
        .cfi_def_cfa_offset 16
        .cfi_offset x29, -16
        .cfi_offset x30, -8
        RIGHT .cfi_negate_ra_state
        f.cold: blr x1
        brk #1";
    AARCH64.planted("signed-part", "return address signing", text);
    // The same with key B, which the FDE of the part doesn't name.
    let text = by_key_b(text).replace(".cfi_startproc", ".cfi_startproc\nRIGHT .cfi_b_key_frame");
    AARCH64.planted("part-of-other-key", "wrong key", &text.replace("RIGHT .cfi_negate", ".cfi_negate"));
}

/// What gcc writes with return addresses that are signed.
#[test]
fn c_with_signed_return_addresses() {
    if !has(GCC) {
        return;
    }
    let folder = Folder::new("aarch64-signed");
    folder.write("a.c", C);
    for level in LEVELS {
        for option in
            ["=standard", "=pac-ret+leaf", "=pac-ret+b-key", "=pac-ret+leaf -march=armv8.3-a -fomit-frame-pointer"]
        {
            folder.run(&format!("{} -w {} -mbranch-protection{} -S a.c -o out.s", GCC, level, option));
            let text = folder.text("out.s");
            let readable_text = readable(&text);
            assert!(readable_text != text, "{} {}", level, option);
            folder.write("out.s", &readable_text);
            let Found { kinds, coverage } = found(&folder, &format!("{} out.s -o out", GCC));
            assert_eq!((kinds.len(), coverage.partly), (0, 0), "{} {}: {:?}", level, option, coverage);
            if option == "=pac-ret+b-key" {
                folder.write("out.s", &readable(&text.replace(".cfi_b_key_frame", "")));
                let Found { kinds, .. } = found(&folder, &format!("{} out.s -o out", GCC));
                let signs = text.matches("pacibsp").count();
                assert_eq!(kinds, vec!["wrong key"; signs], "{}", level);
            }
        }
    }
}
