//! Registers whose values are kept in vector registers meanwhile, which aren't followed.

use crate::common::assembly::function;
use crate::common::gimli_rows::module;
use crate::common::{has, Folder};
use dwcheck_lint::finding_text::Text;
use dwcheck_lint::lint::lint;

/// A vector register has the value, and the row names it.
const KEPT: &str = "movq %rbx, %xmm5
    .cfi_register rbx, xmm5
    mov %rdi, %rbx
    lea 1(%rbx), %rax
    movq %xmm5, %rbx
    .cfi_restore rbx
    ret";

/// Two values are stored together.
const SPILLED: &str = "sub $24, %rsp
    .cfi_adjust_cfa_offset 24
    movq %rbx, %xmm0
    movq %rbp, %xmm1
    punpcklqdq %xmm1, %xmm0
    movups %xmm0, (%rsp)
    .cfi_offset rbx, -32
    .cfi_offset rbp, -24
    mov %rdi, %rbx
    mov %rsi, %rbp
    lea (%rbx, %rbp), %rax
    mov (%rsp), %rbx
    .cfi_restore rbx
    mov 8(%rsp), %rbp
    .cfi_restore rbp
    add $24, %rsp
    .cfi_adjust_cfa_offset -24
    ret";

/// The same by instructions for parts of vectors.
const PARTS: &str = "movq %rbx, %xmm0
    pinsrq $1, %rbp, %xmm0
    vpinsrq $1, %r12, %xmm0, %xmm1
    .cfi_register rbx, xmm0
    .cfi_escape 9, 6, 17
    .cfi_escape 9, 12, 18
    mov %rdi, %rbx
    mov %rsi, %rbp
    mov %rsi, %r12
    lea (%rbx, %rbp), %rax
    movq %xmm0, %rbx
    pextrq $1, %xmm0, %rbp
    vpextrq $1, %xmm1, %r12
    .cfi_restore rbx
    .cfi_restore rbp
    .cfi_restore r12
    ret";

/// What is found in a function, also of registers that it doesn't give back.
fn found(name: &str, body: &str) -> Vec<String> {
    let folder = Folder::new(name);
    folder.write("text.s", &function(body, ""));
    if !has("gcc") {
        return Vec::new();
    }
    folder.run("gcc -nostdlib -shared -o out text.s");
    let data = folder.bytes("out");
    let module = module(&data);
    let text = |finding| Text(&module, finding, &|_| None).to_string();
    lint(&module).findings.iter().map(text).collect()
}

#[test]
fn registers_in_vectors_are_not_lost() {
    for (name, body) in [("kept", KEPT), ("spilled", SPILLED), ("parts", PARTS)] {
        assert_eq!(found(name, body), [""; 0], "{}", body);
    }
}

/// Rows that find a register in a vector register say so by its name.
#[test]
fn vector_registers_have_names() {
    let body = "movq %rdi, %xmm5\n.cfi_register rbx, xmm5\npush %rax\npop %rax\n.cfi_same_value rbx\nret";
    if let [text] = found("named", body).as_slice() {
        assert!(text.contains("row: cfa=rsp+8 rbx=xmm5 ra=[c-8]"), "{}", text);
    } else {
        assert!(!has("gcc"));
    }
}
