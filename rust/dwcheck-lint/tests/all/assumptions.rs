//! What is found where the code was taken up from a row: the finding says so, and advises nothing.

use crate::common::assembly::function;
use crate::common::gimli_rows::module;
use crate::common::{has, Folder};
use dwcheck_lint::finding_text::{Json, Text};
use dwcheck_lint::lint::lint;

/// Code whose address is taken, as a handler's, has a wrong row, and jumps to code that has a right one.
const MISPLACED: &str = "sub $24, %rsp
    .cfi_adjust_cfa_offset 24
    lea 2f(%rip), %rax
    mov %rax, (%rdi)
    call *%rsi
    1: nop
    add $24, %rsp
    .cfi_adjust_cfa_offset -24
    ret
    2: mov $1, %eax
    jmp 1b";

/// The text of the only finding in a function, and the same as JSON. `None` if there is no assembler.
fn found(name: &str, body: &str) -> Option<(String, String)> {
    let folder = Folder::new(name);
    folder.write("text.s", &function(body, ""));
    if !has("gcc") {
        return None;
    }
    folder.run("gcc -nostdlib -shared -o out text.s");
    let data = folder.bytes("out");
    let module = module(&data);
    let report = lint(&module);
    assert_eq!(report.findings.len(), 1, "{}", body);
    let finding = &report.findings[0];
    Some((Text(&module, finding, &|_| None).to_string(), Json(&module, finding, &|_| None).to_string()))
}

#[test]
fn findings_that_rest_on_an_assumption_say_so() {
    if let Some((text, json)) = found("assumed", MISPLACED) {
        assert!(text.starts_with("wrong row at a join at "), "{}", text);
        assert!(text.contains("so an earlier row was taken to be right, which may be the wrong one"), "{}", text);
        assert!(!text.contains("right would be"), "{}", text);
        assert!(json.contains("\"assumed\":true") && !json.contains("directive"), "{}", json);
    }
}

#[test]
fn findings_that_rest_on_none_give_a_directive() {
    if let Some((text, json)) = found("unassumed", "push %rax\nmov %rdi, %rax\npop %rcx\nret") {
        assert!(text.ends_with("; right would be: .cfi_def_cfa_offset 16"), "{}", text);
        assert!(json.contains("\"assumed\":false"), "{}", json);
        assert!(json.contains("\"directive\":\".cfi_def_cfa_offset 16\""), "{}", json);
    }
}
