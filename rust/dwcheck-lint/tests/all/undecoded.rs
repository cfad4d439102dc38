//! Instructions that the decoder doesn't know: judgement ends there, and nothing is found inside of them.

use crate::common::assembly::{function, X86_64};
use crate::common::gimli_rows::module;
use crate::common::{has, Folder};
use dwcheck_lint::lint::lint;
use dwcheck_lint::machine::Machine;

/// Instructions of extensions that the assembler of Debian 12 knows.
const ASSEMBLED: [&str; 24] = [
    "vpdpbssd %ymm1, %ymm2, %ymm3",
    "vpdpbuuds (%rsp), %xmm2, %xmm3",
    "tdpfp16ps %tmm1, %tmm2, %tmm3",
    "cmpbexadd %eax, %ecx, (%rdx)",
    "cmpbxadd %rax, %rcx, 8(%rsp)",
    "cmplexadd %eax, %ecx, (%rdx)",
    "cmpnzxadd %eax, %ecx, 0x50(%rsp)",
    "cmppxadd %eax, %ecx, 0x58585858(%rdx)",
    "aadd %eax, (%rcx)",
    "aadd %rax, 8(%rsp)",
    "aand %rax, 0x58(%rsp)",
    "aor %eax, (%rbp)",
    "axor %eax, (%rbp, %rbx)",
    "wrmsrns",
    "rdmsrlist",
    "wrmsrlist",
    "{vex} vpmadd52huq %ymm1, %ymm2, %ymm3",
    "vbcstnebf162ps (%rax), %ymm1",
    "vbcstnesh2ps 0x58(%rsp), %xmm1",
    "vcvtneebf162ps (%rax), %ymm1",
    "vcvtneobf162ps 0x5b(%rbp), %ymm1",
    "vcvtneeph2ps (%rsp), %ymm1",
    "vcvtneoph2ps (%rax), %ymm1",
    "{vex} vcvtneps2bf16 %ymm1, %xmm2",
];

/// Instructions that it doesn't know, by their bytes.
const BYTES: [(&str, &[u8]); 27] = [
    ("vsha512msg1 %xmm1, %ymm3", &[0xc4, 0xe2, 0x7f, 0xcc, 0xd9]),
    ("vsha512msg2 %ymm1, %ymm3", &[0xc4, 0xe2, 0x7f, 0xcd, 0xd9]),
    ("vsha512rnds2 %xmm0, %ymm2, %ymm3", &[0xc4, 0xe2, 0x6f, 0xcb, 0xd8]),
    ("vsm3msg1 %xmm0, %xmm2, %xmm3", &[0xc4, 0xe2, 0x68, 0xda, 0xd8]),
    ("vsm3msg2 %xmm1, %xmm2, %xmm3", &[0xc4, 0xe2, 0x69, 0xda, 0xd9]),
    ("vsm3rnds2 $0x58, %xmm1, %xmm2, %xmm3", &[0xc4, 0xe3, 0x69, 0xde, 0xd9, 0x58]),
    ("vsm4key4 0x58(%rsp), %xmm2, %xmm3", &[0xc4, 0xe2, 0x6a, 0xda, 0x5c, 0x24, 0x58]),
    ("vsm4rnds4 %xmm1, %xmm2, %xmm3", &[0xc4, 0xe2, 0x6b, 0xda, 0xd9]),
    ("vpdpwsud %ymm1, %ymm2, %ymm3", &[0xc4, 0xe2, 0x6e, 0xd2, 0xd9]),
    ("lkgs %eax", &[0xf2, 0x0f, 0x00, 0xf0]),
    ("lkgs 0x58(%rsp)", &[0xf2, 0x0f, 0x00, 0x74, 0x24, 0x58]),
    ("erets", &[0xf2, 0x0f, 0x01, 0xca]),
    ("eretu", &[0xf3, 0x0f, 0x01, 0xca]),
    ("urdmsr %rcx, %rdx", &[0xf2, 0x0f, 0x38, 0xf8, 0xca]),
    ("urdmsr $0x58, %rax", &[0xc4, 0xe7, 0x7b, 0xf8, 0xc0, 0x58, 0, 0, 0]),
    ("uwrmsr %rcx, %rdx", &[0xf3, 0x0f, 0x38, 0xf8, 0xca]),
    ("pbndkb", &[0x0f, 0x01, 0xc7]),
    ("an opcode that nothing has", &[0x0f, 0x0a]),
    ("pushp %rbp", &[0xd5, 0x08, 0x55]),
    ("push %r16", &[0xd5, 0x10, 0x50]),
    ("popp %rbx", &[0xd5, 0x08, 0x5b]),
    ("mov %rsp, %r16", &[0xd5, 0x18, 0x89, 0xe0]),
    ("jmpabs", &[0xd5, 0x00, 0xa1, 0x58, 0x58, 0x58, 0x58, 0x58, 0x58, 0x58, 0x58]),
    ("push2 %rbx, %rbp", &[0x62, 0xf4, 0x54, 0x18, 0xff, 0xf3]),
    ("pop2 %rbx, %rbp", &[0x62, 0xf4, 0x54, 0x18, 0x8f, 0xc3]),
    ("sub $0x58, %rsp, %rax", &[0x62, 0xf4, 0xfc, 0x18, 0x83, 0xec, 0x58]),
    ("ccmpb {dfv=} %rax, %rbx", &[0x62, 0xf4, 0x84, 0x02, 0x39, 0xc3]),
];

fn directive(bytes: &[u8]) -> String {
    let bytes: Vec<_> = bytes.iter().map(|byte| format!("{:#x}", byte)).collect();
    format!(".byte {}", bytes.join(", "))
}

/// All of these instructions, as they are assembled.
fn instructions() -> Vec<String> {
    let assembled = ASSEMBLED.iter().map(|text| text.to_string());
    assembled.chain(BYTES.iter().map(|(_, bytes)| directive(bytes))).collect()
}

/// A function that saves a register, has this instruction twice, and overwrites the register.
fn around(instruction: &str) -> String {
    format!(
        "push %rbx
        .cfi_adjust_cfa_offset 8
        .cfi_offset rbx, -16
        {0}
        nop
        xor %ebx, %ebx
        pop %rbx
        .cfi_adjust_cfa_offset -8
        .cfi_restore rbx
        mov %edi, %eax
        {0}
        ret",
        instruction
    )
}

/// The first of the two is reached from the function's entry, the second one from the row after it.
#[test]
fn nothing_is_found_inside_of_instructions() {
    let all = instructions();
    let parts: Vec<_> = all.iter().map(|one| format!(".cfi_startproc\n{}\n.cfi_endproc\n", around(one))).collect();
    if let Some(found) = X86_64.found("undecoded", "ret", &parts.concat()) {
        assert_eq!(found.kinds, [""; 0]);
        let (undecoded, judged) = (found.coverage.undecoded as usize, found.coverage.judged as usize);
        assert_eq!((undecoded, judged), (2 * all.len(), 1 + 2 * all.len()));
        assert!(found.coverage.to_string().ends_with(&format!(" undecoded {}", undecoded)), "{}", found.coverage);
    }
}

/// Each of them is read as no instruction, or with the length that it has.
#[test]
fn lengths_of_instructions() {
    let decode = Machine::numbered(62).unwrap().decode;
    for (name, bytes) in BYTES {
        for after in [0x00, 0x58, 0xc3, 0xd9] {
            let bytes: Vec<_> = bytes.iter().copied().chain([after; 16]).collect();
            assert_eq!(decode(&bytes, 0).length, 1, "{}", name);
        }
    }
    let folder = Folder::new("lengths");
    folder.write(
        "text.s",
        &ASSEMBLED.map(|text| format!("1: {}\n.section .lengths\n.byte 2f-1b\n.text\n2:\n", text)).concat(),
    );
    if has("gcc") && has("objcopy") {
        folder.run("gcc -c text.s -o text.o && objcopy -O binary -j .text text.o text");
        folder.run("objcopy -O binary --set-section-flags .lengths=alloc -j .lengths text.o lengths");
        let (text, mut at) = (folder.bytes("text"), 0);
        for (length, name) in folder.bytes("lengths").into_iter().zip(ASSEMBLED) {
            let found = decode(&text[at..], 0).length;
            assert!(found == 1 || found == length, "{}: {} for {}", name, found, length);
            at += usize::from(length);
        }
    }
}

/// What a jump leads to, and what follows where a row begins, is judged.
#[test]
fn what_follows_is_judged() {
    let text = "test %edi, %edi
        je 1f
        push %rax
        .cfi_adjust_cfa_offset 8
        .byte 0x0f, 0x0a, 0x58
        pop %rax
        .cfi_adjust_cfa_offset -8
        inc %eax
        RIGHT ret
        WRONG push %rcx
        WRONG dec %eax
        WRONG pop %rcx
        WRONG ret
        1: dec %eax
        WRONG push %rax
        WRONG nop
        ud2";
    let folder = Folder::new("follows");
    for (dropped, kept, count) in [("WRONG", "RIGHT", 0), ("RIGHT", "WRONG", 2)] {
        let lines = text.lines().filter(|line| !line.trim_start().starts_with(dropped));
        let text = lines.map(|line| line.replace(kept, "") + "\n").collect::<String>();
        folder.write("text.s", &function(&text, ""));
        if has("gcc") {
            folder.run("gcc -nostdlib -shared -o out text.s");
            let data = folder.bytes("out");
            let module = module(&data);
            let report = lint(&module);
            let places: usize = report.findings.iter().map(|finding| finding.places).sum();
            assert_eq!((places, report.coverage.undecoded), (count, 1));
        }
    }
}
