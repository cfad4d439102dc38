//! Runs `dwcheck-elf compare`: on programs whose tables say the same, on such with planted differences, and on the kept
//! samples of gas and ld.

use crate::common::run::{dwcheck_elf, dwcheck_elf_words};
use crate::common::{has, place_of, Folder, C, CXX};
use crate::sframe::sample;
use serde_json::Value;

/// The first words of findings: the kind and the function with its offset.
fn found(out: &str) -> Vec<String> {
    let finding = |line: &str| {
        let (_, rest) = line.split_once(": different ")?;
        Some(format!("different {}", rest.split_once(" (")?.0))
    };
    out.lines().filter(|line| !line.starts_with(' ')).filter_map(finding).collect()
}

/// What the differences of the samples are. tests/sframe/make.sh says how they are made; they were found by comparing
/// objdump's rows with readelf's.
const DEFECTS: [(&str, &str, &[&str]); 15] = [
    (
        "2.40",
        "hard",
        &[
            "different CFA at drap+0x1",
            "different return address at outermost",
            "different return address at outermost_later+0x1",
            "different return address at ra_elsewhere+0x1",
            "different register at fp_undefined_after_save+0x2",
            "different register at fp_same_after_save+0x2",
            "different CFA at remembered_twice+0x3",
            "different CFA at other_registers+0x2",
        ],
    ),
    (
        "2.44",
        "hard",
        &[
            "different return address at outermost",
            "different return address at outermost_later+0x1",
            "different return address at ra_in_register+0x1",
            "different return address at ra_elsewhere+0x1",
            "different register at fp_undefined_after_save+0x2",
            "different register at fp_same_after_save+0x2",
            "different CFA at remembered_twice+0x3",
        ],
    ),
    ("2.47.50", "hard", &["different CFA at remembered_twice+0x4"]),
    (
        "2.40",
        "hard-aarch64",
        &[
            "different return address at only_x29+0x4",
            "different return address at x29_first+0x4",
            "different return address at restored_one_by_one+0x8",
            "different CFA at other_cfa+0x4",
            "different return address at outermost",
        ],
    ),
    ("2.44", "hard-aarch64", &["different return address at outermost"]),
    ("2.47.50", "hard-aarch64", &[]),
    ("2.40", "plt", &[]),
    ("2.44", "plt", &["different CFA at taken@plt"]),
    ("2.47.50", "plt", &["different CFA at taken@plt"]),
    ("2.40", "remember", &["different CFA at nested+0x15"]),
    ("2.44", "remember", &["different CFA at nested+0x15"]),
    ("2.47.50", "remember", &["different CFA at nested+0x15"]),
    ("2.40", "silent", &["different return address at _start", "different register at restored+0xf"]),
    (
        "2.44",
        "silent",
        &[
            "different return address at _start",
            "different return address at popped+0x3",
            "different register at restored+0xf",
        ],
    ),
    ("2.47.50", "silent", &[]),
];

#[test]
fn defects_of_gas_and_ld_are_found_in_kept_samples() {
    let folder = Folder::new("compare-samples");
    for (version, name, defects) in DEFECTS {
        let file = sample(version, &format!("{}.so", name));
        let ran = dwcheck_elf_words(&folder, &["compare", file.to_str().unwrap()]);
        assert_eq!(found(&ran.out), defects, "{} {}\n{}{}", version, name, ran.out, ran.error);
        assert_eq!(ran.status, i32::from(!defects.is_empty()), "{}", ran.error);
    }
}

#[test]
fn the_code_says_which_table_is_right() {
    let folder = Folder::new("compare-code");
    for (version, name, code) in [
        ("2.44", "plt.so", "    code: cfa=rsp+8, as .eh_frame says"),
        ("2.47.50", "plt.so", "    code: cfa=rsp+8, as .eh_frame says"),
        ("2.40", "remember.so", "    code: cfa=rsp+16, as .eh_frame says"),
        ("2.47.50", "remember.o", "    code: cfa=rsp+16, as .eh_frame says"),
        ("2.44", "silent.o", "    code: cfa=rsp+16, as .eh_frame says"),
    ] {
        let file = sample(version, name);
        let ran = dwcheck_elf_words(&folder, &["compare", file.to_str().unwrap()]);
        assert!(ran.out.lines().any(|line| line == code), "{} {}\n{}", version, name, ran.out);
        // lint finds these rows too, but that of `.plt.got`: without the other table, a function whose first row isn't
        // that of an entry may be a part of another one.
        if name == "plt.so" {
            continue;
        }
        let ran = dwcheck_elf_words(&folder, &["lint", file.to_str().unwrap()]);
        assert!(ran.out.contains("\n    row of .sframe: "), "{} {}\n{}", version, name, ran.out);
        assert!(!ran.out.contains("\n    row: "), "{}", ran.out);
    }
}

/// A function that saves rbx and rbp, in both frame sections.
const BOTH: &str = ".cfi_sections .eh_frame, .debug_frame
.text
.globl saver
.type saver, @function
saver: .cfi_startproc
 push %rbx
 .cfi_def_cfa_offset 16
 .cfi_offset rbx, -16
 xor %ebx, %ebx
 mov %rdi, %rax
 pop %rbx
 .cfi_restore rbx
 .cfi_def_cfa_offset 8
 ret
 .cfi_endproc
.size saver, .-saver
.globl other
.type other, @function
other: .cfi_startproc
 ret
 .cfi_endproc
.size other, .-other
.section .note.GNU-stack,\"\",@progbits
";

/// A library whose tables are in both sections.
fn library(name: &str) -> Folder {
    let folder = Folder::new(name);
    folder.write("a.s", BOTH);
    folder.run("gcc -nostdlib -shared -Wl,--eh-frame-hdr a.s -o good.so");
    folder
}

/// Changes bytes of a section of a file, and writes it as `bad.so`.
fn plant(folder: &Folder, section: &str, old: &[u8], new: &[u8]) {
    let mut bytes = folder.section("good.so", section);
    let place = place_of(&bytes, old);
    bytes[place..place + new.len()].copy_from_slice(new);
    folder.write("changed", bytes);
    folder.run(&format!("objcopy --update-section {}=changed good.so bad.so", section));
}

#[test]
fn planted_differences_of_frame_sections_are_found() {
    let folder = library("compare-planted");
    let ran = dwcheck_elf(&folder, "compare good.so");
    assert_eq!((ran.status, ran.error.as_str()), (0, ""), "{}", ran.out);
    assert_eq!(ran.lines()[0], "good.so: .eh_frame and .debug_frame: bytes 9");
    // DW_CFA_def_cfa_offset 16 becomes 24; DW_CFA_offset r3 -16 becomes -24; both are right in the code.
    let (cfa, register) = ([0x0e, 16, 0x83, 2], [0x83, 2, 0x46]);
    for (section, right) in [(".debug_frame", ".eh_frame"), (".eh_frame", ".debug_frame")] {
        plant(&folder, section, &cfa, &[0x0e, 24]);
        let ran = dwcheck_elf(&folder, "compare bad.so");
        assert_eq!(found(&ran.out), ["different CFA at saver+0x1"], "{}{}", ran.out, ran.error);
        assert!(
            ran.out.contains(&format!("\n    code: cfa=rsp+16 rbx=[c-16], as {} says\n", right))
                || ran.out.contains(&format!("\n    code: cfa=rsp+16, as {} says\n", right)),
            "{}",
            ran.out
        );
        assert!(ran.out.contains(" backtrace broken: .eh_frame and .debug_frame differ, 6 addresses\n"), "{}", ran.out);
        plant(&folder, section, &register, &[0x83, 3]);
        let ran = dwcheck_elf(&folder, "compare bad.so");
        assert_eq!(found(&ran.out), ["different register at saver+0x1"], "{}{}", ran.out, ran.error);
        assert!(ran.out.contains(&format!(", as {} says\n", right)), "{}", ran.out);
    }
}

#[test]
fn planted_differences_of_eh_frame_hdr_are_found() {
    let folder = library("compare-header");
    let bytes = folder.section("good.so", ".eh_frame_hdr");
    // The entries have 8 bytes each: an address and that of the FDE, both relative to the header.
    let (first, second) = (bytes[12..20].to_vec(), bytes[20..28].to_vec());
    let with = |from: usize, new: &[u8]| {
        let mut changed = bytes.clone();
        changed[from..from + new.len()].copy_from_slice(new);
        folder.write("changed", changed);
        folder.run("objcopy --update-section .eh_frame_hdr=changed good.so bad.so");
        dwcheck_elf(&folder, "compare bad.so")
    };
    let swapped = with(12, &[&second[..], &first].concat());
    assert!(swapped.out.starts_with("bad.so: entry out of order at saver (0x"), "{}", swapped.out);
    assert!(swapped.out.contains("): backtrace broken: 1 entry of .eh_frame_hdr is out of order\n"), "{}", swapped.out);
    let twice = with(20, &first);
    assert!(twice.out.starts_with("bad.so: FDE without entry at other (0x"), "{}", twice.out);
    let moved = with(20, &[second[0].wrapping_add(1)]);
    assert!(
        moved.out.starts_with("bad.so: entry with another address at other+0x1 (0x")
            || moved.out.starts_with("bad.so: entry with another address at "),
        "{}",
        moved.out
    );
    let lost = with(24, &[second[4].wrapping_add(1)]);
    assert!(lost.out.contains("bad.so: entry without FDE at other (0x"), "{}", lost.out);
    assert_eq!([swapped.status, twice.status, moved.status, lost.status], [1; 4]);
}

#[test]
fn the_separate_file_is_compared_too() {
    let folder = library("compare-separate");
    plant(&folder, ".debug_frame", &[0x0e, 16, 0x83, 2], &[0x0e, 24]);
    folder.run(
        "objcopy --only-keep-debug bad.so a.debug && objcopy --strip-debug --add-gnu-debuglink=a.debug bad.so a.so",
    );
    let ran = dwcheck_elf(&folder, "compare a.so");
    assert_eq!((ran.status, ran.error.as_str()), (1, ""), "{}", ran.out);
    assert!(ran.out.contains(".eh_frame and .debug_frame of the separate file differ, 6 addresses"), "{}", ran.out);
    let alone = dwcheck_elf(&folder, "compare --no-separate a.so");
    assert_eq!(alone.status, 0, "{}", alone.out);
}

#[test]
fn findings_are_written_in_the_forms_of_the_lint() {
    let folder = library("compare-forms");
    plant(&folder, ".debug_frame", &[0x0e, 16, 0x83, 2], &[0x0e, 24]);
    let json = dwcheck_elf(&folder, "compare --json bad.so");
    let objects: Vec<Value> = json.out.lines().map(|line| serde_json::from_str(line).unwrap()).collect();
    assert_eq!(objects[0]["kind"], "different CFA");
    assert_eq!(objects[0]["supports"], ".eh_frame");
    assert_eq!(objects[0]["tables"], serde_json::json!([".eh_frame", ".debug_frame"]));
    assert_eq!(objects[objects.len() - 1]["totals"]["findings"], 1);
    let sarif = dwcheck_elf(&folder, "compare --sarif bad.so");
    let sarif: Value = serde_json::from_str(&sarif.out).unwrap();
    assert_eq!(sarif["runs"][0]["results"][0]["ruleId"], "different CFA");
    folder.write("known", dwcheck_elf(&folder, "compare bad.so").out);
    let known = dwcheck_elf(&folder, "compare --known known bad.so");
    assert!(known.status == 0 && known.out.contains(" findings 0 "), "{}", known.out);
    let kind = dwcheck_elf_words(&folder, &["compare", "--kind", "different register", "bad.so"]);
    assert_eq!(kind.status, 0, "{}", kind.out);
    let bad = dwcheck_elf_words(&folder, &["compare", "--kind", "same", "bad.so"]);
    assert!(bad.status == 2 && bad.error.contains("no kind is named same; the kinds are: different CFA, "));
}

#[test]
fn nothing_differs_in_right_programs() {
    let folder = Folder::new("compare-right");
    folder.write("a.c", C);
    folder.write("b.cpp", CXX);
    folder.run("mkdir all && gcc -O2 -g -Wa,--gsframe a.c -o all/c && g++ -O2 -g -Wa,--gsframe b.cpp -o all/cpp");
    folder.run("gcc -O1 -c -Wa,--gsframe a.c -o all/c.o && printf '.cfi_sections .eh_frame, .debug_frame\\n' > h.s");
    if has("aarch64-linux-gnu-gcc") {
        folder.run("aarch64-linux-gnu-gcc -O2 -mbranch-protection=standard -Wa,--gsframe a.c -o all/arm");
    }
    let ran = dwcheck_elf(&folder, "compare all");
    assert_eq!((ran.status, ran.error.as_str()), (0, ""), "{}", ran.out);
    assert!(ran.out.contains("all/c: .eh_frame and .sframe: bytes "), "{}", ran.out);
    let lint = dwcheck_elf(&folder, "lint all");
    assert_eq!((lint.status, lint.error.as_str()), (0, ""), "{}", lint.out);
    assert!(lint.out.contains("all/c: .sframe: fdes "), "{}", lint.out);
}
