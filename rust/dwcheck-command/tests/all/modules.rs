//! Unwinds with files that have two frame sections, and with files that can't be modules of one
//! process.

use crate::common::run::dwcheck_elf;
use crate::common::{hex, Folder};

/// A CIE of `.debug_frame`. Its CFA is register 7 plus 8, and its return address is at the CFA
/// minus 8.
const CIE: &str = ".long 14\n .long -1\n .byte 1, 0, 1, 0x78, 16, 0x0c, 7, 8, 0x90, 1\n";

/// An FDE of that CIE, which covers a number of addresses from a symbol on. Its CFA is register 7
/// plus 32.
fn fde(symbol: &str, size: u64) -> String {
    format!(".long 24\n .long 0\n .quad {}\n .quad {}\n .byte 0x0e, 32, 0, 0\n", symbol, size)
}

/// Links a program with three functions of four bytes. `.eh_frame` covers `_start` and `g`, and
/// `.debug_frame` has these FDEs.
fn program(folder: &Folder, name: &str, fdes: &str) {
    let function = |name| format!("{0}: .cfi_startproc\n .skip 4\n .cfi_endproc\n", name);
    let code = format!(".globl _start\n{}f: .skip 4\n{}", function("_start"), function("g"));
    folder.write("a.s", format!("{}.section .debug_frame\n{}{}", code, CIE, fdes));
    folder.run(&format!("as a.s -o a.o && ld a.o -o {}", name));
    folder.write("state", format!("sp 7\nreg 7 0x7f00\nmem 0x7f00 {}\n", "00".repeat(64)));
}

/// The CFA that `unwind` finds at an address. The CFA's register has the content 0x7f00.
fn cfa(folder: &Folder, words: &str) -> Option<u64> {
    let ran = dwcheck_elf(folder, &format!("unwind {} state", words));
    assert_eq!((ran.status, ran.error.as_str()), (0, ""), "{}", words);
    ran.lines()[0].strip_prefix("cfa value ").map(|value| hex(value) - 0x7f00)
}

/// Both sections of a file are used. Where both cover an address, `.debug_frame` counts.
#[test]
fn two_sections_of_a_file() {
    let folder = Folder::new("two-sections");
    program(&folder, "both", &(fde("f", 4) + &fde("g", 4)));
    for (place, offset) in [("_start", Some(8)), ("f", Some(32)), ("f+3", Some(32)), ("g", Some(32)), ("g+4", None)] {
        assert_eq!(cfa(&folder, &format!("both {}", place)), offset, "{}", place);
    }
    folder.run("objcopy -R .debug_frame both eh_alone; objcopy -R .eh_frame both debug_alone");
    assert_eq!(
        ["_start", "f", "g"].map(|place| cfa(&folder, &format!("eh_alone {}", place))),
        [Some(8), None, Some(8)]
    );
    assert_eq!(cfa(&folder, "debug_alone _start"), None);
}

/// If `.debug_frame` covers a part of the addresses of an FDE of `.eh_frame`, the other addresses have its rows.
#[test]
fn fdes_that_are_covered_in_part() {
    let folder = Folder::new("covered-in-part");
    program(&folder, "part", &fde("g", 2));
    assert_eq!(cfa(&folder, "part g+1"), Some(32));
    assert_eq!(cfa(&folder, "part g+3"), Some(8));
}

/// No two modules answer for one address, so a module that overlaps an earlier one isn't used.
#[test]
fn modules_that_are_not_used() {
    let folder = Folder::new("modules-not-used");
    program(&folder, "one", &fde("f", 4));
    program(&folder, "other", &fde("f", 4));
    let alone = dwcheck_elf(&folder, "unwind one f state");
    assert!(alone.out.starts_with("cfa value 0x0000000000007f20\n"), "{}", alone.out);
    let start = hex(folder.run("nm one | grep -w _start").split(' ').next().unwrap());
    let top = 0u64.wrapping_sub(start + 1); // the address 2^64 - 1 would be in the code
    for (load, reason) in [
        (0, "its addresses overlap those of one"),
        (8, "its addresses overlap those of one"),
        (top, "its addresses would pass the highest one"),
    ] {
        let ran = dwcheck_elf(&folder, &format!("unwind --module {:#x}=other one f state", load));
        assert_eq!((ran.status, &ran.out), (0, &alone.out));
        assert_eq!(ran.error, format!("dwcheck-elf: other: not used: {}\n", reason));
    }
    assert_eq!(cfa(&folder, "--module 0x10000=other one f"), Some(32));
    assert_eq!(cfa(&folder, &format!("--module 0x10000=other one {:#x}", start + 0x10004)), Some(32));
}

/// An unlinked object has no segments, so its sections say for which addresses it answers.
#[test]
fn objects_as_modules() {
    let folder = Folder::new("objects-as-modules");
    program(&folder, "linked", "");
    assert_eq!(cfa(&folder, "a.o g"), Some(8));
    folder.write("a.s", format!(".section .debug_frame\n{}", CIE));
    folder.run("as a.s -o empty.o");
    let ran = dwcheck_elf(&folder, "unwind empty.o 0x0 state");
    assert_eq!((ran.status, ran.out.as_str()), (0, "none\n"));
    assert_eq!(ran.error, "dwcheck-elf: empty.o: not used: its frame sections cover no address\n");
}

/// Links a program with this many functions of four bytes. Every other one has its FDE in `.debug_frame`, the
/// others in `.eh_frame`.
fn taking_turns(folder: &Folder, count: usize) {
    let function = |number: usize| match number % 2 {
        0 => format!("f{}: .skip 4\n", number),
        _ => format!("f{}: .cfi_startproc\n .skip 4\n .cfi_endproc\n", number),
    };
    let fdes: String = (0..count).step_by(2).map(|number| fde(&format!("f{}", number), 4)).collect();
    let code: String = (0..count).map(function).collect();
    folder.write("a.s", format!(".globl f0\n{}.section .debug_frame\n{}{}", code, CIE, fdes));
    folder.run("as a.s -o a.o && ld -e f0 a.o -o turns");
    folder.write("state", format!("sp 7\nreg 7 0x7f00\nmem 0x7f00 {}\n", "00".repeat(64)));
}

/// The sections of a file may take turns as often as they like.
#[test]
fn sections_that_take_turns() {
    let folder = Folder::new("turns");
    taking_turns(&folder, 80);
    for number in [0, 1, 40, 41, 79] {
        let offset = if number % 2 == 0 { 32 } else { 8 };
        assert_eq!(cfa(&folder, &format!("turns f{}", number)), Some(offset), "{}", number);
    }
}
