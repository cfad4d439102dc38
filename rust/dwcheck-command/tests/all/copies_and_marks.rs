//! Sections with something that changes no row: copies of FDEs, and aarch64's marks of signed return
//! addresses. And sections that can't be read, beside others that can.

use crate::common::run::dwcheck_elf;
use crate::common::{has, Folder};
use dwcheck_elf::frames::{Frames, Name};
use dwcheck_elf::program::Program;

/// Two units with the same inline function. The linker keeps one of the two functions, and both FDEs.
fn two_units(folder: &Folder) {
    let common = "__attribute__((noinline)) inline int shared(int x) { volatile int kept = x; return kept + 1; }\n";
    folder.write(
        "a.cc",
        format!("{}int other(int); int main(int n, char **) {{ return shared(n) + other(n); }}", common),
    );
    folder.write("b.cc", format!("{}int other(int n) {{ return shared(n + 1); }}", common));
    folder.run("g++ -O1 -g -fno-exceptions -fno-asynchronous-unwind-tables a.cc b.cc -o linked");
}

/// Exact copies of an FDE are one FDE. readelf shows both.
#[test]
fn copies_of_an_fde_are_one() {
    let folder = Folder::new("copies");
    two_units(&folder);
    let shown = folder.run("readelf --debug-dump=frames linked | grep -o 'pc=.*' | sort | uniq -d | wc -l");
    assert_eq!(shown.trim(), "1");
    let ran = dwcheck_elf(&folder, "check --no-lists --notes linked");
    assert_eq!((ran.status, ran.error.as_str()), (0, ""), "{}", ran.out);
    assert!(
        ran.out.contains("note .debug_frame: 1 FDEs left out that are exact copies of an earlier one\n"),
        "{}",
        ran.out
    );
    let row = dwcheck_elf(&folder, "row linked shared(int)");
    assert!(row.out.starts_with("section .debug_frame\nrow "), "{}", row.out);
}

/// FDEs that say different things about the same addresses aren't copies.
#[test]
fn other_fdes_for_the_same_addresses_are_refused() {
    let folder = Folder::new("no-copies");
    let fde = |offset| format!(".long 24\n .long 0\n .quad f\n .quad 4\n .byte 0x0e, {}, 0, 0\n", offset);
    let cie = ".long 14\n .long -1\n .byte 1, 0, 1, 0x78, 16, 0x0c, 7, 8, 0x90, 1\n";
    for (second, status) in [(32, 0), (40, 1)] {
        folder.write("a.s", format!(".globl f\nf: .skip 4\n.section .debug_frame\n{}{}{}", cie, fde(32), fde(second)));
        folder.run("as a.s -o a.o && ld -e f a.o -o linked");
        let ran = dwcheck_elf(&folder, "check linked");
        assert_eq!((ran.status, ran.out.contains(": Overlap: ")), (status, status == 1), "{}", ran.out);
    }
}

/// A function of aarch64 that signs its return address from its second instruction on, except
/// between its two returns.
const SIGNS: &str = ".globl f
f: .cfi_startproc
 nop
 .cfi_negate_ra_state
 nop
 .cfi_def_cfa_offset 16
 nop
 .cfi_remember_state
 .cfi_def_cfa_offset 0
 .cfi_negate_ra_state
 nop
 .cfi_restore_state
 nop
 .cfi_negate_ra_state
 nop
 .cfi_endproc
";

/// `DW_CFA_AARCH64_negate_ra_state` changes no rule. It says where return addresses are signed.
#[test]
fn signed_return_addresses() {
    let folder = Folder::new("signed");
    if !has("aarch64-linux-gnu-as") {
        return;
    }
    for (sections, name) in [(".eh_frame", Name::EhFrame), (".debug_frame", Name::DebugFrame)] {
        folder.write("a.s", format!(".cfi_sections {}\n{}", sections, SIGNS));
        folder.run("aarch64-linux-gnu-as a.s -o a.o; aarch64-linux-gnu-ld -e f -Ttext 0x1000 a.o -o linked");
        let ran = dwcheck_elf(&folder, "check --notes linked");
        assert_eq!((ran.status, ran.error.as_str()), (0, ""), "{}", ran.out);
        assert!(ran.out.starts_with(&format!("linked: {}: accepted\ncies 1 fdes 1 rows 6 ", sections)), "{}", ran.out);
        let is_dropped = ran.out.contains(": 3 DW_CFA_AARCH64_negate_ra_state dropped");
        assert_eq!(is_dropped, name == Name::DebugFrame, "{}", ran.out);
        let bytes = folder.bytes("linked");
        let program = Program::read(&bytes).unwrap();
        let frames = Frames::all(&program).next().unwrap().unwrap();
        assert_eq!(frames.name(), name);
        assert_eq!(frames.signed(), [0x1004..0x100c, 0x1010..0x1014]);
    }
}

/// `DW_CFA_GNU_args_size` says nothing about registers. The library reads it in `.eh_frame`, and in `.debug_frame`
/// it is dropped. The rows are those that readelf shows.
#[test]
fn sizes_of_arguments() {
    let folder = Folder::new("args-size");
    for section in [".eh_frame", ".debug_frame"] {
        let function = ".globl f\nf: .cfi_startproc\n nop\n .cfi_escape 0x2e, 0x90, 1\n nop\n .cfi_def_cfa_offset 24\n nop\n .cfi_endproc\n";
        folder.write("a.s", format!(".cfi_sections {}\n{}", section, function));
        folder.run("as a.s -o a.o; ld -e f a.o -o linked");
        let ran = dwcheck_elf(&folder, "check --notes linked");
        assert_eq!((ran.status, ran.error.as_str()), (0, ""), "{}", ran.out);
        assert!(ran.out.starts_with(&format!("linked: {}: accepted\ncies 1 fdes 1 rows 3 ", section)), "{}", ran.out);
        let is_dropped = ran.out.contains(": 1 DW_CFA_GNU_args_size dropped");
        assert_eq!(is_dropped, section == ".debug_frame", "{}", ran.out);
    }
}

/// Compiles a program with a `.debug_frame` that is long enough for objcopy to compress it.
fn with_debug_frame(folder: &Folder) {
    let function = |number| format!("int unused{}(int x) {{ volatile int kept = x; return kept; }}\n", number);
    folder.write("b.c", (0..20).map(function).collect::<String>());
    folder.write("a.c", crate::common::C);
    folder.run("gcc -g -fno-asynchronous-unwind-tables -c b.c; gcc -O1 -g a.c b.o -o whole");
}

/// Sections that are compressed by zlib or by zstd have the rows that they had before.
#[test]
fn compressed_sections() {
    let folder = Folder::new("compressed");
    with_debug_frame(&folder);
    let rows = dwcheck_elf(&folder, "rows whole").out;
    assert!(rows.starts_with("section .debug_frame\n"), "{}", rows);
    for kind in ["zlib", "zlib-gnu", "zstd"] {
        folder.run(&format!("objcopy --compress-debug-sections={} whole linked", kind));
        let shown = folder.run("readelf -SW linked | grep debug_frame");
        assert!(shown.contains(" .zdebug_frame ") || shown.contains("   C  "), "{}: {}", kind, shown);
        let ran = dwcheck_elf(&folder, "rows linked");
        assert_eq!((ran.status, ran.error.as_str(), &ran.out), (0, "", &rows), "{}", kind);
    }
}

/// A `.debug_frame` that can't be decompressed doesn't keep any command from `.eh_frame`.
#[test]
fn an_unreadable_section_leaves_the_others() {
    let folder = Folder::new("unreadable");
    with_debug_frame(&folder);
    folder.run("objcopy --compress-debug-sections=zlib whole linked");
    let place = crate::common::hex(folder.run("objdump -h linked | awk '$2 == \".debug_frame\" {print $6}'").trim());
    let mut bytes = folder.bytes("linked");
    let begin = place as usize + 24;
    bytes[begin..begin + 8].fill(0xff);
    folder.write("linked", bytes);
    let why = "dwcheck-elf: linked: .debug_frame: ";
    let check = dwcheck_elf(&folder, "check --no-lists linked");
    assert!(check.status == 3 && check.error.starts_with(why), "{}", check.error);
    assert!(check.out.starts_with("linked: .eh_frame: accepted\n"), "{}", check.out);
    let survey = dwcheck_elf(&folder, "survey linked");
    assert!(
        survey.status == 3 && survey.out.starts_with("files 1 repeated 0 unread 1\nsections 1 accepted 1 "),
        "{}",
        survey.out
    );
    for command in ["rows linked", "row linked main"] {
        let ran = dwcheck_elf(&folder, command);
        assert!(ran.status == 0 && ran.out.starts_with("section .eh_frame\n"), "{}", ran.out);
        assert!(ran.error.starts_with(why) && ran.error.ends_with("; .eh_frame is used\n"), "{}", ran.error);
    }
}

/// The letter B of an augmentation says that return addresses are signed with aarch64's key B.
#[test]
fn the_other_key_of_signed_return_addresses() {
    let folder = Folder::new("key-b");
    if !has("aarch64-linux-gnu-as") {
        return;
    }
    folder.write("a.s", SIGNS.replace(".cfi_startproc", ".cfi_startproc\n .cfi_b_key_frame"));
    folder.run("aarch64-linux-gnu-as a.s -o a.o; aarch64-linux-gnu-ld -e f a.o -o linked");
    assert!(folder.run("readelf --debug-dump=frames linked").contains("\"zRB\""));
    let ran = dwcheck_elf(&folder, "check linked");
    assert_eq!((ran.status, ran.error.as_str()), (0, ""), "{}", ran.out);
    assert!(ran.out.starts_with("linked: .eh_frame: accepted\ncies 1 fdes 1 rows 6 "), "{}", ran.out);
}
