//! Runs `dwcheck-elf` on programs whose frame sections have defects, and checks what it writes.

use crate::common::run::dwcheck_elf;
use crate::common::{has, Folder, MACHINES};

/// Functions with a defect. Each has its name, the directives between its instructions, the name of
/// the fault, and the words in which `dwcheck-elf` says what is at the fault.
const DEFECTS: [(&str, &str, &str, &str); 13] = [
    (
        "after_expression",
        ".cfi_escape 0x0f, 2, 0x77, 8\n nop\n .cfi_def_cfa_register 6",
        "CfaNotRegister",
        "def_cfa_register",
    ),
    ("unrestored", ".cfi_remember_state", "Unrestored", "the end of the program"),
    ("restored", ".cfi_escape 0x0b", "RestoreWithoutRemember", "restore_state"),
    ("past_end", ".cfi_escape 2, 0x7f", "LocationPastEnd", "advance_loc1"),
    ("moved", ".cfi_escape 1, 0, 0, 0, 0", "UnknownInstruction", "set_loc"),
    ("unknown", ".cfi_escape 0x3f", "UnknownInstruction", "instruction 0x3f"),
    ("window", ".cfi_escape 0x2d", "UnknownInstruction", "GNU_window_save"),
    ("underflow", ".cfi_escape 0x0f, 1, 0x22", "Underflow", "DW_OP_plus of def_cfa_expression"),
    ("in_frame", ".cfi_escape 0x10, 3, 2, 0x9c, 0x96", "NotInFrame", "DW_OP_call_frame_cfa of expression"),
    ("operation", ".cfi_escape 0x16, 3, 1, 0xe0", "UnknownOperation", "DW_OP_GNU_push_tls_address of val_expression"),
    ("ends_empty", ".cfi_escape 0x0f, 0", "EndsEmpty", "def_cfa_expression"),
    (
        "offset",
        ".cfi_escape 0x0e, 0x80, 0x80, 0x80, 0x80, 0x80, 0x80, 0x80, 0x80, 0x80, 1",
        "OffsetRange",
        "def_cfa_offset",
    ),
    ("truncated", ".cfi_escape 0x0f, 0x7f", "Truncated", "def_cfa_expression"),
];

/// Links a function for each defect, and one without a defect.
fn all_defects(folder: &Folder) {
    let function = |name: &str, directives: &str| {
        format!(
            ".globl {0}\n.type {0}, @function\n{0}: .cfi_startproc\n nop\n {1}\n nop\n .cfi_endproc\n.size {0}, . - {0}\n",
            name, directives
        )
    };
    let mut text = function("_start", ".cfi_def_cfa_offset 16");
    DEFECTS.iter().for_each(|(name, directives, ..)| text.push_str(&function(name, directives)));
    folder.write("a.s", text);
    folder.run("as a.s -o a.o && ld --no-ld-generated-unwind-info a.o -o linked 2> ld.log");
}

/// `check --all` lists each defect with the FDE's offset and addresses that readelf shows. `check`
/// and `rows` write only the first defect.
#[test]
fn each_defect_is_listed_in_the_terms_of_the_file() {
    let folder = Folder::new("all-defects");
    all_defects(&folder);
    let ran = dwcheck_elf(&folder, "check --all linked");
    assert_eq!(ran.status, 1, "{}", ran.out);
    let shown = folder.run("readelf --debug-dump=frames linked 2> /dev/null | grep FDE");
    let offsets: Vec<_> = shown.lines().map(|line| crate::common::hex(line.split(' ').next().unwrap())).collect();
    let ranges: Vec<_> =
        shown.lines().map(|line| line.rsplit_once("pc=").unwrap().1.split_once("..").unwrap()).collect();
    let lines = ran.lines();
    let (lines, rest) = lines.split_at(2 * DEFECTS.len());
    // A CIE and an FDE for each function, but for equal CIEs.
    let all = shown.lines().count() + folder.run("readelf --debug-dump=frames linked | grep CIE").lines().count();
    let left_out = format!("linked: .eh_frame: {} of {} records left out", DEFECTS.len(), all);
    assert_eq!((rest[0], rest.len()), (left_out.as_str(), 2), "{}", ran.out);
    assert!(rest[1].starts_with("cies 1 fdes 1 rows 2 "), "{}", ran.out);
    for ((name, _, fault, what), (number, pair)) in DEFECTS.iter().zip(lines.chunks(2).enumerate()) {
        let (begin, end) = ranges[number + 1];
        let range = format!("FDE {:#x}..{:#x}", crate::common::hex(begin), crate::common::hex(end));
        let (place, rest) = pair[0].split_once(": ").and_then(|(_, rest)| rest.split_once(": ")).unwrap();
        assert_eq!(place, format!(".eh_frame+{:#x}", offsets[number + 1]));
        let expected = if *name == "ends_empty" { "the end of the expression of def_cfa_expression" } else { what };
        assert_eq!(rest, format!("{}: {}, {} ({})", fault, expected, range, name));
        assert!(pair[1].starts_with("    at 0x") && pair[1].contains("(DWARF 5, "), "{}", pair[1]);
    }
    let first = dwcheck_elf(&folder, "check linked");
    assert_eq!((first.status, first.lines()), (1, [&lines[..2], rest].concat()));
    // The function without a defect has its rows, and the others have the same faults on standard error.
    let rows = dwcheck_elf(&folder, "rows linked");
    assert_eq!((rows.status, rows.lines()[0], rows.lines().len()), (1, "section .eh_frame", 4), "{}", rows.out);
    assert!(rows.lines()[1].ends_with(" (_start)"), "{}", rows.out);
    let notes: Vec<_> = rows.error.lines().filter_map(|line| line.strip_prefix("dwcheck-elf: ")).collect();
    let faults: Vec<_> = lines.iter().step_by(2).copied().collect();
    assert_eq!(notes, [vec![rest[0]], faults].concat());
}

/// A row and a caller of a function without a defect are found; for one with a defect its fault is the
/// answer. The first fault is a note.
#[test]
fn a_defect_costs_only_its_fde() {
    let folder = Folder::new("one-defect");
    all_defects(&folder);
    folder.write("state", "keep 3\nsp 7\nreg 7 0x7f00\nmem 0x7f00 00000000000000000000000000000000\n");
    let check = dwcheck_elf(&folder, "check --all linked");
    let faults = check.lines();
    for (command, rest) in [("row linked _start+1", ""), ("unwind linked _start+1", " state")] {
        let ran = dwcheck_elf(&folder, &format!("{}{}", command, rest));
        assert!(ran.status == 1 && (ran.out.contains("cfa=r7+16") || ran.out.contains("cfa value ")), "{}", ran.out);
        let notes: Vec<_> = ran.error.lines().filter_map(|line| line.strip_prefix("dwcheck-elf: ")).collect();
        assert_eq!(notes, [faults[faults.len() - 2], faults[0]]);
        let ran = dwcheck_elf(&folder, &format!("{}{}", command.replace("_start", "underflow"), rest));
        let expected = faults.iter().position(|line| line.ends_with(" (underflow)")).unwrap();
        assert_eq!((ran.status, ran.lines()), (1, faults[expected..expected + 2].to_vec()), "{}", ran.out);
    }
}

/// A CIE or FDE of `.eh_frame` that can't be read costs only itself: an unknown augmentation, which
/// costs the FDE of that CIE too, and a CIE pointer that leads to no CIE.
#[test]
fn what_cannot_be_read_costs_only_itself() {
    let folder = Folder::new("not-read");
    let cie = |name: &str, letters: &str| {
        let fields = format!(".byte 1\n .asciz \"{}\"\n .byte 1, 0x78, 16, 0x0c, 7, 8, 0x90, 1\n", letters);
        format!("{0}: .long {0}_end - {0} - 4\n .long 0\n {1}{0}_end:\n", name, fields)
    };
    let fde = |cie: &str, place| format!(".long 20\n1: .long 1b - {}\n .quad _start + {}\n .quad 4\n", cie, place);
    let unknown = cie("unknown", "x") + &fde("unknown", 4);
    let records = [cie("first", ""), fde("first", 0), unknown, fde("first_end", 8), cie("last", ""), fde("last", 12)];
    folder.write("a.s", format!(".globl _start\n_start: .skip 16\n.section frames, \"a\"\n{}", records.concat()));
    folder.run("as a.s -o a.o && ld a.o -o linked && objcopy --rename-section frames=.eh_frame linked");
    let ran = dwcheck_elf(&folder, "check --all linked");
    let faults: Vec<_> = ran.lines().iter().filter_map(|line| line.split(": ").nth(2)).map(str::to_string).collect();
    assert_eq!(
        (ran.status, &faults[..2]),
        (1, &["Augmentation".to_string(), "NoSuchCie".to_string()][..]),
        "{}",
        ran.out
    );
    let rest = ran.lines();
    assert_eq!(rest[4], "linked: .eh_frame: 3 of 7 records left out", "{}", ran.out);
    assert!(rest[5].starts_with("cies 2 fdes 2 rows 2 "), "{}", ran.out);
    let rows = dwcheck_elf(&folder, "rows linked");
    assert_eq!(
        (rows.status, rows.out.matches("\nfde ").count(), rows.error.lines().count()),
        (1, 2, 3),
        "{}",
        rows.error
    );
}

/// An FDE that covers addresses of another FDE. Linkers leave such FDEs for functions that they
/// dropped.
#[test]
fn fdes_that_share_addresses() {
    let folder = Folder::new("overlap");
    let fde = |begin, size| format!(".long 20\n .long 0\n .quad {}\n .quad {}\n", begin, size);
    let cie = ".long 12\n .long -1\n .byte 1, 0, 1, 0x78, 16, 0x0c, 7, 8\n";
    let records = format!("{}{}{}{}", cie, fde("_start", 4), fde("_start + 8", 4), fde("_start + 2", 8));
    folder.write("a.s", format!(".globl _start\n_start: .skip 16\n.section .debug_frame\n{}", records));
    folder.run("as a.s -o a.o && ld a.o -o linked");
    let start = crate::common::hex(folder.run("nm linked | grep -w _start").split(' ').next().unwrap());
    let ran = dwcheck_elf(&folder, "check --all linked");
    let first = format!(
        "linked: .debug_frame+0x40: Overlap: shares addresses with {:#x}..{:#x} of the FDE at 0x10",
        start,
        start + 4
    );
    assert_eq!(ran.lines()[0], format!("{}, FDE {:#x}..{:#x} (_start+0x2)", first, start + 2, start + 10));
    let rest = &ran.lines()[2..];
    assert_eq!((ran.status, rest[0], rest.len()), (1, "linked: .debug_frame: 1 of 4 records left out", 2));
    assert!(rest[1].starts_with("cies 1 fdes 2 rows 2 "), "{}", ran.out);
}

/// Records of length 0, which some linkers leave in `.debug_frame`, are left out.
#[test]
fn empty_records_of_debug_frame_are_left_out() {
    let folder = Folder::new("empty-records");
    let fde = |cie, begin| format!(".long 20\n .long {}\n .quad {}\n .quad 4\n", cie, begin);
    let cie = ".long 12\n .long -1\n .byte 1, 0, 1, 0x78, 16, 0x0c, 7, 8\n";
    let records = format!("{}{}.long 0\n{}{}", cie, fde("0", "_start"), cie, fde("44", "_start + 4"));
    folder.write("a.s", format!(".globl _start\n_start: .skip 16\n.section .debug_frame\n{}", records));
    folder.run("as a.s -o a.o && ld a.o -o linked");
    let ran = dwcheck_elf(&folder, "check --notes linked");
    assert_eq!(
        ran.lines(),
        [
            "linked: .debug_frame: accepted",
            "cies 2 fdes 2 rows 2 expressions 0",
            "note .debug_frame: 1 records of length 0 left out"
        ]
    );
    let rows = dwcheck_elf(&folder, "rows linked");
    assert!(rows.lines()[3].starts_with("fde 0x0000003c cie 0x0000002c "), "{}", rows.out);
}

/// The commands that show rows and callers, each with the arguments that follow the program's name.
const COMMANDS: [(&str, &str); 4] =
    [("rows", ""), ("row", " _start+1"), ("unwind", " _start+1 state"), ("backtrace", " _start+1 state 9")];

/// Links programs with refused sections. In `debug` it is `.debug_frame` that is refused, in `eh`
/// it is `.eh_frame`, and in `both` it is both. `debug_alone` has only the `.debug_frame` of
/// `debug`, and `eh_alone` only its `.eh_frame`.
fn refused_sections(folder: &Folder) {
    let (good, unknown, remember) = (".cfi_def_cfa_offset 16", ".cfi_escape 0x3f", "0x0a");
    for (name, directive, program) in [("debug", good, remember), ("eh", unknown, "0"), ("both", unknown, remember)] {
        let function = format!("_start: .cfi_startproc\n nop\n {}\n nop\n nop\n .cfi_endproc\n", directive);
        let cie = ".long 12\n .long -1\n .byte 1, 0, 1, 0x78, 16, 0x0c, 7, 8\n";
        let fde = format!(".long 28\n .long 0\n .quad _start\n .quad 3\n .quad {}\n", program);
        folder.write("a.s", format!(".globl _start\n{}.section .debug_frame\n{}{}", function, cie, fde));
        folder.run(&format!("as a.s -o a.o && ld a.o -o {}", name));
    }
    folder.run("objcopy -R .eh_frame debug debug_alone; objcopy -R .debug_frame debug eh_alone");
    folder.write("state", "keep 3\nsp 7\nreg 7 0x7f00\nmem 0x7f00 00000000000000000000000000000000\n");
}

/// The FDE of `.debug_frame` is refused, so the one of `.eh_frame` counts. If both are refused, there are
/// no rows.
#[test]
fn eh_frame_is_used_if_debug_frame_is_refused() {
    let folder = Folder::new("used-sections");
    refused_sections(&folder);
    let check = dwcheck_elf(&folder, "check debug");
    assert_eq!((check.status, check.error.as_str(), check.lines()[4]), (1, "", "debug: .eh_frame: accepted"));
    let fault = check.lines()[0].strip_prefix("debug: ").unwrap();
    assert!(fault.starts_with(".debug_frame+0x10: Unrestored: the end of the program, FDE "), "{}", fault);
    let survey = dwcheck_elf(&folder, "survey debug");
    assert!(survey.error.is_empty() && survey.out.contains("sections 2 accepted 1 refused 1 "), "{}", survey.out);
    let notes =
        |file| format!("dwcheck-elf: {0}: .debug_frame: 1 of 2 records left out\ndwcheck-elf: {0}: {1}\n", file, fault);
    for (command, rest) in COMMANDS {
        let run = |program| dwcheck_elf(&folder, &format!("{} {}{}", command, program, rest));
        let (ours, expected) = (run("debug"), run("eh_alone"));
        assert_eq!((ours.status, ours.error, &ours.out), (1, notes("debug"), &expected.out));
        assert!(expected.error.is_empty() && expected.out != "none\n", "{}", expected.out);
        for refused in ["debug_alone", "both"] {
            let ran = run(refused);
            assert_eq!(ran.status, 1);
            match command {
                "rows" => assert_eq!(ran.out, ""),
                "backtrace" => assert_eq!(ran.lines()[1], "stop not covered"),
                _ => assert_eq!((ran.lines()[0], ran.lines().len()), (format!("{}: {}", refused, fault).as_str(), 2)),
            }
        }
    }
}

/// If `.eh_frame` is refused, `.debug_frame` still answers.
#[test]
fn debug_frame_is_used_if_eh_frame_is_refused() {
    let folder = Folder::new("refused-eh-frame");
    refused_sections(&folder);
    folder.run("objcopy -R .eh_frame eh alone");
    assert_eq!(dwcheck_elf(&folder, "check eh").lines()[0], "eh: .debug_frame: accepted");
    for (command, rest) in COMMANDS {
        let run = |program| dwcheck_elf(&folder, &format!("{} {}{}", command, program, rest));
        let (ours, expected) = (run("eh"), run("alone"));
        assert_eq!((ours.status, &ours.out, expected.status), (1, &expected.out, 0));
        assert!(ours.error.starts_with("dwcheck-elf: eh: .eh_frame: 1 of 2 records left out\n"), "{}", ours.error);
        assert!(ours.error.contains("eh: .eh_frame+0x18: UnknownInstruction: "), "{}", ours.error);
    }
}

/// What is used of a module doesn't depend on the other modules.
#[test]
fn the_sections_of_a_module() {
    let folder = Folder::new("sections-of-modules");
    refused_sections(&folder);
    let alone = dwcheck_elf(&folder, "unwind eh_alone _start+1 state");
    for module in ["debug", "both"] {
        let ran = dwcheck_elf(&folder, &format!("unwind --module 0x10000={} eh_alone _start+1 state", module));
        assert_eq!((ran.status, &ran.out), (1, &alone.out));
        let note = format!("dwcheck-elf: {}: .debug_frame: 1 of 2 records left out\n", module);
        assert!(ran.error.starts_with(&note), "{}", ran.error);
    }
}

/// For these machines GNU as begins CIEs with DW_CFA_def_cfa_register, where the CFA has no rule
/// yet. The CIE of a signal frame of riscv64 has nothing after it.
#[test]
fn a_register_without_an_offset_is_accepted_and_counted() {
    let folder = Folder::new("register");
    folder.write("a.s", ".globl f\nf: .cfi_startproc\n .cfi_signal_frame\n nop\n .cfi_endproc\n");
    for machine in ["riscv64-linux-gnu", "mips-linux-gnu"] {
        if !has(&format!("{}-as", machine)) {
            continue;
        }
        folder.run(&format!("{}-as a.s -o a.o", machine));
        let ran = dwcheck_elf(&folder, "check --notes a.o");
        assert!(ran.out.contains(": 1 DW_CFA_def_cfa_register before a rule for the CFA"), "{}", ran.out);
        assert_eq!(ran.status, 0);
    }
}

/// The name of a vendor's instruction depends on the machine: this one is sparc64's, for register
/// windows. aarch64 has the same code for signed return addresses.
#[test]
fn a_code_of_a_machine_has_its_name() {
    let folder = Folder::new("windows");
    if !has("sparc64-linux-gnu-as") {
        return;
    }
    folder.write("a.s", ".type f, #function\nf: .cfi_startproc\n nop\n .cfi_window_save\n nop\n .cfi_endproc\n");
    folder.run("sparc64-linux-gnu-as a.s -o a.o");
    let ran = dwcheck_elf(&folder, "check a.o");
    assert!(ran.lines()[0].ends_with(": UnknownInstruction: GNU_window_save, FDE 0x0..0x8 (f)"), "{}", ran.out);
}

/// Checks unlinked objects for each machine. They have two sections of code, each of which gets its
/// own address.
#[test]
fn objects_of_each_machine() {
    let folder = Folder::new("machines");
    let function = ".cfi_startproc\n nop\n .cfi_def_cfa_offset 16\n nop\n .cfi_endproc\n";
    folder.write("a.s", format!(".globl f\nf: {0}.section .text.other,\"ax\"\ng: {0}", function));
    for machine in MACHINES.iter().map(|machine| format!("{}-", machine)).chain([String::new()]) {
        if !has(&format!("{}as", machine)) {
            continue;
        }
        folder.run(&format!("{}as a.s -o a.o", machine));
        let ran = dwcheck_elf(&folder, "check a.o");
        assert_eq!((ran.status, ran.lines()[0]), (0, "a.o: .eh_frame: accepted"), "{}: {}", machine, ran.out);
        let shown = folder.run("readelf --debug-dump=frames a.o");
        let (cies, fdes) = (shown.matches(" CIE").count(), shown.matches(" FDE ").count());
        assert!(
            ran.lines()[1].starts_with(&format!("cies {} fdes {} rows 4 ", cies, fdes)),
            "{}: {}",
            machine,
            ran.out
        );
    }
}
