//! Runs the commands on a program, and compares what they write with what `dwcheck` writes for the
//! program's sections. Only `dwcheck-elf` writes names of functions and sections, so these are
//! removed first.

use crate::common::run::{by_dwcheck, dwcheck_elf, dwcheck_elf_words};
use crate::common::{hex, Folder, C, CXX};
use std::fs::OpenOptions;
use std::os::unix::io::OwnedFd;
use std::os::unix::net::UnixStream;
use std::process::{Command, Stdio};

/// Makes a program, linked at fixed addresses, that has `.debug_frame`, `.debug_loclists`, and a
/// row with a CFA that is an expression.
fn program(folder: &Folder) {
    folder.write("a.c", C);
    folder.write(
        "aligned.s",
        ".cfi_sections .debug_frame\n.globl f\n.type f, @function\nf: .cfi_startproc\n pushq %rbp\n .cfi_def_cfa_offset 16\n\
         .cfi_offset %rbp, -16\n movq %rsp, %rbp\n .cfi_escape 0x0f, 2, 0x76, 16\n .cfi_undefined %rbx\n xorl %eax, %eax\n\
         leave\n .cfi_def_cfa %rsp, 8\n .cfi_restore %rbp\n ret\n .cfi_endproc\n .size f, . - f\n",
    );
    let plain = "-gno-variable-location-views -fno-var-tracking-assignments -fvar-tracking -fno-var-tracking-uninit";
    let flags = "-g -gdwarf-5 -O2 -no-pie -fno-asynchronous-unwind-tables";
    folder.run(&format!("gcc {} {} a.c aligned.s -o program", flags, plain));
    let dump = "--dump-section .debug_frame=frame --dump-section .debug_loclists=lists";
    folder.run(&format!("objcopy {} program /dev/null", dump));
    // The C library's objects add an `.eh_frame` section to the program, which isn't wanted here.
    folder.run("objcopy -R .eh_frame program program");
}

/// A text without its `section` lines, and without the names of functions, which are in parentheses
/// after a space at the end of a line.
fn nameless(text: &str) -> String {
    let cut = |line: &str| match line.rfind(" (") {
        Some(at) if line.ends_with(')') => line[..at].to_string(),
        _ => line.to_string(),
    };
    text.lines().filter(|line| !line.starts_with("section ")).map(|line| cut(line) + "\n").collect()
}

fn address(folder: &Folder, name: &str) -> u64 {
    hex(folder.run(&format!("nm program | grep -w {}$", name)).split(' ').next().unwrap())
}

#[test]
fn rows_are_those_of_dwcheck() {
    let folder = Folder::new("command-rows");
    program(&folder);
    let ours = dwcheck_elf(&folder, "rows program");
    assert_eq!((ours.status, ours.lines()[0]), (0, "section .debug_frame"));
    assert!(
        ours.out.contains(" (mixed)\n") && ours.out.contains("=expr(") && ours.out.contains(" r3=u"),
        "{}",
        ours.out
    );
    if let Some(theirs) = by_dwcheck(&folder, "rows frame") {
        assert_eq!(nameless(&ours.out), theirs);
    }
}

#[test]
fn a_row_by_number_and_by_symbol() {
    let folder = Folder::new("command-row");
    program(&folder);
    let f = address(&folder, "f");
    let ours = dwcheck_elf(&folder, "row program f+4");
    assert_eq!(ours.lines()[0], "section .debug_frame");
    assert!(ours.lines()[1].ends_with(" (f+0x4)"), "{}", ours.out);
    assert_eq!(dwcheck_elf(&folder, &format!("row program {:#x}", f + 4)).out, ours.out);
    let loaded = format!("row --load 0x10000 program {:#x}", f + 4 + 0x10000);
    assert_eq!(dwcheck_elf(&folder, &loaded).out, ours.out);
    assert_eq!(dwcheck_elf(&folder, "row program 0x1").out, "none\n");
    if let Some(theirs) = by_dwcheck(&folder, &format!("row frame {:#x}", f + 4)) {
        assert_eq!(nameless(&ours.out), theirs);
    }
}

/// A name that `row` shows can be given to `row` again, and finds the same row. `Loud` has two
/// destructors that are shown with the same name, so that name is refused.
#[test]
fn a_row_by_the_name_that_is_shown() {
    let folder = Folder::new("command-demangled");
    folder.write("a.cc", format!("{}struct Louder : Loud {{ virtual ~Louder(); }};\nLouder::~Louder() {{}}\n", CXX));
    folder.run("g++ -O1 a.cc -o program");
    let name = "middle(int, int, int, int, int, int, int, int)+0x1";
    let ours = dwcheck_elf_words(&folder, &["row", "program", name]);
    assert!(ours.status == 0 && ours.out.ends_with(&format!(" ({})\n", name)), "{}{}", ours.out, ours.error);
    assert_eq!(dwcheck_elf(&folder, "row program _Z6middleiiiiiiii+1").out, ours.out);
    let both = dwcheck_elf(&folder, "row program Louder::~Louder()");
    assert_eq!((both.status, both.out.as_str()), (2, ""));
    assert!(both.error.contains("2 functions have the name Louder::~Louder(): 0x"), "{}", both.error);
}

#[test]
fn check_counts_what_dwcheck_counts() {
    let folder = Folder::new("command-check");
    program(&folder);
    let ours = dwcheck_elf(&folder, "check program");
    assert_eq!((ours.status, ours.lines()[0]), (0, "program: .debug_frame: accepted"));
    let theirs = match by_dwcheck(&folder, "check frame lists") {
        Some(theirs) => theirs,
        None => return,
    };
    let renamed = theirs.replace("expr frame", "expr .debug_frame");
    let expressions =
        |text: &str| text.lines().filter(|line| line.starts_with("expr .")).map(String::from).collect::<Vec<_>>();
    assert!(!expressions(&renamed).is_empty());
    assert_eq!(expressions(&ours.out), expressions(&renamed));
    let frames = ours.out.lines().find(|line| line.starts_with("cies ")).unwrap().split(" expressions").next().unwrap();
    assert!(theirs.lines().any(|line| line == frames), "{}", theirs);
    let count = |text: &str, before: &str, after: &str| {
        let (_, rest) = text.split_once(before).unwrap();
        rest.split(after).next().unwrap().parse::<usize>().unwrap()
    };
    let lists = count(&ours.out, "\nunits 1 lists ", " ");
    assert_eq!(lists, theirs.split(" lists ").nth(1).unwrap().split(' ').next().unwrap().parse::<usize>().unwrap());
    assert_eq!(count(&ours.out, " entries ", "\n"), theirs.matches("expr lists").count());
}

#[test]
fn check_without_location_lists() {
    let folder = Folder::new("command-no-lists");
    folder.write("a.c", C);
    folder.run("gcc -g -gdwarf-5 -O2 a.c -o program && objcopy -R .eh_frame program without");
    let both = dwcheck_elf(&folder, "check program");
    assert!(both.status == 0 && both.out.contains("program: .debug_loclists: accepted"), "{}", both.out);
    let frames = dwcheck_elf(&folder, "check --no-lists program");
    assert_eq!((frames.status, frames.lines()[0]), (0, "program: .eh_frame: accepted"));
    assert!(both.out.starts_with(&frames.out) && !frames.out.contains("lists"), "{}", frames.out);
    let none = dwcheck_elf(&folder, "check --no-lists without");
    assert_eq!((none.status, none.out.as_str()), (0, "without: no .debug_frame, .eh_frame or .sframe\n"));
}

/// For an entry value, which gcc and clang write, the line with the rule has a hint.
#[test]
fn entry_values_that_compilers_write() {
    let folder = Folder::new("command-entry-value");
    let table = ".long 16\n.short 5\n.byte 8, 0\n.long 0\n.byte 4, 0, 1, 3, 0xa3, 1, 0x55, 0\n";
    folder.write("a.s", format!(".section .debug_loclists\n{}", table));
    folder.run("as a.s -o a.o");
    let ran = dwcheck_elf(&folder, "check a.o");
    let hint = "; this is an entry value: see docs/TROUBLESHOOTING.md, or use check --no-lists";
    assert!(ran.lines()[0].contains("UnknownOperation: DW_OP_entry_value"), "{}", ran.out);
    assert!(ran.status == 1 && ran.lines()[1].ends_with(hint), "{}", ran.out);
}

/// For entries that gcc and clang write, the line with the rule has a hint.
#[test]
fn entries_of_location_lists_that_compilers_write() {
    let folder = Folder::new("command-entries");
    let (both, views) = ("view numbers or address indexes", "view numbers");
    for (code, kind) in [(1, both), (2, both), (3, both), (9, views)] {
        let table = format!(".long 10\n.short 5\n.byte 8, 0\n.long 0\n.byte {}, 0\n", code);
        folder.write("a.s", format!(".section .debug_loclists\n{}", table));
        folder.run("as a.s -o a.o");
        let ran = dwcheck_elf(&folder, "check a.o");
        let hint = format!("; these are {}: see docs/TROUBLESHOOTING.md, or use check --no-lists", kind);
        assert!(ran.lines()[0].contains(&format!("UnknownEntry: entry {:#04x}", code)), "{}", ran.out);
        assert!(ran.status == 1 && ran.lines()[1].ends_with(&hint), "{}", ran.out);
    }
}

#[test]
fn walks_are_those_of_dwcheck() {
    let folder = Folder::new("command-walks");
    program(&folder);
    let f = address(&folder, "f");
    let main = address(&folder, "main");
    let stack = format!("reg 6 0x7f00\nreg 7 0x7ef0\nmem 0x7f00 0080000000000000{}\n", le(main + 9));
    folder.write("state", format!("keep 3\nkeep 6\nsp 7\n{}", stack));
    let words = format!("{:#x} state", f + 4);
    let ours = dwcheck_elf(&folder, &format!("unwind program {}", words));
    assert!(ours.out.ends_with(" (main+0x9)\n"), "{}", ours.out);
    let walk = dwcheck_elf(&folder, &format!("backtrace program {} 50", words));
    assert!(walk.lines()[0].ends_with(" (f+0x4)") && walk.lines()[1].ends_with(" (main+0x9)"), "{}", walk.out);
    assert_eq!(dwcheck_elf(&folder, "backtrace program f+4 state 50").out, walk.out);
    if let Some(theirs) = by_dwcheck(&folder, &format!("unwind frame {}", words)) {
        assert_eq!(nameless(&ours.out), theirs);
        assert_eq!(nameless(&walk.out), by_dwcheck(&folder, &format!("backtrace frame {} 50", words)).unwrap());
    }
    folder.write("bad", "reg 1 0x1\n\nreg 2 1\n");
    let bad = dwcheck_elf(&folder, "unwind program f bad");
    assert_eq!((bad.status, bad.error.as_str()), (2, "dwcheck-elf: bad: state line 3: reg 2 1\n"));
}

/// The 8 bytes of a little-endian number, in the hexadecimal digits of a state file.
fn le(value: u64) -> String {
    value.to_le_bytes().iter().map(|byte| format!("{:02x}", byte)).collect()
}

#[test]
fn locations_are_those_of_dwcheck() {
    let folder = Folder::new("command-locs");
    program(&folder);
    let shown = folder.run("readelf --debug-dump=loc program");
    let mut all: Vec<(u64, u64)> = Vec::new();
    let mut is_first = true;
    for line in shown.lines() {
        let words: Vec<_> = line.split_whitespace().collect();
        match words.as_slice() {
            [_, "<End", ..] => is_first = true,
            [offset, begin, ..] if is_first && begin.len() == 16 => {
                all.push((hex(offset), hex(begin)));
                is_first = false;
            }
            _ => {}
        }
    }
    assert!(all.len() > 3, "{}", shown);
    folder.write("state", "reg 0 0x10\nreg 5 0x50\nframe 0x7f00\ncfa 0x7f10\n");
    for (list, base) in all {
        for address in [base, base + 4, base + 40] {
            let words = format!("{:#x} 0x0 {:#x}", list, address);
            let ours = dwcheck_elf(&folder, &format!("locs --state state program {}", words));
            assert_eq!(ours.status, 0);
            if let Some(theirs) = by_dwcheck(&folder, &format!("locs --state state lists {}", words)) {
                assert_eq!(ours.out, theirs, "{}", words);
            }
        }
    }
}

#[test]
fn words_and_files_that_are_wrong() {
    let folder = Folder::new("command-wrong");
    program(&folder);
    folder.write("text", "no ELF file\n");
    // As a kernel module, it has no frame section.
    folder.run("echo 'int x;' | gcc -x c - -c -fno-asynchronous-unwind-tables -o bare.o");
    let mut core = folder.bytes("bare.o");
    // e_type: ET_CORE
    core[16] = 4;
    folder.write("bare.core", core);
    for (words, status, error) in [
        ("row program nothing", 2, "bad argument: ADDRESS: no function has the name nothing"),
        ("row program main+x", 2, "no number follows the plus sign"),
        ("row program 0x", 2, "bad argument: ADDRESS is 0x, which isn't an address as 0x1130\n"),
        ("row program 0x10000000000000000", 2, "isn't an address"),
        ("row --load 5 program main", 2, "bad argument: --load is 5, which isn't an address as 0x1130\n"),
        ("row program", 2, "ADDRESS"),
        ("sort program", 2, "sort"),
        ("backtrace program main state 65536", 2, "LIMIT is 65536, which isn't a count of frames up to 65535\n"),
        ("unwind --module 1=x program main state", 2, "LOAD of --module is 1, which isn't an address as 0x1130\n"),
        ("unwind --module 0x1 program main state", 2, "isn't LOAD=FILE"),
        ("locs program 0x100000000 0x0 0x0", 2, "LIST is past 0xffffffff"),
        ("locs program 0 0x0 0x0", 2, "LIST is 0, which isn't an address as 0x1130\n"),
        ("locs program 0xc nothing 0x0", 2, "BASE: no function has the name nothing\n"),
        ("locs program 0xc 0x0 nothing", 2, "ADDRESS: no function has the name nothing\n"),
        ("row program 4ba50", 2, "no function has the name 4ba50 (an address begins with 0x)"),
        ("check nowhere", 3, "cannot read nowhere"),
        ("check .", 3, "cannot read .: Is a directory (os error 21): survey reads folders\n"),
        ("check text", 3, "not an ELF file"),
        ("rows bare.o", 3, "bare.o: has no .eh_frame, .debug_frame or .sframe\n"),
        (
            "rows bare.core",
            3,
            "has no .eh_frame, .debug_frame or .sframe; it is a core file: stack prints its stacks\n",
        ),
        ("unwind program main nowhere", 3, "cannot read nowhere"),
        ("stack program program", 3, "an ELF file of type 2, not a core file; the order is PROGRAM CORE\n"),
    ] {
        let ran = dwcheck_elf(&folder, words);
        assert_eq!((ran.status, ran.out.as_str()), (status, ""), "{}: {}", words, ran.error);
        assert!(ran.error.contains(error), "{}: {}", words, ran.error);
    }
}

#[test]
fn threads_and_frames_that_are_not_there() {
    let folder = Folder::new("no-thread");
    folder.run("printf 'int main(void) { __builtin_trap(); }' | gcc -g -x c - -o trap");
    folder.make_core("./trap");
    let shown =
        folder.run("gdb --batch -ex 'info threads' trap core 2> /dev/null | grep -om 1 'LWP [0-9]*' | head -n 1");
    let tid = shown.trim().trim_start_matches("LWP ");
    let ran = dwcheck_elf(&folder, "vars --core core --thread 1");
    let error = format!("dwcheck-elf: bad argument: --thread is 1, and the threads are {}\n", tid);
    assert_eq!((ran.status, ran.out.as_str(), ran.error), (2, "", error));
    let ran = dwcheck_elf(&folder, "vars --core core --frame 99");
    assert_eq!((ran.status, ran.out.as_str()), (2, ""));
    assert!(ran.error.starts_with("dwcheck-elf: bad argument: --frame is 99, and the stack has "), "{}", ran.error);
}

/// Commands that write, with a file that each of them takes.
const WRITING: [&str; 6] =
    ["--help", "--version", "completions bash", "check /bin/true", "rows /bin/true", "survey --json /bin/true"];

/// Runs a command with this as its standard output, and gives its status and what it says.
fn written_to(words: &str, out: impl Into<Stdio>) -> (Option<i32>, String) {
    let mut command = Command::new(env!("CARGO_BIN_EXE_dwcheck-elf"));
    let ran = command.args(words.split(' ')).stdout(out).stderr(Stdio::piped()).spawn().unwrap().wait_with_output();
    let ran = ran.unwrap();
    (ran.status.code(), String::from_utf8_lossy(&ran.stderr).into_owned())
}

/// Standard output that can't be written has a status of its own, also for help, and the reason is said.
#[test]
fn output_that_cant_be_written_is_a_failure() {
    for words in WRITING {
        let full = OpenOptions::new().write(true).open("/dev/full").unwrap();
        let (status, error) = written_to(words, full);
        assert_eq!(status, Some(3), "{}", words);
        assert_eq!(error, "dwcheck-elf: cannot write: No space left on device (os error 28)\n", "{}", words);
    }
}

/// If a program that reads the output has ended, such as head, nothing is said; the status is the one that shells show
/// for programs which SIGPIPE ends.
#[test]
fn output_that_nobody_reads_ends_the_program_in_silence() {
    for words in WRITING {
        let (reader, writer) = UnixStream::pair().unwrap();
        drop(reader);
        assert_eq!(written_to(words, OwnedFd::from(writer)), (Some(128 + 13), String::new()), "{}", words);
    }
}
