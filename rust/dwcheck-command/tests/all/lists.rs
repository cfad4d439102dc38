//! Checks location lists that compilers write, and some that break a rule. What is expected comes from
//! readelf, or from how a list was made.

use crate::common::run::{dwcheck_elf, Ran};
use crate::common::{has, Folder};

/// Functions with parameters in registers, loops, an inlined call, and a structure in pieces.
const SOURCE: &str = "
#include <stdio.h>
struct point { int x, y; };
static long start;
static inline int squared(int v) { int w = v * v; return w + v; }
__attribute__((noinline)) long first(long a, long b, long c) { long p = a * b; start = p; return p % 5 * c; }
__attribute__((noinline)) double mixed(double d, int n) {
    struct point p = {n, n + 1};
    double sum = 0;
    for (int i = 0; i < n; i++) { int k = squared(i) + p.x; sum += d * k; }
    return sum + p.y;
}
int main(int argc, char **argv) {
    char *text = argv[0];
    long r = first(argc, argc + 1, argc + 2);
    double m = mixed(r, argc);
    for (; *text; text++) if (*text == '/') r++;
    return printf(\"%ld %f %ld\\n\", r, m, start) < 0;
}
";

/// How many entries with an expression readelf finds. Of lists that are found by an array of offsets, as in
/// what clang writes, readelf 2.40 shows only the first ones, and llvm-dwarfdump all.
fn entries_by_others(folder: &Folder, file: &str, has_offsets: bool) -> usize {
    let shown = match has_offsets {
        true => folder.run(&format!("llvm-dwarfdump --debug-loclists {}", file)),
        false => folder.run(&format!("readelf --debug-dump=loc {} 2> /dev/null", file)),
    };
    shown.lines().filter(|line| line.contains(" DW_OP_") || line.contains("(DW_OP_")).count()
}

/// The number after a word in the line that begins with another one.
fn number(ran: &Ran, line: &str, word: &str) -> usize {
    let line = ran.out.lines().find(|found| found.starts_with(line)).unwrap_or_else(|| panic!("{}", ran.out));
    let mut words = line.split(' ').skip_while(|found| *found != word);
    words.nth(1).unwrap_or_else(|| panic!("{}", line)).parse().unwrap()
}

/// Checks a program: its lists have to be accepted, and have all entries that others find.
fn accepted(folder: &Folder, file: &str, section: &str) -> Ran {
    let ran = dwcheck_elf(folder, &format!("check {}", file));
    assert!(ran.status == 0 && ran.error.is_empty(), "{}: {:?}", file, ran);
    assert!(ran.lines().contains(&format!("{}: {}: accepted", file, section).as_str()), "{}", ran.out);
    assert_eq!(
        number(&ran, "units ", "entries"),
        entries_by_others(folder, file, number(&ran, "bytes ", "headers") > 12),
        "{}",
        ran.out
    );
    assert_eq!((number(&ran, "bytes ", "unused"), number(&ran, "bytes ", "gaps")), (0, 0), "{}", ran.out);
    ran
}

#[test]
fn lists_of_gcc_and_clang_are_accepted() {
    let folder = Folder::new("lists-compilers");
    folder.write("a.c", SOURCE);
    let cases = [
        ("gcc -O1 -g", ".debug_loclists"),
        ("gcc -O2 -g", ".debug_loclists"),
        ("gcc -O3 -g -flto", ".debug_loclists"),
        ("gcc -Og -g -gz=zlib", ".debug_loclists"),
        ("gcc -O2 -g -gdwarf-4", ".debug_loc"),
        ("gcc -O2 -g -gvariable-location-views=incompat5", ".debug_loclists"),
        ("clang -O2 -g -gdwarf-5", ".debug_loclists"),
        ("clang -O2 -g -gdwarf-5 -ffunction-sections", ".debug_loclists"),
        ("clang -O2 -g -gdwarf-4", ".debug_loc"),
    ];
    for (compiler, section) in cases {
        if has(compiler.split(' ').next().unwrap()) {
            folder.run(&format!("{} a.c -o program", compiler));
            let ran = accepted(&folder, "program", section);
            assert!(ran.out.contains("\nnot evaluated "), "{}: {}", compiler, ran.out);
        }
    }
}

#[test]
fn lists_of_an_unlinked_object_are_accepted() {
    let folder = Folder::new("lists-object");
    folder.write("a.c", SOURCE);
    folder.run("gcc -O2 -g -ffunction-sections -c a.c -o a.o");
    accepted(&folder, "a.o", ".debug_loclists");
}

#[test]
fn lists_of_other_languages_are_accepted() {
    let folder = Folder::new("lists-languages");
    folder.write("a.rs", "fn main() { let n = std::env::args().count(); for i in 0..n { println!(\"{}\", i * n); } }");
    folder.write("a.cc", crate::common::CXX);
    folder.run("g++ -O2 -g a.cc -o cxx");
    accepted(&folder, "cxx", ".debug_loclists");
    if has("rustc") {
        folder.run("rustc -C debuginfo=2 -C opt-level=2 a.rs -o rust");
        let ran = dwcheck_elf(&folder, "check rust");
        // The standard library of Rust 1.63 has a variable of more than 32 pieces.
        assert!(ran.status == 0 && ran.out.contains("rust: .debug_loc: accepted"), "{}", ran.out);
    }
    if has("go") {
        folder.write("main.go", "package main\nimport (\"fmt\"; \"os\")\nfunc main() { fmt.Println(len(os.Args)) }\n");
        folder.run("HOME=$PWD GOFLAGS=-mod=mod go build -o go main.go");
        let ran = dwcheck_elf(&folder, "check go");
        assert!(ran.status == 0 && ran.out.contains("go: .debug_loc: accepted"), "{}", ran.out);
    }
}

#[test]
fn a_separate_file_is_found() {
    let folder = Folder::new("lists-separate");
    folder.write("a.c", SOURCE);
    folder.run("gcc -O2 -g a.c -o program && objcopy --only-keep-debug program program.debug");
    folder.run("objcopy --strip-debug --add-gnu-debuglink=program.debug program");
    let ran = dwcheck_elf(&folder, "check program");
    let line = format!("program: .debug_loclists (in {}): accepted", folder.file("program.debug").display());
    assert!(ran.status == 0 && ran.lines().contains(&line.as_str()), "{:?}", ran);
    // The checksum in .gnu_debuglink is that of another file.
    folder.run("cp a.c program.debug");
    let ran = dwcheck_elf(&folder, "check program");
    assert!(ran.error.contains("its checksum isn't the one in .gnu_debuglink"), "{}", ran.error);
    assert!(ran.status == 0 && !ran.out.contains("loclists"), "{}", ran.out);
}

/// With -gsplit-dwarf, the lists are in files of their own.
#[test]
fn lists_of_other_files_are_found() {
    let folder = Folder::new("lists-split");
    folder.write("a.c", SOURCE);
    folder.write("b.c", SOURCE.replace("main", "more").replace("first", "second").replace("mixed", "other"));
    for compiler in ["gcc", "clang"] {
        if !has(compiler) {
            continue;
        }
        folder.run(&format!("{} -O2 -g -gsplit-dwarf -gdwarf-5 a.c b.c -o program", compiler));
        let ran = dwcheck_elf(&folder, "check program");
        assert!(ran.status == 0 && ran.error.is_empty(), "{}: {:?}", compiler, ran);
        let names = folder.run("ls *.dwo");
        for name in names.lines() {
            let line = format!("program: .debug_loclists (in {}): accepted", folder.file(name).display());
            assert!(ran.lines().contains(&line.as_str()), "{}", ran.out);
        }
        assert_eq!(ran.out.matches(" unused 0 gaps 0\n").count(), 2, "{}", ran.out);
        // Another build of one of the files.
        folder
            .run(&format!("{} -O1 -g -gsplit-dwarf -gdwarf-5 -c a.c -o other.o; rm -f a.dwo program-a.dwo", compiler));
        folder.run(&format!("cp other.dwo {}", names.lines().next().unwrap()));
        let ran = dwcheck_elf(&folder, "check program");
        assert_eq!((ran.status, ran.out.matches(" unused 0 gaps 0\n").count()), (3, 1), "{:?}", ran);
        folder.run("rm *.dwo");
    }
}

#[test]
fn lists_of_other_files_that_are_not_there() {
    let folder = Folder::new("lists-no-split");
    folder.write("a.c", SOURCE);
    for version in [4, 5] {
        folder.run(&format!("gcc -O2 -g -gsplit-dwarf -gdwarf-{} a.c -o program", version));
        if version == 5 {
            folder.run("rm program-a.dwo");
        }
        let ran = dwcheck_elf(&folder, "check program");
        assert!(ran.status == 3 && !ran.out.contains("loc"), "{:?}", ran);
        assert!(ran.error.contains("1 unit has its location lists in another file, program-a.dwo"), "{}", ran.error);
    }
}

/// A program with a unit of 16 bytes, its function `f` with the first 8 of these, and a variable `x` of `f`, whose
/// list is made of these lines of assembly.
fn with_list(folder: &Folder, version: u16, list: &str) {
    let (header, section) = match version {
        4 => (".short 4\n.long abbrevs\n.byte 8", ".debug_loc"),
        _ => (".short 5\n.byte 1, 8\n.long abbrevs", ".debug_loclists"),
    };
    let table = match version {
        4 => "",
        _ => ".long end - begin\nbegin: .short 5\n.byte 8, 0\n.long 0\n",
    };
    folder.write(
        "a.s",
        format!(
            ".globl _start\n_start: .zero 16\n\
             .section .debug_abbrev, \"\", @progbits\nabbrevs: .byte 1, 0x11, 1, 0x11, 1, 0x12, 6, 0, 0\n\
             .byte 2, 0x2e, 1, 3, 8, 0x11, 1, 0x12, 6, 0, 0, 3, 0x34, 0, 3, 8, 2, 0x17, 0, 0, 0\n\
             .section .debug_info, \"\", @progbits\n.long last - first\nfirst: {}\n\
             .byte 1\n.quad _start\n.long 16\n.byte 2\n.asciz \"f\"\n.quad _start\n.long 8\n.byte 3\n.asciz \"x\"\n.long list - section\n\
             .byte 0, 0\nlast:\n\
             .section {}, \"\", @progbits\nsection: {}\nlist: {}\nend:\n",
            header, section, table, list
        ),
    );
    folder.run("as a.s -o a.o && ld -N a.o -o program 2> /dev/null");
}

/// The result of a check of a program with a list of one entry, from the base to the base + 4.
fn with_expression(folder: &Folder, expression: &[u8]) -> Ran {
    let bytes: Vec<_> = expression.iter().map(u8::to_string).collect();
    with_list(folder, 5, &format!(".byte 4, 0, 4, {}\n.byte {}\n.byte 0", expression.len(), bytes.join(", ")));
    dwcheck_elf(folder, "check --all program")
}

#[test]
fn operations_outside_of_the_profile_are_holes() {
    let folder = Folder::new("lists-holes");
    let cases: [(&[u8], &str); 5] = [
        // entry_value(rdi), stack_value
        (&[0xa3, 1, 0x55, 0x9f], "not evaluated 1: entry_value 1"),
        // regval_type(rdi), convert, stack_value
        (&[0xa5, 5, 0x2a, 0xa8, 0, 0x9f], "not evaluated 1: regval_type 1 convert 1"),
        // implicit_pointer
        (&[0xa0, 0, 0, 0, 0, 0], "not evaluated 1: implicit_pointer 1"),
        // rdi in a piece of 4 bytes, entry_value(rsi) in another one
        (&[0x55, 0x93, 4, 0xa3, 1, 0x54, 0x9f, 0x93, 4], "not evaluated 1: entry_value 1"),
        // const8u, form_tls_address
        (&[0x0e, 0, 0, 0, 0, 0, 0, 0, 0, 0x9b], "not evaluated 1: form_tls_address 1"),
    ];
    for (expression, line) in cases {
        let ran = with_expression(&folder, expression);
        assert_eq!((ran.status, ran.lines()[0]), (0, "program: .debug_loclists: accepted"), "{:?}", ran);
        assert!(ran.lines().contains(&line), "{}", ran.out);
    }
}

/// What a hole stands for takes its entries from the stack, which have to be there.
#[test]
fn the_rest_of_an_expression_with_a_hole_is_checked() {
    let folder = Folder::new("lists-rest");
    let cases: [(&[u8], &str, u64); 5] = [
        // convert, stack_value
        (&[0xa8, 0, 0x9f], "Underflow: DW_OP_convert", 0x10),
        // form_tls_address, const1u: gcc's order
        (&[0x9b, 0x08, 8], "Underflow: DW_OP_form_tls_address", 0x10),
        // entry_value(rdi), plus
        (&[0xa3, 1, 0x55, 0x22], "Underflow: DW_OP_plus", 0x13),
        // entry_value(rdi), rdi
        (&[0xa3, 1, 0x55, 0x55], "NotAlone: DW_OP_reg5", 0x13),
        (&[0x01], "UnknownOperation: operation 0x01", 0x10),
    ];
    for (expression, fault, at) in cases {
        let ran = with_expression(&folder, expression);
        let line = format!("program: .debug_loclists+0xc: {}, list 0xc (x of f)", fault);
        assert_eq!((ran.status, ran.lines()[0]), (1, line.as_str()), "{:?}", ran);
        assert!(ran.lines()[1].starts_with(&format!("    at {:#x}: ", at)), "{}", ran.out);
    }
}

#[test]
fn what_is_not_checked_is_said() {
    let folder = Folder::new("lists-unchecked");
    // lit1, dup, bra to dup, stack_value
    let ran = with_expression(&folder, &[0x31, 0x12, 0x28, 0xfc, 0xff, 0x9f]);
    let verdict = "program: .debug_loclists: accepted, not checked: 1 backward branches";
    assert_eq!((ran.status, ran.lines()[0]), (0, verdict), "{:?}", ran);
    assert_eq!(ran.lines()[1], "program: .debug_loclists+0xc: Backward: DW_OP_bra, list 0xc (x of f)");
    assert_eq!(dwcheck_elf(&folder, "check program").out.lines().nth(1), Some("units 1 lists 1 entries 1"));
    let cases: [(&[u8], &str); 2] = [(&[0x98, 0, 0], "1 call"), (&[0xe5, 1], "1 operation-0xe5")];
    for (expression, what) in cases {
        let ran = with_expression(&folder, expression);
        let verdict = format!("program: .debug_loclists: accepted, not checked: {}", what);
        assert_eq!((ran.status, ran.lines()[0]), (0, verdict.as_str()), "{:?}", ran);
    }
}

#[test]
fn entries_that_break_a_rule_are_refused() {
    let folder = Folder::new("lists-entries");
    let cases = [
        // offset_pair that begins above its end
        (5, ".byte 4, 8, 4, 1, 0x50, 0", ".debug_loclists+0xc: BackRange: entry 0x04"),
        // two default_location
        (5, ".byte 5, 1, 0x50, 5, 1, 0x51, 0", ".debug_loclists+0xf: SecondDefault: entry 0x05"),
        // no end_of_list
        (5, ".byte 4, 0, 4, 1, 0x50", ".debug_loclists+0x11: Truncated: a field"),
        (5, ".byte 10", ".debug_loclists+0xc: UnknownEntry: entry 0x0a"),
        // startx_length without .debug_addr
        (5, ".byte 3, 0, 4, 1, 0x50, 0", ".debug_loclists+0xc: NoSuchAddress: an index"),
        // a length of 4 GB
        (5, ".byte 4, 0, 4, 0xff, 0xff, 0xff, 0xff, 15, 0x50, 0", ".debug_loclists+0xc: Truncated: a field"),
        (4, ".quad 0, 4\n.short 2\n.byte 0x50, 0x50\n.quad 0, 0", ".debug_loc+0x0: NotAlone: DW_OP_reg0"),
        (4, ".quad 0, 4\n.short 1\n.byte 0x50", ".debug_loc+0x13: Truncated: a field"),
    ];
    for (version, list, fault) in cases {
        with_list(&folder, version, list);
        let ran = dwcheck_elf(&folder, "check program");
        let line = format!("program: {}, list ", fault);
        assert!(ran.status == 1 && ran.out.starts_with(&line) && ran.lines()[0].ends_with(" (x of f)"), "{:?}", ran);
    }
}

#[test]
fn doubtful_entries_are_counted_and_listed() {
    let folder = Folder::new("lists-doubtful");
    let cases = [
        // rax for addresses of the unit that aren't the function's, or not even the unit's
        (".byte 4, 4, 12, 1, 0x50, 0", "outside-function", 0xc),
        (".byte 4, 4, 20, 1, 0x50, 0", "outside", 0xc),
        (".byte 4, 4, 4, 1, 0x50, 0", "empty", 0xc),
        // rdx for a part of the addresses that have rax, which isn't the last entry before it
        (".byte 4, 0, 8, 1, 0x50, 4, 1, 2, 1, 0x50, 4, 4, 8, 1, 0x51, 0", "overlapping", 0x16),
        // fbreg of a function without a frame base
        (".byte 4, 0, 4, 2, 0x91, 0, 0", "unreadable", 0xc),
    ];
    for (list, kind, at) in cases {
        with_list(&folder, 5, list);
        let ran = dwcheck_elf(&folder, "check --doubtful program");
        assert_eq!((ran.status, ran.lines()[0]), (0, "program: .debug_loclists: accepted"), "{:?}", ran);
        assert_eq!(ran.lines()[3], format!("doubtful {} 1", kind), "{}", ran.out);
        let begin = format!("program: .debug_loclists+{:#x}: doubtful: {}, 0x", at, kind);
        assert!(ran.lines()[4].starts_with(&begin) && ran.out.ends_with(", list 0xc (x of f)\n"), "{}", ran.out);
    }
}

/// A list that nothing refers to isn't checked, and its bytes are counted.
#[test]
fn bytes_that_nothing_refers_to_are_counted() {
    let folder = Folder::new("lists-gaps");
    with_list(&folder, 5, ".byte 4, 0, 4, 1, 0x50, 0\n.byte 4, 0, 4, 1, 0x01, 0");
    let ran = dwcheck_elf(&folder, "check program");
    assert_eq!((ran.status, ran.lines()[0]), (0, "program: .debug_loclists: accepted"));
    assert_eq!(ran.lines()[2], "bytes headers 12 lists 6 views 0 unused 6 gaps 1");
}

/// A unit with a base address: entries of `.debug_loc` apply from there on, and a base address of their own
/// replaces it.
#[test]
fn entries_of_debug_loc_are_compared() {
    let folder = Folder::new("lists-old");
    with_list(
        &folder,
        4,
        ".quad 0, 4\n.short 1\n.byte 0x50\n.quad -1, 0x1000\n.quad 0, 8\n.short 1\n.byte 0x51\n.quad 0, 0",
    );
    let ran = dwcheck_elf(&folder, "check program");
    assert_eq!((ran.status, ran.lines()[0]), (0, "program: .debug_loc: accepted"), "{:?}", ran);
    assert_eq!(
        ran.lines()[1..],
        ["units 1 lists 1 entries 2", "bytes headers 0 lists 70 views 0 unused 0 gaps 0", "doubtful dropped 1"]
    );
}
