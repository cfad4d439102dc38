//! Symbol files: what `symbols` writes, `stack --symbols` walks and names by, and `compare --symbols` finds.

use crate::common::cores::{addresses, frames, stop};
use crate::common::run::{dwcheck_elf, Ran};
use crate::common::{has, Folder};
use crate::minidumps::{by_lldb, shown, unpacked, KEPT};

/// Has functions in functions, and rows of several kinds.
const SOURCE: &str = "
#include <stdlib.h>
static inline __attribute__((always_inline)) int inner(volatile int *p) {
    if (*p > 1) abort();
    return *p;
}
static inline __attribute__((always_inline)) int middle(volatile int *p) {
    return inner(p) + 1;
}
__attribute__((noinline)) int outer(int n) {
    volatile int kept = n, *all = __builtin_alloca(n * 16);
    all[0] = kept;
    return middle(all) + all[1];
}
int main(int argc, char **argv) { return outer(argc + 2) + 1; }
";

/// Writes the symbol file of the program into the folder `store`.
fn write(folder: &Folder, program: &str) -> Ran {
    let ran = dwcheck_elf(folder, &format!("symbols -o store {}", program));
    assert_eq!(ran.status, 0, "{}", ran.error);
    ran
}

/// The path of the symbol file in the store.
fn symbol_file(folder: &Folder) -> String {
    folder.run("find store -name '*.sym'").trim().to_string()
}

/// The lines of frames without the folders of their modules.
fn without_folders(out: &str) -> Vec<String> {
    let plain = |line: &&str| match (line.find('('), line.find(')')) {
        (Some(begin), Some(end)) => {
            let name = line[begin + 1..end].rsplit('/').next().unwrap();
            format!("{}({}{}", &line[..begin], name, &line[end..])
        }
        _ => line.to_string(),
    };
    frames(out).iter().map(plain).collect()
}

/// tests/minidumps/make.sh had LLDB show these frames with the programs.
#[test]
fn frames_by_symbol_files_alone_are_those_that_lldb_finds_with_the_programs() {
    let folder = unpacked("symbols-kept");
    write(&folder, "x86-64 i386");
    folder.run("mkdir dumps && mv *-* dumps");
    for (machine, writer, how) in KEPT {
        let name = format!("{}-{}-{}", machine, writer, how);
        let words = format!("stack --no-inline --no-source --symbols store dumps/{}", name);
        let ran = dwcheck_elf(&folder, &words);
        assert_eq!(ran.status, 0, "{}", ran.error);
        // LLDB stops at a signal handler.
        let expected = by_lldb(&name);
        let count = if how == "handler" { 2 } else { expected.len() };
        assert_eq!(shown(&ran)[..count], expected[..count], "{}\n{}{}", name, ran.out, ran.error);
    }
}

#[test]
fn lines_and_inlined_functions_are_those_of_the_program() {
    let folder = Folder::new("symbols-lines");
    if !has("gdb") {
        return;
    }
    folder.write("a.c", SOURCE);
    folder.run("gcc -O2 -g a.c -o program");
    folder.make_core("./program");
    let before = dwcheck_elf(&folder, "stack core");
    let inlined: Vec<_> =
        before.out.lines().filter(|line| line.contains(" inlined ") && line.contains("/program)")).collect();
    assert!(inlined.len() == 2 && inlined[0].contains(" inner ") && inlined[1].contains(" middle "), "{}", before.out);
    write(&folder, "program");
    folder.run("rm program");
    let after = dwcheck_elf(&folder, "stack --symbols store core");
    assert_eq!(after.error, "", "{}", after.out);
    assert_eq!(without_folders(&after.out), without_folders(&before.out));
    assert_eq!(stop(&after.out), "stop: return undefined");
}

/// The same source is compiled with its debug information in the program, in files of their own, and in a package.
#[test]
fn units_in_files_of_their_own_have_the_same_functions_and_lines() {
    let folder = Folder::new("symbols-split");
    if !has("dwp") || !has("clang") || !has("llvm-dwp") {
        return;
    }
    folder.write("a.c", SOURCE);
    folder.write("b.c", "int outer(int n); int other(int n) { return n * n; } int (*f)(int) = other;");
    // The first two lines have the build id.
    let records = |folder: &Folder| folder.run(&format!("tail -n +3 {}", symbol_file(folder)));
    // Neither packer reads what gcc writes of DWARF 5: one crashes, and the other one doesn't end.
    for (compiler, packer) in [("gcc -gdwarf-5", ""), ("gcc -gdwarf-4", "dwp"), ("clang -gdwarf-5", "llvm-dwp")] {
        folder.run(&format!("rm -rf store *.dw*; {} -O2 a.c b.c -o program", compiler));
        write(&folder, "program");
        let expected = records(&folder);
        assert!(expected.contains("INLINE 1 ") && expected.contains(" other\n"), "{}", expected);
        folder.run(&format!("rm -r store; {} -O2 -gsplit-dwarf a.c b.c -o program", compiler));
        assert_eq!(write(&folder, "program").error, "");
        assert_eq!(records(&folder), expected);
        if !packer.is_empty() {
            folder.run(&format!("rm -r store; {} -e program -o program.dwp; rm *.dwo", packer));
            assert_eq!(write(&folder, "program").error, "");
            assert_eq!(records(&folder), expected);
        }
        folder.run("rm -rf store *.dw*");
        let ran = write(&folder, "program");
        let why = ": .debug_info: the functions of 2 units are in other files, such as ";
        assert!(ran.error.contains(why) && ran.error.ends_with(".dwo, which aren't there\n"), "{}", ran.error);
        assert!(!records(&folder).contains("FUNC ") && records(&folder).contains(" 0 other\n"), "{}", records(&folder));
    }
}

/// A core file that has neither the program's code nor its tables: its caller in the C library is one of a table, and the
/// program's frames are those of the symbol file.
#[test]
fn a_program_that_is_not_in_the_core_file_is_walked_by_its_symbol_file() {
    let folder = Folder::new("symbols-core");
    if !has("gdb") {
        return;
    }
    folder.write("a.c", SOURCE);
    for flags in ["", "-fcf-protection=none -fomit-frame-pointer", "-no-pie"] {
        folder.run(&format!("rm -rf store; gcc -O2 {} a.c -o program", flags));
        let make = format!("{}/../../tools/make_core.sh", env!("CARGO_MANIFEST_DIR"));
        folder.run(&format!("echo 0x33 > /proc/self/coredump_filter; {} ./program", make));
        let before = dwcheck_elf(&folder, "stack --no-source core");
        write(&folder, "program");
        folder.run("rm program");
        let lost = dwcheck_elf(&folder, "stack --no-source --strict core");
        assert!(!lost.out.contains(" outer"), "{}", lost.out);
        let after = dwcheck_elf(&folder, "stack --no-source --strict --symbols store core");
        assert_eq!(addresses(&frames(&after.out)), addresses(&frames(&before.out)), "{}{}", after.out, after.error);
        assert_eq!(stop(&after.out), "stop: return undefined");
        assert!(after.out.contains(" outer") && after.out.contains(" main+"), "{}", after.out);
    }
}

#[test]
fn a_stripped_program_has_its_dynamic_symbols() {
    let folder = Folder::new("symbols-stripped");
    folder
        .write("a.c", "int exported(int n) { return n + 1; } static int own(int n) { return n; } int (*f)(int) = own;");
    folder.run("gcc -O1 -g -shared -fPIC a.c -o liba.so && strip liba.so");
    write(&folder, "liba.so");
    let text = folder.run(&format!("cat {}", symbol_file(&folder)));
    let address = folder.run("nm -D liba.so | sed -n 's/^0*\\([0-9a-f]*\\) T exported/\\1/p'");
    assert!(text.lines().any(|line| line == format!("PUBLIC {} 0 exported", address.trim())), "{}", text);
    assert!(!text.contains("FUNC ") && !text.contains(" own") && text.contains("STACK CFI INIT "), "{}", text);
    let id = folder.run("readelf -n liba.so | sed -n 's/.*Build ID: //p'").trim().to_uppercase();
    assert!(text.lines().any(|line| line == format!("INFO CODE_ID {}", id)), "{}", text);
}

/// The rows that are written are compared with the program's by another way than they are written.
#[test]
fn rows_of_a_symbol_file_are_those_of_the_program_and_a_changed_one_is_found() {
    let folder = Folder::new("symbols-compared");
    folder.write("a.c", SOURCE);
    folder.run("gcc -O2 -g a.c -o program");
    write(&folder, "program");
    let ran = dwcheck_elf(&folder, "compare --symbols store program");
    assert_eq!((ran.status, ran.error.as_str()), (0, ""), "{}", ran.out);
    let line = ran.out.lines().find(|line| line.contains(".eh_frame and the symbol file: bytes ")).expect("a pair");
    assert!(!line.contains("only-.eh_frame"), "{}", line);
    let file = symbol_file(&folder);
    folder.run(&format!("sed -i '0,/.cfa: $rsp 16 +/s//.cfa: $rsp 24 +/' {}", file));
    let ran = dwcheck_elf(&folder, &format!("compare --symbols {} program", file));
    assert_eq!(ran.status, 1, "{}", ran.out);
    assert!(ran.out.contains(": different CFA at ") && ran.out.contains("the symbol file: cfa=rsp+24 "), "{}", ran.out);
}

/// The CFA of the function is rsp * 2, after its first instruction.
const UNSAID: &str = "
.text
.globl f
.type f, @function
f:
.cfi_startproc
nop
.cfi_escape 0x0f, 4, 0x77, 0, 0x32, 0x1e
nop
.cfi_def_cfa rsp, 8
ret
.cfi_endproc
.size f, . - f
";

#[test]
fn what_rows_cannot_say_is_left_out_and_counted_or_refused() {
    let folder = Folder::new("symbols-unsaid");
    folder.write("a.s", UNSAID);
    folder.run("gcc -shared a.s -o liba.so");
    let ran = dwcheck_elf(&folder, "symbols --strict -o store liba.so");
    assert_eq!((ran.status, ran.out.as_str()), (1, ""));
    assert!(ran.error.ends_with("not written, because its rows can't say: cfa 1\n"), "{}", ran.error);
    assert_eq!(folder.run("find store -name '*.sym*'"), "");
    let ran = write(&folder, "liba.so");
    assert!(ran.error.ends_with("the rows don't say: cfa 1\n"), "{}", ran.error);
    let begin = folder.run("nm liba.so | sed -n 's/^0*\\([0-9a-f]*\\) T f$/\\1/p'");
    let begin = u64::from_str_radix(begin.trim(), 16).unwrap();
    let text = folder.run(&format!("cat {}", symbol_file(&folder)));
    for expected in [format!("STACK CFI INIT {:x} 1 ", begin), format!("STACK CFI INIT {:x} 1 ", begin + 2)] {
        assert!(text.lines().any(|line| line.starts_with(&expected)), "{}\n{}", expected, text);
    }
}

#[test]
fn a_symbol_file_of_another_build_and_an_old_index_are_not_used() {
    let folder = unpacked("symbols-other");
    write(&folder, "x86-64");
    folder.run("mkdir dumps && mv *-* dumps");
    let dump = "dumps/x86-64-crashpad-null";
    let stack = |words: &str| dwcheck_elf(&folder, &format!("stack {} {}", words, dump));
    let named = stack("--symbols store --keep-index");
    assert!(named.out.contains(" null_call+"), "{}{}", named.out, named.error);
    let file = symbol_file(&folder);
    let kept = folder.run(&format!("cksum {}.index", file));
    assert_eq!(stack("--symbols store").out, named.out);
    folder.run(&format!("sed -i 's/null_call$/new_name/' {}", file));
    let renamed = stack("--symbols store --keep-index");
    assert!(renamed.out.contains(" new_name+"), "{}{}", renamed.out, renamed.error);
    assert_ne!(folder.run(&format!("cksum {}.index", file)), kept);
    folder.run(&format!("sed -i '1s/ [0-9A-F]* x86-64$/ 000102030405060708090A0B0C0D0E0F0 x86-64/' {}", file));
    let other = stack("--symbols store");
    assert!(
        !other.out.contains(" new_name+") && other.error.contains(".sym: is of another build: "),
        "{}",
        other.error
    );
    folder.run(&format!("echo > {}", file));
    assert!(stack("--symbols store").error.contains(".sym: not a symbol file: "));
    assert_eq!(stack("--symbols nowhere").status, 3);
}

#[test]
fn programs_that_have_no_symbol_file_are_refused() {
    let folder = Folder::new("symbols-refused");
    folder.write("a.c", "int f(void) { return 1; }");
    folder.run("gcc -c a.c");
    let ran = dwcheck_elf(&folder, "symbols a.o");
    assert_eq!((ran.status, ran.out.as_str()), (3, ""));
    assert!(ran.error.ends_with("neither a program nor a library: link it first\n"), "{}", ran.error);
    assert_eq!(dwcheck_elf(&folder, "symbols a.o a.o").status, 2);
    assert_eq!(dwcheck_elf(&folder, "symbols -o store a.c a.o").status, 3);
}
