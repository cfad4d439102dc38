//! Runs `dwcheck-elf lint`.

use crate::common::run::{dwcheck_elf, dwcheck_elf_words};
use crate::common::{has, Folder, C, CXX};
use dwcheck_elf::lint::Sections;
use dwcheck_elf::program::Program;
use dwcheck_lint::lint::lint;
use std::env;
use std::path::Path;

/// A function whose push has no row, one that gives rbx to nobody, and one that is right.
const TEXT: &str = ".text
.globl wrong
.type wrong, @function
wrong: .cfi_startproc
 push %rax
 mov %rdi, %rax
 pop %rcx
 ret
 .cfi_endproc
.size wrong, .-wrong
.globl keeper
.type keeper, @function
keeper: .cfi_startproc
 xor %ebx, %ebx
 add %rdi, %rbx
 ret
 .cfi_endproc
.size keeper, .-keeper
.globl right
.type right, @function
right: .cfi_startproc
 mov %rdi, %rax
 ret
 .cfi_endproc
.size right, .-right
.section .note.GNU-stack,\"\",@progbits
";

fn folder(name: &str) -> Folder {
    let folder = Folder::new(name);
    folder.write("a.s", TEXT);
    folder.run("mkdir all && gcc -nostdlib -shared a.s -o all/wrong.so && gcc -c a.s -o all/a.o");
    folder.write("a.c", C);
    folder.run("gcc -O2 a.c -o all/good && printf 'no ELF file' > all/text");
    folder
}

#[test]
fn a_finding_is_shown_with_its_row_and_the_truth() {
    let folder = folder("lint");
    let ran = dwcheck_elf(&folder, "lint all/wrong.so");
    assert_eq!((ran.status, ran.error.as_str()), (1, ""), "{}", ran.out);
    let lines = ran.lines();
    assert!(lines[0].starts_with("all/wrong.so: push without row at wrong+0x1 (0x"), "{}", ran.out);
    assert!(lines[0].ends_with(": backtrace broken: the row's CFA is off by -8, 2 addresses"), "{}", ran.out);
    assert!(lines[1].trim().starts_with("after 0x") && lines[1].ends_with(": push %rax"), "{}", ran.out);
    assert_eq!(lines[3].trim(), "row: cfa=rsp+8 ra=[c-8]");
    assert_eq!(lines[4].trim(), "code: cfa=rsp+16; right would be: .cfi_def_cfa_offset 16");
    assert_eq!(lines[5..], ["all/wrong.so: fdes 3 instructions 9 judged 9"]);
}

#[test]
fn nothing_is_found_in_a_right_program() {
    let folder = folder("lint-good");
    let ran = dwcheck_elf(&folder, "lint all/good");
    assert_eq!((ran.status, ran.error.as_str(), ran.lines().len()), (0, "", 1), "{}", ran.out);
    assert!(ran.out.starts_with("all/good: fdes "), "{}", ran.out);
}

#[test]
fn options_choose_what_is_shown() {
    let folder = folder("lint-options");
    let private = dwcheck_elf(&folder, "lint --private all/wrong.so");
    assert!(private.out.contains(": private at keeper+0x2 (0x"), "{}", private.out);
    let kind = dwcheck_elf_words(&folder, &["lint", "--kind", "late push", "all/wrong.so"]);
    assert_eq!((kind.status, kind.lines().len()), (0, 1), "{}", kind.out);
    let bad = dwcheck_elf_words(&folder, &["lint", "--kind", "early push", "all/wrong.so"]);
    assert!(bad.status == 2 && bad.error.contains("no kind is named early push; the kinds are: moved epilogue, "));
    let explained = dwcheck_elf(&folder, "lint --explain all/wrong.so");
    let wrong = explained.out.lines().filter(|line| line.starts_with("  ! 0x"));
    assert_eq!(wrong.count(), 2, "{}", explained.out);
}

#[test]
fn known_findings_are_left_out() {
    let folder = folder("lint-known");
    folder.write("known", dwcheck_elf(&folder, "lint all/wrong.so").out);
    let ran = dwcheck_elf(&folder, "lint --known known all/wrong.so");
    assert_eq!(ran.status, 0, "{}", ran.out);
    assert!(
        ran.lines()[1].ends_with(" findings 0 backtrace-broken 0 register-lost 0 private 0 known 1"),
        "{}",
        ran.out
    );
    assert_eq!(dwcheck_elf(&folder, "lint --known nowhere all/wrong.so").status, 3);
    for option in ["--json", "--sarif"] {
        folder.write("known", dwcheck_elf(&folder, &format!("lint {} all/wrong.so", option)).out);
        let ran = dwcheck_elf(&folder, "lint --known known all/wrong.so");
        assert_eq!(ran.status, 3, "{}", ran.out);
        assert!(ran.error.contains("cannot read known: it is JSON; "), "{}", ran.error);
    }
}

#[test]
fn a_named_file_without_rows_is_said() {
    let folder = Folder::new("lint-empty");
    folder.write("a.s", ".text\n nop\n ret\n");
    folder.run("mkdir all && gcc -c a.s -o all/a.o");
    let ran = dwcheck_elf(&folder, "lint all/a.o");
    assert_eq!((ran.status, ran.error.as_str()), (3, "dwcheck-elf: all/a.o: no FDEs, so no rows to compare\n"));
    let ran = dwcheck_elf(&folder, "lint all");
    assert_eq!((ran.status, ran.error.as_str()), (0, ""), "{}", ran.out);
}

#[test]
fn folders_and_files_of_other_kinds() {
    let folder = folder("lint-folder");
    let ran = dwcheck_elf(&folder, "lint --jobs 1 all");
    assert_eq!((ran.status, ran.error.as_str()), (1, ""), "{}", ran.out);
    assert!(ran.out.contains("\nfiles 3 others 0 unread 0 findings 2 backtrace-broken 2 "), "{}", ran.out);
    let named = dwcheck_elf(&folder, "lint all/text nowhere");
    assert_eq!(named.status, 3);
    assert!(named.error.contains("cannot read all/text: not an ELF file\n"), "{}", named.error);
    assert!(named.error.contains("cannot read nowhere: "), "{}", named.error);
}

/// An object with a wrong row in a section of its own, and with a call of a function elsewhere that doesn't
/// return: if it did, the stack pointer wouldn't be known after it.
const OBJECT: &str = ".text
right: .cfi_startproc
 push %rbp
 .cfi_adjust_cfa_offset 8
 .cfi_offset rbp, -16
 mov %rsp, %rbp
 .cfi_def_cfa_register rbp
 test %edi, %edi
 jne 1f
 mov (%rsi), %rsp
 CALL
1: mov %edi, %eax
 .cfi_def_cfa rsp, 16
 pop %rbp
 .cfi_restore rbp
 .cfi_adjust_cfa_offset -8
 ret
 .cfi_endproc
.section .text.wrong, \"axG\", @progbits, wrong, comdat
.globl wrong
.type wrong, @function
wrong: .cfi_startproc
 push %rax
 mov %rdi, %rax
 pop %rcx
 ret
 .cfi_endproc
";

#[test]
fn sections_of_unlinked_objects_have_addresses_of_their_own() {
    let folder = Folder::new("lint-object");
    for call in ["call abort@PLT", "call *abort@GOTPCREL(%rip)"] {
        folder.assemble("gcc", OBJECT.replace("CALL", call));
        let ran = dwcheck_elf(&folder, "lint a.o");
        let lines = ran.lines();
        let expected = "a.o: push without row at wrong+0x1 (.text.wrong+0x1): backtrace broken: \
                        the row's CFA is off by -8, 2 addresses";
        assert_eq!((ran.status, lines[0]), (1, expected), "{}", ran.out);
        assert_eq!(lines[1..3], ["    after .text.wrong+0x0: push %rax", "    at .text.wrong+0x1: mov %rdi, %rax"]);
        assert_eq!(lines[5..], ["a.o: fdes 2 instructions 13 judged 13"]);
        folder.write("known", &ran.out);
        assert_eq!(dwcheck_elf(&folder, "lint --known known a.o").status, 0);
    }
    let json = dwcheck_elf(&folder, "lint --json a.o");
    assert!(json.out.contains("\"section\":\".text.wrong\",\"offset\":1,\"function\":\"wrong+0x1\""), "{}", json.out);
}

#[test]
fn debug_frame_of_unlinked_objects() {
    let folder = Folder::new("lint-debug-frame");
    folder.assemble("gcc", format!(".cfi_sections .debug_frame\n{}", OBJECT.replace("CALL", "call abort")));
    let ran = dwcheck_elf(&folder, "lint a.o");
    assert_eq!((ran.status, ran.lines().len()), (1, 6), "{}", ran.out);
    assert!(ran.out.contains("push without row at wrong+0x1 (.text.wrong+0x1)"), "{}", ran.out);
}

/// Tables of jumps, landing pads and cold parts are found by their relocations.
#[test]
fn nothing_is_found_in_right_objects() {
    let folder = Folder::new("lint-objects");
    folder.write("a.c", C);
    folder.write("b.cc", CXX);
    for options in ["-O2", "-O2 -ffunction-sections -fPIC", "-O0 -fPIE"] {
        folder.run(&format!("gcc -w {0} -c a.c && g++ -w {0} -c b.cc && gcc -w {0} a.c -o a", options));
        let (unlinked, linked) = (dwcheck_elf(&folder, "lint a.o b.o"), dwcheck_elf(&folder, "lint a"));
        assert_eq!((unlinked.status, linked.status), (0, 0), "{}{}", unlinked.out, linked.out);
        for line in unlinked.lines() {
            let after =
                |word: &str| line.split(word).nth(1).and_then(|rest| rest.split(' ').nth(1)).map(str::to_string);
            assert_eq!(after(" instructions"), after(" judged"), "{}", line);
        }
    }
}

/// Tables of jumps, found by relocations that are relative to the global offset table, and calls of functions that
/// don't return, found in position-independent programs by entries of the procedure linkage table that use it.
#[test]
fn code_for_i386() {
    let folder = Folder::new("lint-i386");
    folder.write("a.c", C);
    for options in ["-O2 -fPIC", "-O2 -fno-pic -no-pie", "-O0 -fPIE"] {
        folder.run(&format!("gcc -m32 -w {0} -c a.c && gcc -m32 -w {0} a.c -o a", options));
        let (unlinked, linked) = (dwcheck_elf(&folder, "lint a.o"), dwcheck_elf(&folder, "lint a"));
        assert_eq!((unlinked.status, linked.status), (0, 0), "{}{}", unlinked.out, linked.out);
        let counts: Vec<_> = unlinked.out.split_whitespace().skip_while(|word| *word != "instructions").collect();
        assert_eq!((counts[1], counts.len()), (counts[3], 4), "{}", unlinked.out);
    }
    let pushes = ".text
f: .cfi_startproc
 push %ebx
 mov 8(%esp), %ebx
 pop %ebx
 ret
 .cfi_endproc
 .type f, @function
 .size f, .-f
";
    folder.write("a.s", pushes);
    folder.run("gcc -m32 -c a.s");
    let ran = dwcheck_elf(&folder, "lint a.o");
    let lines = ran.lines();
    assert_eq!((ran.status, lines.len()), (1, 6), "{}{}", ran.out, ran.error);
    assert!(lines[0].starts_with("a.o: push without row at f+0x1 (.text+0x1): backtrace broken: "), "{}", ran.out);
    assert_eq!(lines[4].trim(), "code: cfa=esp+8; right would be: .cfi_def_cfa_offset 8");
}

/// A function for aarch64 that loses its stack pointer before it calls a function elsewhere that doesn't
/// return, one with a table of jumps, and one with a wrong row.
const AARCH64: &str = ".text
right: .cfi_startproc
 stp x29, x30, [sp, #-16]!
 .cfi_def_cfa_offset 16
 .cfi_offset x29, -16
 .cfi_offset x30, -8
 mov x29, sp
 .cfi_def_cfa_register x29
 cbnz x0, 1f
 mov sp, x1
 bl abort
1: mov x0, #1
 .cfi_def_cfa_register sp
 ldp x29, x30, [sp], #16
 .cfi_restore x29
 .cfi_restore x30
 .cfi_def_cfa_offset 0
 ret
 .cfi_endproc
chosen: .cfi_startproc
 cmp w0, #1
 b.hi 3f
 adrp x1, table
 add x1, x1, :lo12:table
 ldrb w1, [x1, w0, uxtw]
 adr x0, 2f
 add x1, x0, w1, sxtb #2
 br x1
2: mov x0, #1
 ret
3: mov x0, #2
 ret
 .cfi_endproc
.section .text.wrong, \"ax\"
wrong: .cfi_startproc
 str x30, [sp, #-16]!
 mov x0, #1
 ldr x30, [sp], #16
 ret
 .cfi_endproc
.section .rodata
table: .byte (2b-2b)/4, (3b-2b)/4
";

/// The code of the C library has rows, which it gets while it is built.
#[test]
fn nothing_is_found_in_the_library() {
    let folder = Folder::new("lint_library");
    let archive = Path::new(&env::var_os("DWCHECK_LIB_DIR").expect("the folder of libdwcheck.a")).join("libdwcheck.a");
    folder.run(&format!("ar x '{}'", archive.display()));
    let ran = dwcheck_elf(&folder, "lint dwcheck.o");
    assert_eq!((ran.status, ran.error.as_str()), (0, ""), "{}", ran.out);
    let counts = ran.out.strip_prefix("dwcheck.o: fdes ").expect("counts");
    let functions = folder.run("readelf -sW dwcheck.o | awk '$4 == \"FUNC\" && $3 > 0' | wc -l");
    assert_eq!(counts.split(' ').next(), Some(functions.trim()), "{}", ran.out);
    let numbers: Vec<&str> = counts.trim().split(' ').collect();
    assert_eq!(numbers[2], numbers[4], "all instructions are judged: {}", ran.out);
}

#[test]
fn code_for_aarch64() {
    if !has("aarch64-linux-gnu-gcc") {
        return;
    }
    let folder = Folder::new("lint-aarch64");
    folder.assemble("aarch64-linux-gnu-gcc", AARCH64);
    let unlinked = dwcheck_elf(&folder, "lint a.o");
    let lines = unlinked.lines();
    assert!(lines[0].starts_with("a.o: push without row at wrong+0x4 (.text.wrong+0x4): "), "{}", unlinked.out);
    assert_eq!(
        lines[1..3],
        ["    after .text.wrong+0x0: str x30, [sp, #-16]!", "    at .text.wrong+0x4: mov x0, #0x1"]
    );
    assert!(lines[5..].concat().ends_with(": fdes 3 instructions 24 judged 24"), "{}", unlinked.out);
    let linked = dwcheck_elf(&folder, "lint a.so");
    assert!(linked.out.contains(": push without row at wrong+0x4 (0x"), "{}", linked.out);
    assert!(linked.out.ends_with("a.so: fdes 3 instructions 24 judged 24\n"), "{}", linked.out);
    assert_eq!((unlinked.status, linked.status), (1, 1));
}

/// A function for aarch64 whose rows say nothing of its signature, and one with right rows and the other key.
const SIGNED: &str = ".text
.globl wrong
.type wrong, @function
wrong: .cfi_startproc
 paciasp
 stp x29, x30, [sp, #-16]!
 .cfi_def_cfa_offset 16
 .cfi_offset x29, -16
 .cfi_offset x30, -8
 mov x0, #1
 ldp x29, x30, [sp], #16
 .cfi_restore x29
 .cfi_restore x30
 .cfi_def_cfa_offset 0
 autiasp
 ret
 .cfi_endproc
.size wrong, .-wrong
right: .cfi_startproc
 .cfi_b_key_frame
 pacibsp
 .cfi_negate_ra_state
 mov x0, #2
 cbz x1, 1f
 .cfi_remember_state
 autibsp
 .cfi_negate_ra_state
 ret
1: .cfi_restore_state
 autibsp
 .cfi_negate_ra_state
 ret
 .cfi_endproc
";

/// The return address is signed after `paciasp`, and no row says so.
#[test]
fn return_addresses_that_are_signed() {
    if !has("aarch64-linux-gnu-gcc") {
        return;
    }
    let folder = Folder::new("lint-signed");
    for section in [".eh_frame", ".debug_frame"] {
        folder.assemble("aarch64-linux-gnu-gcc", format!(".cfi_sections {}\n{}", section, SIGNED));
        for (file, place) in [("a.o", ".text+0x4"), ("a.so", "0x")] {
            let ran = dwcheck_elf(&folder, &format!("lint {}", file));
            let lines = ran.lines();
            let expected = format!("{}: signature without row at wrong+0x4 ({}", file, place);
            assert!(lines[0].starts_with(&expected), "{}", ran.out);
            let what = ": backtrace broken: the row says that the return address isn't signed, 4 addresses";
            assert!(lines[0].ends_with(what), "{}", ran.out);
            assert_eq!(lines[4].trim(), "code: x30=x30 signed; right would be: .cfi_negate_ra_state");
            assert_eq!(lines[5..], [format!("{}: fdes 2 instructions 13 judged 13", file)], "{}", ran.out);
        }
    }
}

/// What gcc writes with return addresses that are signed.
#[test]
fn nothing_is_found_in_programs_that_sign() {
    if !has("aarch64-linux-gnu-gcc") {
        return;
    }
    let folder = Folder::new("lint-signs");
    folder.write("a.c", C);
    for options in ["-O0 -mbranch-protection=standard", "-O2 -mbranch-protection=pac-ret+leaf+b-key"] {
        folder.run(&format!("aarch64-linux-gnu-gcc -w {0} a.c -o a && aarch64-linux-gnu-gcc -w {0} -c a.c", options));
        let ran = dwcheck_elf(&folder, "lint a a.o");
        assert_eq!((ran.status, ran.error.as_str()), (0, ""), "{}{}", options, ran.out);
    }
}

/// A function that signs its return address with a key, of whose table the lines `named` say with which.
fn signed_with(key: char, named: &str) -> String {
    format!(
        ".text\n.globl f\n.type f, @function\nf: .cfi_startproc\n{1} paci{0}sp\n .cfi_negate_ra_state\n mov x0, #1\n \
         auti{0}sp\n .cfi_negate_ra_state\n ret\n .cfi_endproc\n",
        key, named
    )
}

/// The table names the other key than that with which the code signs. `.debug_frame` names none.
#[test]
fn keys_that_tables_do_not_name() {
    if !has("aarch64-linux-gnu-gcc") {
        return;
    }
    let folder = Folder::new("lint-key");
    for (text, said, right) in [
        (signed_with('b', ""), 'A', "B; right would be: .cfi_b_key_frame"),
        (signed_with('a', " .cfi_b_key_frame\n"), 'B', "A"),
    ] {
        folder.assemble("aarch64-linux-gnu-gcc", &text);
        for (file, place) in [("a.o", ".text+0x4"), ("a.so", "0x")] {
            let ran = dwcheck_elf(&folder, &format!("lint {}", file));
            let lines = ran.lines();
            assert!(lines[0].starts_with(&format!("{}: wrong key at f+0x4 ({}", file, place)), "{}", ran.out);
            let what = ": backtrace broken: the table says that the return address is signed with key ";
            assert!(lines[0].ends_with(&format!("{}{}, 2 addresses", what, said)), "{}", ran.out);
            assert_eq!(lines[4].trim(), format!("code: x30=x30 signed with key {}", right));
        }
        folder.assemble("aarch64-linux-gnu-gcc", format!(".cfi_sections .debug_frame\n{}", text));
        let ran = dwcheck_elf(&folder, "lint a.o a.so");
        assert_eq!((ran.status, ran.error.as_str()), (0, ""), "{}", ran.out);
    }
}

/// What gcc writes with each key. If the table names the other one, each function that signs is found.
#[test]
fn the_other_key_in_programs_that_sign() {
    if !has("aarch64-linux-gnu-gcc") {
        return;
    }
    let folder = Folder::new("lint-keys");
    folder.write("a.c", C);
    for level in ["-O0", "-O1", "-O2", "-O3", "-Os"] {
        for (key, option) in [('a', ""), ('b', "+b-key")] {
            let options = format!("-w {} -mbranch-protection=pac-ret{}", level, option);
            folder.run(&format!("aarch64-linux-gnu-gcc {} -S a.c && aarch64-linux-gnu-gcc -c a.s -o right.o", options));
            let signs = folder.run(&format!("aarch64-linux-gnu-objdump -d right.o | grep -c 'paci{}sp'", key));
            let augmentations = folder.run("readelf --debug-dump=frames right.o | grep 'Augmentation: '");
            assert_eq!(augmentations.contains("B\""), key == 'b', "{}: {}", options, augmentations);
            let named = folder.run("cat a.s").replace("\t.cfi_b_key_frame\n", "");
            let other = named.replace(".cfi_startproc\n", ".cfi_startproc\n\t.cfi_b_key_frame\n");
            folder.write("a.s", if key == 'a' { other } else { named });
            folder.run("aarch64-linux-gnu-gcc -c a.s -o wrong.o");
            let (right, wrong) = (dwcheck_elf(&folder, "lint right.o"), dwcheck_elf(&folder, "lint wrong.o"));
            assert_eq!((right.status, right.error.as_str()), (0, ""), "{}: {}", options, right.out);
            let found = wrong.out.matches(": wrong key at ").count();
            assert_eq!((wrong.status, found.to_string().as_str()), (1, signs.trim()), "{}: {}", options, wrong.out);
        }
    }
}

/// A function that keeps rbx in another register for a while.
const KEEPER: &str = ".globl f
.type f, @function
f: .cfi_startproc
 mov %rbx, %r8
 xor %ebx, %ebx
 mov %r8, %rbx
 ret
 .cfi_endproc
";

/// Functions of OCaml keep no register; a plugin finds the collector in the program.
#[test]
fn plugins_of_ocaml_keep_no_register() {
    let folder = Folder::new("lint-plugin");
    for (more, status) in [("", 1), (".globl g\ng: jmp caml_call_gc@PLT\n", 0)] {
        folder.assemble("gcc", format!("{}{}", KEEPER, more));
        let (object, linked) = (dwcheck_elf(&folder, "lint a.o"), dwcheck_elf(&folder, "lint a.so"));
        assert_eq!((object.status, linked.status), (status, status), "{}{}", object.out, linked.out);
    }
}

/// A program of Go with code in C: its parts that were split off aren't functions that are called.
#[test]
fn code_in_c_of_programs_of_go() {
    let folder = Folder::new("lint-cgo");
    let text = ".section .gopclntab, \"a\"
 .byte 0
.text
f: .cfi_startproc
 push %rbp
 .cfi_adjust_cfa_offset 8
 .cfi_offset rbp, -16
 mov %rsp, %rbp
 .cfi_def_cfa_register rbp
 test %edi, %edi
 je f.cold
 pop %rbp
 .cfi_restore rbp
 .cfi_def_cfa rsp, 8
 ret
 .cfi_endproc
.section .text.unlikely, \"ax\"
f.cold: .cfi_startproc
 .cfi_def_cfa rbp, 16
 .cfi_offset rbp, -16
 call *%rsi
 ud2
 .cfi_endproc
";
    folder.assemble("gcc", text);
    let ran = dwcheck_elf(&folder, "lint a.so");
    assert_eq!((ran.status, ran.error.as_str()), (0, ""), "{}", ran.out);
}

#[test]
fn code_of_other_machines_is_not_read() {
    if !has("arm-linux-gnueabihf-gcc") {
        return;
    }
    let folder = Folder::new("lint-machine");
    folder.write("a.c", "int twice(int x) { return x + x; }");
    folder.run("arm-linux-gnueabihf-gcc -shared -nostdlib a.c -o a.so");
    let ran = dwcheck_elf(&folder, "lint a.so");
    let expected = "dwcheck-elf: a.so: the code of machine 40 isn't read, only that of x86-64, i386 and aarch64\n";
    assert_eq!((ran.status, ran.error.as_str()), (3, expected));
}

#[test]
fn findings_as_json() {
    let folder = folder("lint-json");
    folder.write("lines", dwcheck_elf(&folder, "lint --json --private all").out);
    folder.write(
        "show.py",
        "import json, sys\nfor line in sys.stdin:\n one = json.loads(line)\n print(one.get('kind'), one.get('function'), \
         one.get('directive'), one.get('registers'), one.get('totals', {}).get('findings'))\n",
    );
    let shown = folder.run("python3 show.py < lines | sort | uniq");
    let expected = "None None None None 4\nNone None None None None\nprivate keeper+0x2 None ['rbx'] None\n\
                    push without row wrong+0x1 .cfi_def_cfa_offset 16 [] None\n";
    assert_eq!(shown, expected);
}

/// SARIF: each finding is at its line, by the line table of a program and of an object.
#[test]
fn findings_as_sarif() {
    let folder = Folder::new("lint-sarif");
    folder.write("a.s", TEXT);
    folder.write(
        "show.py",
        "import json, sys\nrun, = json.load(sys.stdin)['runs']\nfor one in run['results']:\n\
         \x20place = one['locations'][0]\n\
         \x20print(one['ruleId'], one['level'], place['physicalLocation']['artifactLocation']['uri'],\n\
         \x20 place['physicalLocation']['region']['startLine'], place['logicalLocations'][0]['fullyQualifiedName'])\n",
    );
    folder.run("gcc -g -nostdlib -shared a.s -o linked && gcc -g -c a.s -o object && gcc -c a.s -o plain");
    for (file, expected) in [("linked", "a.s 6"), ("object", "a.s 6"), ("plain", "plain 1")] {
        let ran = dwcheck_elf(&folder, &format!("lint --sarif {}", file));
        folder.write("document", &ran.out);
        let shown = folder.run("python3 show.py < document");
        assert_eq!((ran.status, shown), (1, format!("push without row error {} wrong+0x1\n", expected)));
    }
    let rules = folder.run(
        "python3 -c \"import json; rules = json.load(open('document'))['runs'][0]['tool']['driver']['rules']\n\
         print(*(rule['id'] + ': ' + rule['shortDescription']['text'] for rule in rules), sep='\\n')\"",
    );
    assert!(rules.contains("\npush without row: A push, and no row follows.\n"), "{}", rules);
    assert!(rules.lines().all(|rule| rule.ends_with('.')), "{}", rules);
    assert_eq!(dwcheck_elf(&folder, "lint --sarif --json linked").status, 2);
}

/// The symbols and the lines of a stripped library are in its separate file.
#[test]
fn findings_are_named_by_the_separate_file_of_debug_information() {
    let folder = Folder::new("lint-separate");
    folder.write("a.s", TEXT.replace(".globl wrong\n", ""));
    folder.run("gcc -g -nostdlib -shared a.s -o whole.so && objcopy --only-keep-debug whole.so a.debug");
    folder.run("objcopy --strip-all whole.so a.so && objcopy --add-gnu-debuglink=a.debug a.so");
    let named = |ran: &str| ran.contains("push without row at wrong+0x1 (0x");
    let ran = dwcheck_elf(&folder, "lint a.so");
    assert!(named(&ran.out) && ran.error.is_empty(), "{}{}", ran.out, ran.error);
    let sarif = dwcheck_elf(&folder, "lint --sarif a.so").out;
    // The function's second instruction is in the fifth line of what is left of TEXT.
    assert!(sarif.contains("a.s\"") && sarif.contains("\"startLine\": 5"), "{}", sarif);
    folder.run("printf x >> a.debug");
    let other = dwcheck_elf(&folder, "lint a.so");
    assert!(
        !named(&other.out) && other.out.contains("push without row at a function without a name (0x"),
        "{}",
        other.out
    );
    assert!(other.error.contains("its checksum isn't the one in .gnu_debuglink"), "{}", other.error);
}

/// Programs of which bytes were changed: each is read to its end, or refused.
#[test]
fn changed_programs() {
    let folder = Folder::new("lint-damage");
    folder.write("a.cc", CXX);
    folder.run("g++ -O2 a.cc -o a");
    let bytes = folder.bytes("a");
    let mut random = 0x2545_f491_4f6c_dd1d_u64;
    let mut next = move || {
        random ^= random << 13;
        random ^= random >> 7;
        random ^= random << 17;
        random as usize
    };
    for _ in 0..300 {
        let mut changed = bytes.clone();
        for _ in 0..1 + next() % 40 {
            let place = next() % changed.len();
            changed[place] = next() as u8;
        }
        if let Ok(program) = Program::read(&changed) {
            let (sections, functions) = (Sections::read(&program), program.functions());
            let module = sections.module(&program, &functions);
            module.iter().for_each(|module| drop(lint(module)));
        }
    }
}
