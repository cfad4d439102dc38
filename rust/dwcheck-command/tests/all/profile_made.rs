//! Recordings that are made as perf writes them: of other machines, of processes that fork, and damaged ones.

use crate::common::recordings::{Recording, ARM64, X86};
use crate::common::run::{dwcheck_elf_words, Ran};
use crate::common::{has, Folder};

/// `_start` calls `outer`, which signs its return address and calls `inner`, a leaf. Both calls come after two
/// instructions, and each function has 32 bytes.
const ARM64_CODE: &str = "
.text
.macro function name
.balign 32
.globl \\name
.type \\name, %function
\\name:
.cfi_startproc
.endm
.macro ends name
.cfi_endproc
.size \\name, . - \\name
.endm
function inner
ret
ends inner
function outer
hint #25
.cfi_negate_ra_state
stp x29, x30, [sp, -32]!
.cfi_def_cfa_offset 32
.cfi_offset 29, -32
.cfi_offset 30, -24
bl inner
ldp x29, x30, [sp], 32
.cfi_def_cfa_offset 0
hint #29
ret
ends outer
function _start
.cfi_undefined 30
mov x29, 0
mov x0, 0
bl outer
ends _start
";

/// Functions of x86-64, which have 16 bytes each.
const X86_FUNCTIONS: &str = "
.text
.macro function name
.balign 16
.globl \\name
.type \\name, @function
\\name:
.cfi_startproc
.endm
.macro ends name
.cfi_endproc
.size \\name, . - \\name
.endm
";

/// `_start` calls `outer`, which calls `inner`. The calls come after 4 bytes.
const X86_CODE: &str = "
function inner
ret
ends inner
function outer
sub $24, %rsp
.cfi_def_cfa_offset 32
call inner
add $24, %rsp
.cfi_def_cfa_offset 8
ret
ends outer
function _start
.cfi_undefined rip
xor %ebp, %ebp
xor %eax, %eax
call outer
ends _start
";

/// `fails` is inlined in a part of `work` that rarely runs: compilers name it last, and linkers put it first.
const COLD_CODE: &str = "
#include <stdlib.h>
volatile int sink;
static inline __attribute__((always_inline)) int warm(int x) { sink = x; return sink * 3 + x; }
static inline __attribute__((always_inline)) void fails(int x) { sink = x; sink += 7; abort(); }
int work(int x) { int y = warm(x); if (y == 77) fails(y); return warm(y) + sink; }
";

/// Where the tests map the library that has the functions.
const LOAD: u64 = 0x7f12_3400_0000;

/// The size and the offset of its text.
fn text(folder: &Folder, readelf: &str) -> (u64, u64, u64) {
    let headers = folder.run(&format!("{} -SW a.so", readelf));
    let line = headers.lines().find(|line| line.contains(" .text ")).unwrap();
    let words: Vec<&str> = line.split(" .text ").nth(1).unwrap().split_whitespace().collect();
    let number = |place: usize| u64::from_str_radix(words[place], 16).unwrap();
    (number(1), number(2), number(3))
}

fn profile(folder: &Folder, recording: &[u8], words: &[&str]) -> Ran {
    let root = folder.path().to_str().unwrap().to_string();
    folder.write("made.perf", recording);
    dwcheck_elf_words(folder, &[&["profile", "--root", &root, "made.perf"], words].concat())
}

#[test]
fn signed_return_addresses_of_aarch64_are_followed_in_both_byte_orders() {
    if !has("aarch64-linux-gnu-gcc") {
        return;
    }
    for (option, is_big) in [("-mlittle-endian", false), ("-mbig-endian", true)] {
        let folder = Folder::new(&format!("profile{}", option));
        folder.assemble(&format!("aarch64-linux-gnu-gcc {} -Wl,--build-id=none", option), ARM64_CODE);
        let (address, offset, size) = text(&folder, "aarch64-linux-gnu-readelf");
        let code = LOAD + offset;
        let word = |word: u64| if is_big { word.to_be_bytes() } else { word.to_le_bytes() };
        let mut recording = Recording::new(is_big);
        let page = offset & !0xfff;
        assert_eq!((address, size), (offset, size), "the test takes addresses for offsets");
        recording.map(5, 0, (LOAD + page, 0x1000, page), b"/a.so");
        recording.comm(5, 0, false, b"arm");
        // inner runs: x30 is after the call in outer, which has stored x29 and its own signed x30.
        let mut registers = vec![0; 33];
        let sp = 0xffff_0000_1000;
        (registers[30], registers[31], registers[32]) = (code + 32 + 12, sp, code);
        let stack = [word(0), word(0x2a << 48 | (code + 64 + 12)), word(0), word(0)].concat();
        recording.sample(5, 10, code, &registers, &stack);
        let architecture = if is_big { "aarch64_be" } else { "aarch64" };
        let ran = profile(&folder, &recording.file(ARM64, architecture), &["--stops"]);
        assert_eq!((ran.status, ran.out.as_str()), (0, "arm;_start;outer;inner 1000\n"), "{}", ran.error);
        assert_eq!(ran.error, "samples 1 frames 3 truncated 0\nstop complete: 1\n");
        let ran = profile(&folder, &recording.pipe(ARM64), &["--quiet"]);
        assert_eq!((ran.out.as_str(), ran.error.as_str()), ("arm;_start;outer;inner 1000\n", ""));
    }
}

/// A folder with the library for x86-64, and where its text is: its offset, and the functions' addresses.
fn x86(name: &str) -> (Folder, u64) {
    let folder = Folder::new(name);
    folder.assemble("gcc -Wl,--build-id=none", [X86_FUNCTIONS, X86_CODE].concat());
    let (address, offset, _) = text(&folder, "readelf");
    assert_eq!(address, offset, "the test takes addresses for offsets");
    (folder, offset)
}

/// The registers of a task that runs `inner`, and its stack.
fn in_inner(code: u64) -> (Vec<u64>, Vec<u8>) {
    let mut registers = vec![0; X86.count_ones() as usize];
    (registers[7], registers[8]) = (0x7ffc_0000_1000, code);
    let mut stack = vec![0; 56];
    stack[..8].copy_from_slice(&(code + 16 + 9).to_le_bytes());
    stack[32..40].copy_from_slice(&(code + 32 + 9).to_le_bytes());
    (registers, stack)
}

fn sample(recording: &mut Recording, pid: u32, time: u64, code: u64) {
    let (registers, stack) = in_inner(code);
    recording.sample(pid, time, code, &registers, &stack);
}

const STACK: &str = ";_start;outer;inner";

#[test]
fn a_child_has_its_parents_code_until_it_runs_a_program() {
    let (folder, offset) = x86("profile-fork");
    let page = offset & !0xfff;
    let mut recording = Recording::new(false);
    recording.map(5, 0, (LOAD + page, 0x1000, page), b"/a.so");
    recording.comm(5, 0, false, b"parent");
    recording.fork(5, 6, 10);
    sample(&mut recording, 6, 11, LOAD + offset);
    recording.comm(6, 12, true, b"child");
    sample(&mut recording, 6, 13, LOAD + offset);
    // The child maps the same file elsewhere, and the parent something else over it.
    recording.map(6, 14, (2 * LOAD + page, 0x1000, page), b"/a.so");
    sample(&mut recording, 6, 15, 2 * LOAD + offset);
    recording.map(5, 16, (LOAD, 0x10_0000, 0), b"//anon");
    sample(&mut recording, 5, 17, LOAD + offset);
    let ran = profile(&folder, &recording.file(X86, "x86_64"), &["--stops"]);
    let expected = [
        "child;[unknown] 1000",
        "child;_start;outer;inner 1000",
        "parent;[unknown] 1000",
        "parent;_start;outer;inner 1000",
    ];
    assert_eq!(ran.out.lines().collect::<Vec<_>>(), expected);
    assert!(
        ran.error.ends_with("stop complete: 2\nstop no table: 1\nstop return address isn't code: 1\n"),
        "{}",
        ran.error
    );
}

#[test]
fn code_that_was_made_at_run_time_is_passed_by_frame_pointers_and_named() {
    let (folder, offset) = x86("profile-jit");
    let (page, code, made, sp) = (offset & !0xfff, LOAD + offset, 0x7f55_0000_0000, 0x7ffc_0000_1000);
    std::fs::create_dir(folder.file("tmp")).unwrap();
    folder.write("tmp/perf-5.map", format!("{:x} 40 JS:*fib /a b.js:1\n", made + 0x10));
    let mut recording = Recording::new(false);
    recording.map(5, 0, (LOAD + page, 0x1000, page), b"/a.so");
    recording.map(5, 0, (made, 0x1000, 0), b"//anon");
    recording.comm(5, 0, false, b"jit");
    let mut registers = vec![0; X86.count_ones() as usize];
    // The frame pointer leads to the caller's frame pointer and to the return address in outer.
    (registers[6], registers[7], registers[8]) = (sp + 16, sp, made + 0x14);
    let mut stack = vec![0; 64];
    stack[24..32].copy_from_slice(&(code + 16 + 9).to_le_bytes());
    stack[56..64].copy_from_slice(&(code + 32 + 9).to_le_bytes());
    recording.sample(5, 10, made + 0x14, &registers, &stack);
    let ran = profile(&folder, &recording.file(X86, "x86_64"), &["--stops"]);
    assert_eq!(ran.out, "jit;_start;outer;JS:*fib /a b.js:1 1000\n");
    assert_eq!(ran.error, "samples 1 frames 3 truncated 0 by-frame-pointer 1\nstop complete: 1\n");
}

/// As perf shows it: a file in memory by its name and the offset in it, and code of no mapping as unknown.
#[test]
fn only_memory_without_a_name_is_said_to_be_in_a_list_of_the_process() {
    let folder = Folder::new("profile-memfd");
    let (made, sp) = (0x7f55_0000_0000, 0x7ffc_0000_1000);
    let mut recording = Recording::new(false);
    recording.map(5, 0, (made, 0x1000, 0x3000), b"/memfd:prog (deleted)");
    recording.map(5, 0, (made + 0x1000, 0x1000, 0), b"//anon");
    recording.comm(5, 1, false, b"x");
    let mut registers = vec![0; X86.count_ones() as usize];
    registers[7] = sp;
    for (time, address) in [(10, made + 0x144), (11, made + 0x1144), (12, made + 0x2144)] {
        registers[8] = address;
        recording.sample(5, time, address, &registers, &[0; 16]);
    }
    let file = recording.file(X86, "x86_64");
    let script = profile(&folder, &file, &["--format", "script"]).out;
    let frames: Vec<&str> = script.lines().filter(|line| line.starts_with('\t')).map(str::trim_start).collect();
    let expected = [
        "3144 [unknown] (/memfd:prog (deleted))",
        "7f5500001144 [unknown] (/tmp/perf-5.map)",
        "7f5500002144 [unknown] ([unknown])",
    ];
    assert_eq!(frames, expected);
    let folded = profile(&folder, &file, &[]).out;
    assert_eq!(folded, "x;[memfd:prog (deleted)] 1000\nx;[unknown] 2000\n");
    // A process may list code that it put into such a file.
    std::fs::create_dir(folder.file("tmp")).unwrap();
    folder.write("tmp/perf-5.map", format!("{:x} 40 JS:fib\n", made + 0x140));
    let folded = profile(&folder, &file, &[]).out;
    assert_eq!(folded, "x;JS:fib 1000\nx;[unknown] 2000\n");
}

/// `middle`, whose CFA is by rbp, calls `popping`, which pops rbp before it returns, and `leaf`, which saves rbp below
/// the stack pointer. As compilers write them, the last rows of both say that rbp is in its slot.
const POPPED_CODE: &str = "
function popping
push %rbp
.cfi_def_cfa_offset 16
.cfi_offset %rbp, -16
mov %rsp, %rbp
pop %rbp
.cfi_def_cfa_offset 8
ret
ends popping
function leaf
mov %rbp, -8(%rsp)
.cfi_offset %rbp, -16
mov %rdi, %rbp
ret
ends leaf
function middle
.cfi_def_cfa %rbp, 16
.cfi_offset %rbp, -16
call popping
call leaf
ends middle
function _start
.cfi_undefined rip
call middle
ends _start
";

/// The slot of a register that was popped is below the stack pointer, where perf copies nothing. Neither does it copy
/// what `leaf` saved, but there the register has another value.
#[test]
fn a_register_that_was_popped_has_its_value() {
    let folder = Folder::new("profile-popped");
    folder.assemble("gcc -Wl,--build-id=none", [X86_FUNCTIONS, POPPED_CODE].concat());
    let (_, offset, _) = text(&folder, "readelf");
    let (code, page, sp) = (LOAD + offset, offset & !0xfff, 0x7ffc_0000_1000);
    let (popping, leaf, middle, start) = (code, code + 16, code + 32, code + 48);
    let walked = |at: u64, return_address: u64| {
        let mut recording = Recording::new(false);
        recording.map(5, 0, (LOAD + page, 0x1000, page), b"/a.so");
        recording.comm(5, 0, false, b"x");
        let mut registers = vec![0; X86.count_ones() as usize];
        (registers[6], registers[7], registers[8]) = (sp + 16, sp, at);
        let stack = [return_address, 0, 0, start + 5, 0, 0].map(u64::to_le_bytes).concat();
        recording.sample(5, 10, at, &registers, &stack);
        let ran = profile(&folder, &recording.file(X86, "x86_64"), &["--stops"]);
        (ran.out, ran.error.lines().last().unwrap_or("").to_string())
    };
    let (after_pop, after_save) = (popping + 5, leaf + 8);
    let whole = ("x;_start;middle;popping 1000\n".to_string(), "stop complete: 1".to_string());
    assert_eq!(walked(after_pop, middle + 5), whole);
    let cut = ("x;middle;leaf 1000\n".to_string(), "stop unreadable: 1".to_string());
    assert_eq!(walked(after_save, middle + 10), cut);
}

/// The records are laid out as in Linux' tools/perf/Documentation/jitdump-specification.txt.
#[test]
fn code_is_named_by_the_dump_that_the_process_has_mapped() {
    let (folder, offset) = x86("profile-jitdump");
    let (page, made, sp) = (offset & !0xfff, 0x7f55_0000_0000, 0x7ffc_0000_1000);
    let words = |words: &[u64]| words.iter().flat_map(|word| word.to_le_bytes()).collect::<Vec<u8>>();
    let halves = |halves: &[u32]| halves.iter().flat_map(|half| half.to_le_bytes()).collect::<Vec<u8>>();
    let (name, code) = (b"JS:fib a.js:1\0", [0x90; 0x40]);
    let dump = [
        halves(&[0x4A69_5444, 1, 40, 62, 0, 5]),
        words(&[0, 0]),
        halves(&[0, 16 + 40 + (name.len() + code.len()) as u32]),
        words(&[9]),
        halves(&[5, 5]),
        words(&[made, made, code.len() as u64, 0]),
        name.to_vec(),
        code.to_vec(),
    ];
    std::fs::create_dir(folder.file("dumps")).unwrap();
    folder.write("dumps/jit-5.dump", dump.concat());
    let mut recording = Recording::new(false);
    recording.map(5, 0, (LOAD + page, 0x1000, page), b"/a.so");
    recording.map(5, 1, (LOAD * 2, 0x1000, 0), b"/dumps/jit-5.dump");
    recording.map(5, 2, (made, 0x1000, 0), b"//anon");
    recording.comm(5, 3, false, b"jit");
    let mut registers = vec![0; X86.count_ones() as usize];
    (registers[7], registers[8]) = (sp, made + 0x3f);
    recording.sample(5, 10, made + 0x3f, &registers, &[0; 16]);
    (registers[7], registers[8]) = (sp, made + 0x40);
    recording.sample(5, 11, made + 0x40, &registers, &[0; 16]);
    let ran = profile(&folder, &recording.file(X86, "x86_64"), &[]);
    assert_eq!(ran.out, "jit;JS:fib a.js:1 1000\njit;[unknown] 1000\n");
}

#[test]
fn records_are_taken_in_the_order_of_their_times() {
    let (folder, offset) = x86("profile-order");
    let page = offset & !0xfff;
    let mut recording = Recording::new(false);
    // Another processor's buffer was read first.
    sample(&mut recording, 5, 20, LOAD + offset);
    recording.map(5, 10, (LOAD + page, 0x1000, page), b"/a.so");
    recording.comm(5, 15, false, b"late");
    let ran = profile(&folder, &recording.file(X86, "x86_64"), &["--quiet"]);
    assert_eq!((ran.out, ran.error), (format!("late{} 1000\n", STACK), String::new()));
}

/// Enough samples that several processors walk them, of processes that map a file before some of them and after
/// others.
#[test]
fn a_profile_is_the_same_for_any_number_of_processors() {
    let (folder, offset) = x86("profile-jobs");
    let page = offset & !0xfff;
    let mut recording = Recording::new(false);
    for number in 0..3000 {
        let (pid, time) = (5 + number as u32 % 7, 10 * number);
        if number % 300 == 60 {
            recording.map(pid, time, (LOAD * u64::from(pid % 3 + 1) + page, 0x1000, page), b"/a.so");
        }
        sample(&mut recording, pid, time + 1, LOAD * (number % 3 + 1) + offset);
    }
    folder.write("jobs.perf", recording.file(X86, "x86_64"));
    for format in ["script", "html", "pprof"] {
        let of = |jobs: &str| {
            let words = ["profile", "--root", ".", "--format", format, "-o", "out", "--jobs", jobs, "jobs.perf"];
            let ran = dwcheck_elf_words(&folder, &words);
            (folder.bytes("out"), ran.error)
        };
        let one = of("1");
        assert!(one.1.starts_with("samples 3000 frames "), "{}", one.1);
        assert!(["2", "3", "8"].into_iter().all(|jobs| of(jobs) == one), "{}", format);
    }
}

#[test]
fn names_cannot_change_a_terminal_a_line_or_a_page() {
    let (folder, offset) = x86("profile-names");
    let page = offset & !0xfff;
    let mut recording = Recording::new(false);
    recording.map(5, 0, (LOAD + page, 0x1000, page), b"/a.so");
    recording.map(5, 0, (LOAD * 2, 0x1000, 0), b"/x\x1b[31m</script><b>\n;y");
    recording.comm(5, 1, false, b"a;\x1b[1m\n</script>");
    sample(&mut recording, 5, 20, LOAD + offset);
    sample(&mut recording, 5, 21, LOAD * 2);
    let file = recording.file(X86, "x86_64");
    for format in ["folded", "script", "top", "html", "speedscope", "firefox"] {
        let ran = profile(&folder, &file, &["--format", format]);
        assert_eq!(ran.status, 0);
        assert!(!ran.out.contains('\x1b') && !ran.error.contains('\x1b'), "{}", format);
        assert!(format != "html" || ran.out.matches("</script>").count() == 2, "{}", ran.out);
        assert!(format != "folded" || ran.out.contains("a:[1m</script>;_start;outer;inner 1000\n"), "{}", ran.out);
        assert!(ran.out.contains("inner"), "{}", format);
    }
}

#[test]
fn what_is_whole_of_a_damaged_recording_is_used() {
    let (folder, offset) = x86("profile-damage");
    let page = offset & !0xfff;
    let mut recording = Recording::new(false);
    recording.map(5, 0, (LOAD + page, 0x1000, page), b"/a.so");
    recording.comm(5, 1, false, b"x");
    sample(&mut recording, 5, 20, LOAD + offset);
    let whole = recording.file(X86, "x86_64");
    let line = format!("x{} 1000\n", STACK);
    let check = |file: &[u8], why: &str, out: &str| {
        let ran = profile(&folder, file, &["--quiet"]);
        assert_eq!((ran.status, ran.out.as_str()), (3, out), "{}", ran.error);
        assert!(ran.error.contains(why), "{}\n{}", ran.error, why);
    };
    // The header's data size: 0, as perf leaves it if it is killed, and 2^63.
    for size in [0, 1 << 63] {
        let file = recording.file_of_size(X86, "x86_64", size);
        check(&file, "made.perf: ", &line);
    }
    let mut long = Recording::new(false);
    long.map(5, 0, (LOAD + page, 0x1000, page), b"/a.so");
    long.comm(5, 1, false, b"x");
    sample(&mut long, 5, 20, LOAD + offset);
    long.sized(9, 2, 4000, &[0; 8]);
    check(&long.file(X86, "x86_64"), "made.perf: ends inside of the record at ", &line);
    let mut short = Recording::new(false);
    short.map(5, 0, (LOAD + page, 0x1000, page), b"/a.so");
    short.comm(5, 1, false, b"x");
    sample(&mut short, 5, 20, LOAD + offset);
    short.sized(9, 2, 7, &[0; 64]);
    check(&short.file(X86, "x86_64"), " can't have 7 bytes", &line);
    check(b"PERFILE2", "its header is cut off or wrong", "");
    check(b"\x7fELF", "isn't a recording of perf", "");
    check(b"PERFFILE\0\0\0\0\0\0\0\0", "in another format", "");
    let mut no_event = whole;
    no_event[32..40].fill(0);
    check(&no_event, "describes no event", "");
}

#[test]
fn names_in_a_part_that_rarely_runs_are_those_that_lines_have() {
    let folder = Folder::new("profile-cold");
    folder.write("a.c", COLD_CODE);
    folder.run("gcc -O2 -g -shared -fPIC -Wl,--build-id=none a.c -o a.so");
    let (_, offset, size) = text(&folder, "readelf");
    let page = offset & !0xfff;
    let mut recording = Recording::new(false);
    recording.map(5, 0, (LOAD + page, 0x1000, page), b"/a.so");
    recording.comm(5, 0, false, b"cold");
    let mut registers = vec![0; X86.count_ones() as usize];
    for code in LOAD + offset..LOAD + offset + size {
        registers[8] = code;
        recording.sample(5, code, code, &registers, &[]);
    }
    let functions = |words: &[&str]| {
        let words = [&["--format", "script"], words].concat();
        let script = profile(&folder, &recording.file(X86, "x86_64"), &words).out;
        script.lines().filter(|line| line.starts_with('\t')).map(str::to_string).collect::<Vec<_>>()
    };
    let plain = functions(&[]);
    assert_eq!(plain, functions(&["--lines"]));
    for name in ["fails", "warm"] {
        assert!(plain.iter().any(|line| line.contains(name)), "{}", plain.join("\n"));
    }
}
