//! Code that compilers made at run time, of which the file `jit-PID.dump` has unwind tables.

use crate::common::recordings::{Recording, X86};
use crate::common::run::dwcheck_elf_words;
use crate::common::{has, Folder};
use std::process::Command;

/// A function that uses rbp as a number, and lists itself.
const JIT: &str = include_str!("jit.c");

/// `_start` calls `outer`, which calls code that was made at run time. Both calls come after 4 bytes.
const CALLERS: &str = "
.text
.globl outer
.type outer, @function
outer: .cfi_startproc
sub $24, %rsp
.cfi_def_cfa_offset 32
call *%rax
add $24, %rsp
.cfi_def_cfa_offset 8
ret
.cfi_endproc
.size outer, .-outer
.globl _start
.type _start, @function
_start: .cfi_startproc
.cfi_undefined rip
xor %ebp, %ebp
xor %ecx, %ecx
call outer
.cfi_endproc
.size _start, .-_start
";

/// What V8 of node 20 wrote for a function of 784 bytes: an `.eh_frame` section and a search table of 20 bytes.
const OF_V8: &str = "1800000000000000037a4c520001781002ff1b0c07089001000000002000000020000000ccfcffff0d030000004f0e10\
                     8602430d0602560d07410e08520c061000000000011b033bb8ffffff01000000acfcffffd8ffffff";
const SIZE: u64 = 784;
const HEADER: u64 = 20;

/// Where the tests map the library, the code that was made, and its stack.
const LOAD: u64 = 0x7f12_3400_0000;
const MADE: u64 = 0x7f55_0000_0000;
const STACK: u64 = 0x7ffc_0000_1000;

fn of_v8() -> Vec<u8> {
    let digits: Vec<char> = OF_V8.chars().filter(|digit| digit.is_ascii_hexdigit()).collect();
    let byte = |pair: &[char]| u8::from_str_radix(&pair.iter().collect::<String>(), 16).unwrap();
    digits.chunks(2).map(byte).collect()
}

fn words(words: &[u64]) -> Vec<u8> {
    words.iter().flat_map(|word| word.to_le_bytes()).collect()
}

fn halves(halves: &[u32]) -> Vec<u8> {
    halves.iter().flat_map(|half| half.to_le_bytes()).collect()
}

fn record(kind: u32, body: Vec<u8>) -> Vec<u8> {
    [halves(&[kind, 16 + body.len() as u32]), words(&[9]), body].concat()
}

fn table(data: &[u8], header: u64) -> Vec<u8> {
    record(4, [words(&[data.len() as u64, header, 0]), data.to_vec()].concat())
}

fn function(name: &str, begin: u64, size: u64, index: u64) -> Vec<u8> {
    let body =
        [halves(&[5, 5]), words(&[begin, begin, size, index]), name.as_bytes().to_vec(), vec![0; 1 + size as usize]];
    record(0, body.concat())
}

/// The stack of a sample at an offset of the code that was made, which has pushed rbp if the offset is that of V8's row
/// for it. The frame pointer leads nowhere.
fn walked(dump: &[Vec<u8>], offset: u64, words_before: usize) -> String {
    let folder = Folder::new("profile-jit-tables");
    folder.assemble("gcc -Wl,--build-id=none", CALLERS);
    let symbols = folder.run("readelf -sW a.so");
    let address = |name: &str| {
        let line = symbols.lines().find(|line| line.ends_with(&format!(" {}", name))).unwrap();
        u64::from_str_radix(line.split_whitespace().nth(1).unwrap(), 16).unwrap()
    };
    folder.write("jit-5.dump", [&[halves(&[0x4A69_5444, 1, 40, 62, 0, 5]), words(&[0, 0])], dump].concat().concat());
    let mut recording = Recording::new(false);
    recording.map(5, 0, (LOAD, 0x1000, 0), b"/a.so");
    recording.map(5, 0, (LOAD + 0x1000, 0x1000, 0x1000), b"/a.so");
    recording.map(5, 1, (LOAD * 2, 0x1000, 0), b"/jit-5.dump");
    recording.map(5, 2, (MADE, 0x1000, 0), b"//anon");
    recording.comm(5, 3, false, b"jit");
    let mut registers = vec![0; X86.count_ones() as usize];
    (registers[6], registers[7], registers[8]) = (77, STACK, MADE + offset);
    let (after_call, after_outer) = (address("outer") + 6, address("_start") + 9);
    let mut stack = vec![77; words_before];
    stack.extend([LOAD + after_call, 0, 0, 0, LOAD + after_outer, 0]);
    recording.sample(5, 10, MADE + offset, &registers, &words(&stack));
    folder.write("made.perf", recording.file(X86, "x86_64"));
    let root = folder.path().to_str().unwrap().to_string();
    let ran = dwcheck_elf_words(&folder, &["profile", "--root", &root, "made.perf"]);
    assert_eq!(ran.status, 0, "{}", ran.error);
    ran.out
}

const WHOLE: &str = "jit;_start;outer;JS:*inner 1000\n";
const CUT: &str = "jit;JS:*inner 1000\n";

/// By V8's rows, the return address is at the stack pointer up to byte 14, and above the pushed rbp from byte 15 on.
#[test]
fn rows_that_v8_writes_are_used() {
    let inner = function("JS:*inner", MADE, SIZE, 0);
    let dump = [table(&of_v8(), HEADER), inner.clone()];
    assert_eq!(walked(&dump, 14, 0), WHOLE);
    assert_eq!(walked(&dump, 15, 1), WHOLE);
    assert_eq!(walked(&[inner], 15, 1), CUT);
}

/// The search table comes first, as the specification has it, and says where the section is: 8 bytes after the code's
/// end that V8's section would have. It is about both functions.
#[test]
fn rows_of_a_section_with_an_address_are_used_for_all_functions_that_follow() {
    let mut section = of_v8();
    section.truncate(section.len() - HEADER as usize);
    let header = [vec![1, 0x0c, 0xff, 0xff], words(&[MADE + 0x100 + SIZE])].concat();
    let dump = [
        table(&[header.clone(), section].concat(), header.len() as u64),
        function("JS:other", MADE, 0x100, 0),
        function("JS:*inner", MADE + 0x100, SIZE, 1),
    ];
    assert_eq!(walked(&dump, 0x100 + 15, 1), WHOLE);
}

/// The rows are those of another place, of another function, or of code that was replaced.
#[test]
fn rows_that_may_be_of_other_code_are_not_used() {
    let inner = function("JS:*inner", MADE, SIZE, 0);
    let longer = function("JS:*inner", MADE, SIZE + 8, 0);
    assert_eq!(walked(&[table(&of_v8(), HEADER), longer], 15, 1), CUT);
    assert_eq!(walked(&[table(&of_v8(), HEADER), function("JS:a", MADE + 0x800, 8, 1), inner.clone()], 15, 1), CUT);
    let replaced = [table(&of_v8(), HEADER), function("JS:old", MADE, SIZE, 1), inner];
    assert_eq!(walked(&replaced, 15, 1), CUT);
}

#[test]
fn a_damaged_table_loses_no_sample() {
    let whole = of_v8();
    for place in (0..whole.len()).step_by(3) {
        let mut bytes = whole.clone();
        bytes[place] ^= 0xff;
        let shown = walked(&[table(&bytes, HEADER), function("JS:*inner", MADE, SIZE, 0)], 15, 1);
        assert!(shown.starts_with("jit;") && shown.ends_with("JS:*inner 1000\n"), "{}: {}", place, shown);
    }
    for header in [0, 1, whole.len() as u64, u64::MAX] {
        let shown = walked(&[table(&whole, header), function("JS:*inner", MADE, SIZE, 0)], 15, 1);
        assert!(shown.ends_with("JS:*inner 1000\n"), "{}: {}", header, shown);
    }
}

/// Who calls the function is known from its source. Without rows, its frame pointer leads nowhere.
#[test]
fn a_function_that_lists_itself_is_recorded_with_its_callers() {
    let folder = Folder::new("profile-jit-live");
    if !has("perf") {
        return;
    }
    folder.write("jit.c", JIT);
    folder.run("gcc -O1 -fomit-frame-pointer jit.c -o jit");
    let record = |words: &str| {
        let line = format!("perf record -q -o data -k 1 -e cpu-clock:u -F 499 --call-graph dwarf,8192 ./jit{}", words);
        let ran = Command::new("bash").args(["-c", &line]).current_dir(folder.path()).output().unwrap();
        // In some sandboxes, nothing can be recorded.
        ran.status.success().then(|| dwcheck_elf_words(&folder, &["profile", "data", "--quiet"]).out)
    };
    let in_made = |out: String| -> Vec<String> {
        let stacks = out.lines().filter_map(|line| Some(line.rsplit_once(' ')?.0.to_string()));
        stacks.filter(|stack| stack.ends_with(";made")).collect()
    };
    if let Some((with_rows, without)) = record("").zip(record(" plain")) {
        let (with_rows, without) = (in_made(with_rows), in_made(without));
        assert!(!with_rows.is_empty() && !without.is_empty());
        assert!(with_rows.iter().all(|stack| stack.ends_with(";main;spin;made")), "{:?}", with_rows);
        assert!(without.iter().any(|stack| stack == "jit;made"), "{:?}", without);
    }
}
