//! The same stop of the same program has the same frames in `stack --pid`, in `stack` of a core file, and in `profile`.

use crate::common::recordings::{Recording, X86};
use crate::common::run::{dwcheck_elf, dwcheck_elf_words, Ran};
use crate::common::waiting::Waiting;
use crate::common::{may_trace, Folder};
use dwcheck_elf::core_file::{CoreFile, Files};
use std::path::Path;

/// Each rule by which a frame is found: `bare` and `framed` have no rows, and only `framed` has a frame pointer. The handler
/// returns to `returns`, which has no rows either. `bare` itself says that it is ready, so that it is where the process is.
const PROGRAM: &str = r#"
#include <signal.h>
#include <stdio.h>
#include <sys/syscall.h>
#include <unistd.h>
struct action { void (*handler)(int); unsigned long flags; void (*restorer)(void); unsigned long long mask; };
void framed(void);
void returns(void);
const char ready[] = "ready\n";
asm(".text\n.balign 16\n.type bare, @function\n"
    "bare: mov $1, %eax\n mov $1, %edi\n lea ready(%rip), %rsi\n mov $6, %edx\n syscall\n"
    "0: pause\n jmp 0b\n.size bare, . - bare\n"
    ".balign 16\n.globl framed\n.type framed, @function\n"
    "framed: push %rbp\n mov %rsp, %rbp\n sub $32, %rsp\n call bare\n leave\n ret\n.size framed, . - framed\n"
    ".balign 16\n.globl returns\n.type returns, @function\n"
    " nop\nreturns: mov $15, %eax\n syscall\n.size returns, . - returns\n");
__attribute__((noinline)) static void handler(int n) { if (n) framed(); puts("never"); }
__attribute__((noinline)) static int interrupted(int signal) { return syscall(SYS_tgkill, getpid(), getpid(), signal) + 1; }
int main(void) {
    struct action action = { handler, 0x04000000 /* SA_RESTORER */, returns, 0 };
    syscall(SYS_rt_sigaction, SIGUSR1, &action, 0, 8L);
    return interrupted(SIGUSR1) + 1;
}
"#;

/// The functions of frames, the innermost first, up to `main`.
const FUNCTIONS: [&str; 7] = ["bare", "framed", "handler", "returns", "syscall", "interrupted", "main"];

/// The functions in lines of frames, each of which has an address before its function, up to `main`.
fn functions<'l>(lines: impl Iterator<Item = &'l str>) -> Vec<&'l str> {
    let function = |line: &'l str| line.split_whitespace().nth(1).unwrap().split('+').next().unwrap();
    let mut functions: Vec<_> = lines.map(function).collect();
    let main = functions.iter().position(|function| *function == "main");
    functions.truncate(main.map_or(functions.len(), |main| main + 1));
    functions
}

/// The functions and the guesses that `stack` shows.
fn of_stack(ran: &Ran) -> (Vec<&str>, Vec<&str>) {
    let frames = ran.out.lines().filter_map(|line| line.strip_prefix('#')?.split_once(' ')).map(|(_, frame)| frame);
    let guesses = ran.out.lines().filter_map(|line| line.split_once(" guess: ")).map(|(_, rule)| rule);
    (functions(frames), guesses.collect())
}

/// The functions that `profile` shows for the first sample of a recording.
fn of_profile(folder: &Folder, recording: &str) -> Vec<String> {
    let ran = dwcheck_elf_words(folder, &["profile", "--root", "/", "--format", "script", "--no-inline", recording]);
    let lines = ran.out.lines().skip_while(|line| !line.starts_with('\t')).take_while(|line| line.starts_with('\t'));
    functions(lines).into_iter().map(str::to_string).collect()
}

/// The functions of the first sample that perf takes of a process. `None` if the machine forbids perf.
fn of_perf(folder: &Folder, id: u32) -> Option<Vec<String>> {
    // The longest time would fill the disk at perf's own rate of samples.
    let words = "perf record -F 100 -e cpu-clock:u --call-graph dwarf,16384 -o own.perf";
    // While others run, the process may get no time, and has no sample then.
    for seconds in ["0.3", "3", "30"] {
        let line = format!("{} -p {} -- sleep {} > perf.log 2>&1 && echo recorded || true", words, id, seconds);
        if folder.run(&line) != "recorded\n" {
            return None;
        }
        let functions = of_profile(folder, "own.perf");
        if !functions.is_empty() {
            return Some(functions);
        }
    }
    Some(Vec::new())
}

/// What perf would have recorded where the core file `core` has the first thread: its registers, its stack and the mapped
/// files.
fn sampled(folder: &Folder) -> Vec<u8> {
    /// The DWARF numbers of perf's registers.
    const NUMBERS: [u16; 17] = [0, 3, 2, 1, 4, 5, 6, 7, 16, 8, 9, 10, 11, 12, 13, 14, 15];
    const MOST_STACK: usize = 60_000;
    let bytes = folder.bytes("core");
    let core = CoreFile::read(&bytes).unwrap();
    let files = Files::read(&core, Path::new("/"));
    let memory = core.memory(&files);
    let thread = &core.threads()[0];
    let registers = NUMBERS.map(|number| thread.register(number).unwrap());
    let stack = memory.from(registers[7]).unwrap();
    let mut recording = Recording::new(false);
    for mapping in core.mappings().iter().filter(|mapping| core.is_executable(mapping.begin)) {
        recording.map(5, 0, (mapping.begin, mapping.end - mapping.begin, mapping.offset), mapping.path);
    }
    recording.comm(5, 1, false, b"waits");
    recording.sample(5, 2, registers[8], &registers, &stack[..stack.len().min(MOST_STACK)]);
    recording.file(X86, "x86_64")
}

#[test]
fn the_same_stop_has_the_same_frames_in_a_process_a_core_file_and_a_profile() {
    let folder = Folder::new("same-frames");
    if !may_trace() {
        return;
    }
    folder.write("waits.c", PROGRAM);
    folder.run("gcc -O1 waits.c -o waits");
    let process = Waiting::start(&folder);
    let of_process = dwcheck_elf(&folder, &format!("stack --no-inline --no-source --pid {}", process.id()));
    let guesses = vec!["call", "frame pointer", "signal return"];
    assert_eq!(of_stack(&of_process), (FUNCTIONS.to_vec(), guesses.clone()), "{}", of_process.out);

    folder.run(&format!("gdb --batch -p {} -ex 'gcore core' > gdb.log 2>&1", process.id()));
    let of_core = dwcheck_elf(&folder, "stack --no-inline --no-source core");
    assert_eq!(of_stack(&of_core), (FUNCTIONS.to_vec(), guesses), "{}", of_core.out);

    folder.write("made.perf", sampled(&folder));
    assert_eq!(of_profile(&folder, "made.perf"), FUNCTIONS);

    match of_perf(&folder, process.id()) {
        Some(functions) => assert_eq!(functions, FUNCTIONS),
        None => {
            eprintln!("note: the machine forbids perf, so only a recording that was made of the core file was read")
        }
    }
}
