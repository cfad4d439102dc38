//! Compares the frames of a core file's threads with those that gdb finds. This library reads the
//! modules, registers and memory. From these, the command `backtrace` finds the frames.

use crate::common::run::dwcheck_elf;
use crate::common::{has, hex, skipped, Folder};
use dwcheck_elf::core_file::{CoreFile, Files, Memory, Module, Thread};
use dwcheck_elf::program::Program;
use std::collections::HashMap;
use std::fmt::Write;
use std::path::Path;

/// A program with two threads. In one, the C library has called back a function of the program. In
/// the other, a signal handler is between the frames.
const CRASH: &str = "
#include <pthread.h>
#include <signal.h>
#include <stdlib.h>
#include <unistd.h>
static volatile int waits;
static int order(const void *x, const void *y) { waits = 1; for (;;) pause(); return x < y; }
static void *sorts(void *x) { int v[] = {3, 1, 2}; qsort(v, 3, sizeof *v, order); return x; }
static void handler(int n) { while (!waits) usleep(1000); abort(); }
__attribute__((noinline)) int deep(int n) {
    volatile int k = n;
    if (n == 0) return *(volatile int *)0;
    return deep(n - 1) + k;
}
int main(void) {
    pthread_t t;
    pthread_create(&t, 0, sorts, 0);
    signal(SIGSEGV, handler);
    return deep(5);
}
";

const FRAMES: &str = "
set backtrace past-main on
python
for thread in gdb.selected_inferior().threads():
    thread.switch()
    frame, found = gdb.newest_frame(), []
    while frame is not None:
        if frame.type() not in (gdb.INLINE_FRAME, gdb.TAILCALL_FRAME):
            found.append(hex(frame.pc()))
        frame = frame.older()
    print('walk', thread.ptid[1], *found)
end
";

/// Writes the file of a module to the folder. Returns the module as `LOAD=FILE`. `None` if it has no `.eh_frame`.
fn module_word(folder: &Folder, number: usize, module: &Module<'_>) -> Option<String> {
    let program = Program::read(module.image.bytes()).ok()?;
    program.eh_frame().unwrap()?;
    let name = format!("{}.module", number);
    folder.write(&name, module.image.bytes());
    Some(format!("{:#x}={}", module.bias, name))
}

/// The state file of a thread: which registers are callee-saved, the values of the registers, and
/// at most 65,536 bytes of the stack, from 128 bytes below the stack pointer on.
fn state(core: &CoreFile<'_>, memory: &Memory<'_>, thread: &Thread) -> String {
    let abi = core.abi();
    let mut state = String::new();
    for number in abi.callee_saved {
        writeln!(state, "keep {}", number).unwrap();
    }
    writeln!(state, "sp {}", abi.stack_pointer).unwrap();
    for (number, value) in &thread.registers {
        writeln!(state, "reg {} {:#x}", number, value).unwrap();
    }
    let begin = thread.register(abi.stack_pointer).unwrap() - 128;
    let stack = memory.from(begin).unwrap();
    let stack = stack.get(..65536).unwrap_or(stack);
    let bytes: String = stack.iter().map(|byte| format!("{:02x}", byte)).collect();
    writeln!(state, "mem {:#x} {}", begin, bytes).unwrap();
    state
}

/// The addresses of gdb's frames for each thread, by the thread's id. Frames that only debug
/// information shows aren't included: inlined functions and tail calls.
fn frames_by_gdb(folder: &Folder, program: &str) -> HashMap<u32, Vec<u64>> {
    folder.write("frames.gdb", FRAMES);
    let shown = folder.run(&format!("gdb --batch -x frames.gdb {} core | grep ^walk", program));
    let threads = shown.lines().map(|line| {
        let words: Vec<_> = line.split(' ').collect();
        (words[1].parse().unwrap(), words[2..].iter().map(|word| hex(word)).collect())
    });
    threads.collect()
}

/// Compares the frames of all threads in the file `core`, which is a core file of `program`, with
/// gdb's. Returns the number of modules with an `.eh_frame`.
fn compare_walks(folder: &Folder, program: &str) -> usize {
    let bytes = folder.bytes("core");
    let core = CoreFile::read(&bytes).unwrap();
    let files = Files::read(&core, Path::new("/"));
    let memory = core.memory(&files);
    let modules: Vec<_> = core.modules(&files);
    let words: Vec<_> = modules.iter().enumerate().filter_map(|(at, module)| module_word(folder, at, module)).collect();
    let expected = frames_by_gdb(folder, program);
    for thread in core.threads() {
        folder.write("state", state(&core, &memory, thread));
        let (load, first) = words[0].split_once('=').unwrap();
        let others: String = words[1..].iter().map(|word| format!(" --module {}", word)).collect();
        let start = thread.register(core.abi().program_counter).unwrap();
        let line = format!("backtrace --load {}{} {} {:#x} state 1000", load, others, first, start);
        let walk = dwcheck_elf(folder, &line).out;
        let frames = walk.lines().filter(|line| line.starts_with("frame ") && line.contains(" cfa "));
        let frames: Vec<_> = frames.map(|line| hex(line.split(' ').nth(2).unwrap())).collect();
        assert_eq!(frames, expected[&thread.id], "{}", walk);
        eprintln!("thread {}: {} frames", thread.id, frames.len());
        assert!(frames.len() > 5);
    }
    words.len()
}

#[test]
fn frames_of_a_c_program() {
    let folder = Folder::new("walk-c");
    if !has("gdb") {
        return;
    }
    folder.write("crash.c", CRASH);
    folder.run("gcc -O1 -g crash.c -o crash -lpthread");
    folder.make_core("./crash");
    let modules = compare_walks(&folder, "crash");
    assert_eq!(modules, 4, "the program, the C library, the loader, the vDSO");
}

/// A larger program: the system's Python, with one thread that waits deep in calls, and one that
/// aborts.
const PYTHON: &str = "
import ctypes, os, re, ssl, threading, time
def deep(n, last):
    return last() if n == 0 else max([n], key=lambda _: deep(n - 1, last))
thread = threading.Thread(target=deep, args=(30, lambda: time.sleep(100)))
thread.start()
time.sleep(0.2)
compare = ctypes.CFUNCTYPE(ctypes.c_int, ctypes.c_void_p, ctypes.c_void_p)(lambda x, y: deep(20, os.abort))
ctypes.CDLL(None).qsort((ctypes.c_int * 4)(3, 1, 4, 2), 4, 4, compare)
";

#[test]
fn frames_of_python() {
    let python = Path::new("/usr/bin/python3");
    if !python.is_file() {
        return skipped("/usr/bin/python3 isn't installed");
    }
    let folder = Folder::new("walk-python");
    if !has("gdb") {
        return;
    }
    folder.write("crash.py", PYTHON);
    folder.make_core("/usr/bin/python3 crash.py");
    assert!(compare_walks(&folder, "/usr/bin/python3") > 10);
}
