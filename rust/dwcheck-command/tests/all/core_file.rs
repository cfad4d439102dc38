//! Reads core files, and compares what is read with what gdb and elfutils show.

use crate::common::{has, hex, may_trace, Folder};
use dwcheck_elf::core_file::{CoreError, CoreFile, FileError, Files, Image, Memory, Origin};
use dwcheck_elf::program::Program;
use std::path::Path;

/// A program with two threads, one of which aborts a few frames deep. The program also reads its
/// own file.
const CRASH: &str = "
#include <fcntl.h>
#include <pthread.h>
#include <stdlib.h>
#include <sys/mman.h>
#include <unistd.h>
static volatile int waits;
static void *idle(void *x) {
    int file = open(\"/proc/self/exe\", O_RDONLY);
    mmap(0, 4096 * 8, PROT_READ, MAP_PRIVATE, file, 0);
    waits = 1;
    for (;;) pause();
    return x;
}
__attribute__((noinline)) int deep(int n) {
    volatile int k = n;
    if (n == 0) { while (!waits) usleep(1000); abort(); }
    return deep(n - 1) + k;
}
int main(void) { pthread_t t; pthread_create(&t, 0, idle, 0); return deep(5); }
";

/// Makes the program `crash` and up to two core files of it: one by the kernel, if the kernel
/// writes core files here, and one by gdb, if gdb can run programs here. Returns the names of the core
/// files.
fn cores(folder: &Folder) -> Vec<&'static str> {
    folder.write("crash.c", CRASH);
    folder.run("gcc -O1 -g crash.c -o crash -lpthread");
    let mut cores = Vec::new();
    if kernel_core(folder, "./crash", "kernel.core") {
        cores.push("kernel.core");
    }
    if may_trace() {
        folder.run("gdb --batch -ex 'set startup-with-shell off' -ex run -ex 'gcore gdb.core' ./crash </dev/null >&2");
        cores.push("gdb.core");
    }
    cores
}

/// Runs a program that dies, and moves the core file that the kernel writes into the folder.
/// Returns false if the kernel writes no core file.
fn kernel_core(folder: &Folder, program: &str, name: &str) -> bool {
    folder.run(&format!("(ulimit -c unlimited; {} >/dev/null 2>&1) || true", program));
    let found = folder.run("ls -d core core.* 2>/dev/null || true");
    match found.lines().next() {
        Some(core) => {
            std::fs::rename(folder.file(core), folder.file(name)).unwrap();
            true
        }
        None => {
            eprintln!("the kernel writes no core file here, so gdb's core file stands in");
            false
        }
    }
}

fn gdb(folder: &Folder, program: &str, core: &str, commands: &[&str]) -> String {
    let commands: Vec<_> = commands.iter().map(|command| format!("-ex '{}'", command)).collect();
    folder.run(&format!("gdb --batch -ex 'set pagination off' {} {} {}", commands.join(" "), program, core))
}

/// The id of each thread that gdb shows, with the words of the lines that follow it.
fn by_thread(shown: &str) -> Vec<(u32, Vec<Vec<&str>>)> {
    let mut threads: Vec<(u32, Vec<Vec<&str>>)> = Vec::new();
    for line in shown.lines() {
        if line.starts_with("Thread ") && line.ends_with("):") {
            let words = line.split_once("LWP ").or_else(|| line.split_once("process ")).unwrap();
            let id = words.1.chars().take_while(char::is_ascii_digit).collect::<String>();
            threads.push((id.parse().unwrap(), Vec::new()));
        } else if let Some(thread) = threads.last_mut() {
            thread.1.push(line.split_whitespace().collect());
        }
    }
    threads
}

/// gdb's names of registers, in the order of their DWARF numbers.
const X86_64: &str = "rax rdx rcx rbx rsi rdi rbp rsp r8 r9 r10 r11 r12 r13 r14 r15 rip";
const I386: &str = "eax ecx edx ebx esp ebp esi edi eip";

fn compare_registers(folder: &Folder, program: &str, core: &str, names: &str) {
    let bytes = folder.bytes(core);
    let read = CoreFile::read(&bytes).unwrap();
    let shown = gdb(folder, program, core, &["thread apply all info registers"]);
    let mut threads = by_thread(&shown);
    if threads.is_empty() {
        // gdb writes no line `Thread` if there is only one thread.
        let lines = shown.lines().map(|line| line.split_whitespace().collect()).collect();
        threads.push((read.threads()[0].id, lines));
    }
    assert_eq!(threads.len(), read.threads().len());
    for (id, lines) in threads {
        let thread = read.threads().iter().find(|thread| thread.id == id).expect("the thread is there");
        for (number, name) in names.split(' ').enumerate() {
            let line = lines.iter().find(|line| line.first() == Some(&name)).unwrap();
            assert_eq!(thread.register(number as u16), Some(hex(line[1])), "{} of {}", name, id);
        }
    }
}

/// The bytes that gdb shows with the command `x`: for each line, the address and the bytes.
fn shown_bytes(shown: &str) -> Vec<(u64, Vec<u8>)> {
    let lines = shown.lines().filter(|line| line.starts_with("0x") && line.contains(":\t"));
    let read = lines.map(|line| {
        let (address, bytes) = line.split_once(":\t").unwrap();
        let address = hex(address.split(' ').next().unwrap());
        (address, bytes.split('\t').map(|byte| hex(byte) as u8).collect())
    });
    read.collect()
}

/// Compares memory with the bytes that gdb shows. Returns where the bytes of each line come from.
fn compare_memory(memory: &Memory<'_>, shown: &str) -> Vec<Origin> {
    let lines = shown_bytes(shown);
    assert!(!lines.is_empty(), "{}", shown);
    let compared = lines.into_iter().map(|(address, expected)| {
        let mut bytes = vec![0; expected.len()];
        assert!(memory.read(address, &mut bytes), "{:#x}", address);
        assert_eq!(bytes, expected, "{:#x}", address);
        memory.blocks().find(|block| block.address <= address && address < block.end()).unwrap().origin
    });
    compared.collect()
}

#[test]
fn threads_and_registers() {
    let folder = Folder::new("core-threads");
    for core in cores(&folder) {
        if has("gdb") {
            compare_registers(&folder, "crash", core, X86_64);
        }
        let bytes = folder.bytes(core);
        let read = CoreFile::read(&bytes).unwrap();
        assert_eq!((read.threads().len(), read.abi().name, read.is_cut()), (2, "x86-64", false));
        assert_eq!(read.threads()[0].signal, 6);
        assert_eq!(read.signal().map(|signal| signal.number), Some(6));
        assert!(read.threads().iter().all(|thread| thread.register(read.abi().stack_pointer).is_some()));
    }
}

#[test]
fn memory() {
    let folder = Folder::new("core-memory");
    for core in cores(&folder) {
        if !has("gdb") {
            return;
        }
        let bytes = folder.bytes(core);
        let read = CoreFile::read(&bytes).unwrap();
        let files = Files::read(&read, Path::new("/"));
        let memory = read.memory(&files);
        let stacks = gdb(&folder, "crash", core, &["thread apply all x/256xb $sp"]);
        assert!(compare_memory(&memory, &stacks).iter().all(|origin| *origin == Origin::Core));
        let code = gdb(&folder, "crash", core, &["x/64xb main", "x/64xb write", "x/64xb qsort"]);
        let origins = compare_memory(&memory, &code);
        if core == "kernel.core" {
            assert!(origins.iter().all(|origin| matches!(origin, Origin::File(_))), "the core leaves code out");
        }
        compare_memory(&memory, &gdb(&folder, "crash", core, &["x/4xb &waits", "x/64xb &environ"]));
        let mut blocks: Vec<_> = memory.blocks().map(|block| (block.address, block.end())).collect();
        blocks.sort_unstable();
        assert!(blocks.windows(2).all(|pair| pair[0].1 <= pair[1].0));
        assert!(!memory.read(0, &mut [0]) && !memory.read(u64::MAX, &mut [0, 0]));
    }
}

/// Compares the modules with those that eu-unstrip lists, and the addresses of functions with
/// gdb's.
#[test]
fn modules() {
    let folder = Folder::new("core-modules");
    for core in cores(&folder) {
        if !has("gdb") || !has("eu-unstrip") {
            return;
        }
        let bytes = folder.bytes(core);
        let read = CoreFile::read(&bytes).unwrap();
        let files = Files::read(&read, Path::new("/"));
        let modules = read.modules(&files);
        let mut begins: Vec<_> = modules.iter().map(|module| module.begin).collect();
        begins.sort_unstable();
        let shown = folder.run(&format!("eu-unstrip -n --core {}", core));
        // elfutils lists the program's file a second time, where the program has mapped it only to
        // read it.
        let main = address_by_gdb(&folder, core, "main");
        let mut expected = Vec::new();
        for line in shown.lines() {
            let (begin, size) = line.split(' ').next().unwrap().split_once('+').unwrap();
            let range = hex(begin)..hex(begin) + hex(size);
            if !line.ends_with("/crash") || range.contains(&main) {
                expected.push(range.start);
            }
        }
        expected.sort_unstable();
        assert_eq!(begins, expected);
        let vdso = modules.last().unwrap();
        assert!(matches!(vdso.image, Image::Vdso(_)));
        assert!(Program::read(vdso.image.bytes()).unwrap().eh_frame().unwrap().is_some());
        for (name, path) in [("main", "crash"), ("deep", "crash"), ("qsort", "libc.so.6")] {
            let expected = address_by_gdb(&folder, core, name);
            let module = modules.iter().find(|module| module.path.ends_with(path)).unwrap();
            let functions = Program::read(module.image.bytes()).unwrap().functions();
            let address = functions.address_of(name).unwrap();
            assert_eq!(address.wrapping_add(module.bias), expected, "{}", name);
            assert!((module.begin..module.end).contains(&expected));
        }
    }
}

fn address_by_gdb(folder: &Folder, core: &str, name: &str) -> u64 {
    let shown = gdb(folder, "crash", core, &[&format!("print/x (long)&{}", name)]);
    hex(shown.lines().find_map(|line| line.strip_prefix("$1 = ")).unwrap())
}

/// A program that is loaded at the addresses it was linked for has the bias 0.
#[test]
fn fixed_program() {
    let folder = Folder::new("core-fixed");
    folder.write("crash.c", CRASH);
    folder.run("gcc -O1 -g -no-pie crash.c -o crash -lpthread");
    if !kernel_core(&folder, "./crash", "kernel.core") {
        return;
    }
    let bytes = folder.bytes("kernel.core");
    let read = CoreFile::read(&bytes).unwrap();
    let files = Files::read(&read, Path::new("/"));
    let modules = read.modules(&files);
    let module = modules.iter().find(|module| module.path == folder.file("crash")).unwrap();
    assert_eq!((module.bias, module.begin), (0, 0x400000));
}

/// Reads mapped files from another root folder, in which one file has changed, one isn't a regular
/// file, and the others don't exist.
#[test]
fn files_that_cannot_be_used() {
    let folder = Folder::new("core-files");
    folder.write("crash.c", CRASH);
    folder.run("gcc -O1 -g crash.c -o crash -lpthread");
    if !kernel_core(&folder, "./crash", "kernel.core") {
        return;
    }
    let bytes = folder.bytes("kernel.core");
    let read = CoreFile::read(&bytes).unwrap();
    folder.run("gcc -O2 -g crash.c -o other -lpthread");
    folder.run("mkdir -p root$PWD && cp other root$PWD/crash");
    let libc = read.mappings().iter().find(|mapping| mapping.path.ends_with(b"libc.so.6")).unwrap();
    let libc = String::from_utf8(libc.path.to_vec()).unwrap();
    folder.run(&format!("mkdir -p root{}", libc));
    let files = Files::read(&read, &folder.file("root"));
    for file in files.all() {
        let error = file.bytes.as_ref().unwrap_err();
        let name = file.path.file_name().unwrap();
        let is_expected = match name.to_str() {
            Some("crash") => matches!(error, FileError::Changed),
            Some("libc.so.6") => matches!(error, FileError::NotRegular),
            _ => matches!(error, FileError::Read(_)),
        };
        assert!(is_expected, "{:?}: {}", name, error);
    }
    let modules = read.modules(&files);
    assert_eq!(modules.len(), 1, "the vDSO alone is left");
    let memory = read.memory(&files);
    assert!(memory.blocks().all(|block| block.origin == Origin::Core));
}

/// Core files with paths that would lead out of the root folder, or to a file without an end.
#[test]
fn names_that_are_wrong() {
    let folder = Folder::new("core-names");
    folder.write("crash.c", CRASH);
    folder.run("gcc -O1 -g crash.c -o crash -lpthread");
    if !kernel_core(&folder, "./crash", "kernel.core") {
        return;
    }
    let path = folder.file("crash").into_os_string().into_string().unwrap();
    let bytes = folder.bytes("kernel.core");
    let error_of = |name: &str| {
        let name = format!("{:/<1$}", name, path.len());
        let mut changed = bytes.clone();
        let whole = [path.as_bytes(), b"\0"].concat();
        for at in 0..changed.len() - whole.len() {
            if changed[at..].starts_with(&whole) {
                changed[at..at + path.len()].copy_from_slice(name.as_bytes());
            }
        }
        let files = Files::read(&CoreFile::read(&changed).unwrap(), Path::new("/"));
        format!("{:?}", files.all()[0].bytes.as_ref().unwrap_err())
    };
    assert_eq!(error_of("/usr/../etc/passwd"), "Name");
    assert_eq!(error_of("etc/passwd"), "Name");
    assert_eq!(error_of("/dev/zero"), "NotRegular");
    assert_eq!(error_of("/proc/kmsg"), "NotRegular");
}

/// A core file whose end is missing still has its threads, and a part of its memory.
#[test]
fn core_that_was_cut() {
    let folder = Folder::new("core-cut");
    folder.write("crash.c", CRASH);
    folder.run("gcc -O1 -g crash.c -o crash -lpthread");
    if !kernel_core(&folder, "./crash", "kernel.core") {
        return;
    }
    let bytes = folder.bytes("kernel.core");
    let whole = CoreFile::read(&bytes).unwrap();
    let half = CoreFile::read(&bytes[..bytes.len() / 2]).unwrap();
    assert!(half.is_cut() && !whole.is_cut());
    assert_eq!(half.threads(), whole.threads());
    let count = |core: &CoreFile<'_>| {
        let files = Files::default();
        let memory = core.memory(&files);
        let count: usize = memory.blocks().map(|block| block.bytes.len()).sum();
        count
    };
    assert!(count(&half) < count(&whole));
    assert!(matches!(CoreFile::read(&bytes[..100]), Err(CoreError::Elf(_))));
    let program = folder.bytes("crash");
    assert_eq!(CoreFile::read(&program).unwrap_err(), CoreError::NotCore(3));
}

/// A 32-bit program that dies in the function `f`, which `_start` calls.
const I386_CRASH: &str = ".globl _start
_start: .cfi_startproc
 movl $0x12345678, %ebx
 movl $0x9abcdef0, %esi
 movl $0x2468ace0, %edi
 movl $0x13579bdf, %ecx
 call f
 .cfi_endproc
f: .cfi_startproc
 pushl %ebx
 .cfi_adjust_cfa_offset 4
 movl $0x0f1e2d3c, %ebp
 movl $0x4b5a6978, %edx
 movl $0x11223344, %eax
 ud2
 .cfi_endproc
";

/// The core file of a 32-bit program. Skipped if the kernel can't run such a program.
#[test]
fn i386_program() {
    let folder = Folder::new("core-i386");
    if !has("i686-linux-gnu-as") || !has("gdb") {
        return;
    }
    folder.write("a.s", I386_CRASH);
    folder.run("i686-linux-gnu-as a.s -o a.o; i686-linux-gnu-ld a.o -o crash");
    if !kernel_core(&folder, "./crash", "kernel.core") {
        return;
    }
    compare_registers(&folder, "crash", "kernel.core", I386);
    let bytes = folder.bytes("kernel.core");
    let read = CoreFile::read(&bytes).unwrap();
    assert_eq!((read.abi().name, read.threads()[0].signal), ("i386", 4));
    let files = Files::read(&read, Path::new("/"));
    let memory = read.memory(&files);
    let shown = gdb(&folder, "crash", "kernel.core", &["x/32xb $sp", "x/32xb $pc", "x/16xb _start"]);
    compare_memory(&memory, &shown);
    let fault = read.signal().unwrap();
    assert_eq!(Some(fault.address), read.threads()[0].register(8), "the signal's address is that of the instruction");
    let modules = read.modules(&files);
    assert_eq!((modules[0].bias, modules[0].path.as_path()), (0, folder.file("crash").as_path()));
    assert!(matches!(modules.last().unwrap().image, Image::Vdso(_)));
}

/// The error for a core file of another machine names the machine, and those whose core files are
/// read.
#[test]
fn machines_whose_core_files_are_not_read() {
    let mut header = [0; 52];
    header[..7].copy_from_slice(b"\x7fELF\x01\x01\x01");
    header[16] = 4;
    for (machine, name) in [(40, "arm (machine 40)"), (62, "x32 (machine 62)"), (0xfe, "machine 254")] {
        header[18] = machine;
        let error = CoreFile::read(&header).unwrap_err();
        assert_eq!(error, CoreError::Machine(machine.into()));
        let message = format!("the registers of {} aren't known: x86-64, i386 and aarch64 are read", name);
        assert_eq!(error.to_string(), message);
    }
}

/// Assembly of the beginning of a note with the registers of an aarch64 thread.
const AARCH64_NOTE: &str = ".section .note, \"a\", @note
 .long 5, end - begin, 1
 .asciz \"CORE\"
 .balign 4
begin: .fill 12, 1, 0
 .short 11
 .fill 18, 1, 0
 .long 4321
 .fill 76, 1, 0
";

/// There is no aarch64 kernel here to write a core file. So the test makes a note by hand, in a
/// file with the type of core files, and compares with what elfutils reads in that file.
#[test]
fn aarch64_registers() {
    let folder = Folder::new("core-aarch64");
    if !has("aarch64-linux-gnu-as") || !has("eu-readelf") {
        return;
    }
    let mut text = AARCH64_NOTE.to_string();
    for register in 0..34u64 {
        text += &format!(" .quad {:#x}\n", 0x1122_3344_5566_0000 + register * 0x101);
    }
    text += " .long 1, 0\nend:\n";
    folder.write("a.s", text);
    folder.run("aarch64-linux-gnu-as a.s -o a.o; aarch64-linux-gnu-ld -e 0 a.o -o core");
    let mut bytes = folder.bytes("core");
    bytes[16] = 4;
    folder.write("core", &bytes);
    let shown = folder.run("eu-readelf -n core");
    assert!(shown.contains("pid: 4321") && shown.contains("cursig: 11"), "{}", shown);
    let words: Vec<_> = shown.split_whitespace().collect();
    let value = |name: String| {
        let at = words.iter().position(|word| *word == name).unwrap_or_else(|| panic!("{} in {}", name, shown));
        let text = words[at + 1].trim_end_matches(',');
        text.strip_prefix("0x").map_or_else(|| text.parse().unwrap(), hex)
    };
    let read = CoreFile::read(&bytes).unwrap();
    let thread = &read.threads()[0];
    assert_eq!((thread.id, thread.signal, read.abi().name), (4321, 11, "aarch64"));
    for number in 0..31 {
        assert_eq!(thread.register(number), Some(value(format!("x{}:", number))), "x{}", number);
    }
    assert_eq!(thread.register(read.abi().stack_pointer), Some(value("sp:".into())));
    assert_eq!(thread.register(read.abi().program_counter), Some(value("pc:".into())));
}
