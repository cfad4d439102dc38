//! Stacks of programs that crash where no row is found, or where rows would be wrong. The expected
//! frames are those of gdb or eu-stack, or those that the program's source implies.

use crate::common::cores::{addresses, by_eu_stack, by_gdb, frames, stop};
use crate::common::run::dwcheck_elf;
use crate::common::{has, hex, may_trace, skipped, Folder};

/// Crashes in the way that its argument names.
const CRASH: &str = r#"
#define _GNU_SOURCE
#include <signal.h>
#include <stdlib.h>
#include <string.h>
#include <sys/mman.h>
typedef int fn(int);
static char data[64];
__attribute__((noinline)) int callee(fn *volatile f) { return f(3) + 1; }
__attribute__((noinline)) int middle(fn *f, int n) { volatile int k = n; return callee(f) + k; }
static int aborts(int n) { if (n) abort(); return n; }
static void handler(int n) { if (n) abort(); }
static int faulty(int n) { return *(volatile int *)(long)n; }
static void handle(int flags) {
    static char other[1 << 16];
    stack_t stack = {.ss_sp = other, .ss_size = sizeof other};
    sigaltstack(&stack, 0);
    struct sigaction action = {.sa_handler = handler, .sa_flags = flags};
    sigaction(SIGSEGV, &action, 0);
}
static fn *code(const char *bytes, size_t size) {
    char *page = mmap(0, 4096, PROT_READ | PROT_WRITE | PROT_EXEC, MAP_PRIVATE | MAP_ANONYMOUS, -1, 0);
    return (fn *)memcpy(page, bytes, size);
}
__attribute__((noinline)) int smash(int n) {
    volatile long room[2];
    for (int i = 0; i < 12; i++) ((volatile long *)room)[i] = 0x4141414141414141;
    return n;
}
int main(int c, char **v) {
    const char *way = v[1];
    if (!strcmp(way, "null")) return middle(0, c) + 1;
    if (!strcmp(way, "wild")) return middle((fn *)0x1234500000, c) + 1;
    if (!strcmp(way, "data")) return middle((fn *)data, c) + 1;
    if (!strcmp(way, "handled")) { handle(0); return middle(0, c) + 1; }
    if (!strcmp(way, "other-stack")) { handle(SA_ONSTACK); return middle(faulty, c) + 1; }
    if (!strcmp(way, "smash")) return smash(c) + 1;
    /* push %rbp; mov %rsp, %rbp; sub $32, %rsp; ud2 */
    if (!strcmp(way, "frame-pointer")) return middle(code("\x55\x48\x89\xe5\x48\x83\xec\x20\x0f\x0b", 10), c) + 1;
    /* sub $40, %rsp; ud2 */
    if (!strcmp(way, "none")) return middle(code("\x48\x83\xec\x28\x0f\x0b", 6), c) + 1;
    return aborts(c);
}
"#;

/// Builds the program `crash`. Returns false if a tool isn't installed.
fn build(folder: &Folder, flags: &str) -> bool {
    folder.write("crash.c", CRASH);
    folder.run(&format!("gcc -O1 {} crash.c -o crash", flags));
    ["gdb", "eu-stack"].iter().all(|tool| has(tool))
}

/// A call to an address where no code is: the caller is found by the return address on the stack, and
/// marked. eu-stack finds none of these callers.
#[test]
fn calls_to_where_no_code_is() {
    let folder = Folder::new("crash-calls");
    if !build(&folder, "") {
        return;
    }
    for way in ["null", "wild", "data", "handled"] {
        folder.crash(&format!("./crash {}", way));
        let ran = dwcheck_elf(&folder, "stack --no-inline --no-source core");
        assert_eq!((ran.status, ran.error.as_str()), (0, ""));
        let shown = frames(&ran.out);
        assert_eq!(addresses(&shown), by_gdb(&folder, "crash"), "{}: {}", way, ran.out);
        let guesses: Vec<_> = shown.iter().filter(|line| line.contains(" guess: ")).collect();
        assert!(
            guesses.len() == 1 && guesses[0].contains(" callee+") && guesses[0].ends_with(" guess: call"),
            "{}",
            ran.out
        );
        let strict = dwcheck_elf(&folder, "stack --no-inline --no-source --strict core");
        let place = shown.iter().position(|line| line == guesses[0]).unwrap();
        assert_eq!(frames(&strict.out), shown[..place]);
        assert_eq!(stop(&strict.out), "stop: not covered");
    }
}

const FAULT: &str = "
#include <stdlib.h>
__attribute__((noinline)) static int reads(volatile int *address) { return *address + 1; }
__attribute__((noinline)) static int divides(volatile int n) { return 7 / n; }
int main(int c, char **v) { return c == 1 ? reads((volatile int *)16) : c == 2 ? divides(0) : (abort(), 0); }
";

/// Says the address and the bytes of the instruction at which a thread is.
const INSTRUCTION: &str = "python
frame = gdb.newest_frame()
length = frame.architecture().disassemble(frame.pc())[0]['length']
bytes = gdb.selected_inferior().read_memory(frame.pc(), length).tobytes()
print('%#018x: %s' % (frame.pc(), bytes.hex(' ')))
end
";

/// The bytes of the instruction that caused the signal are those that gdb shows. If the signal wasn't
/// caused by an instruction, there are none; if its page isn't readable, the line says so.
#[test]
fn the_instruction_of_a_fault() {
    let folder = Folder::new("crash-instruction");
    if !build(&folder, "") {
        return;
    }
    folder.write("fault.c", FAULT);
    folder.write("at.gdb", INSTRUCTION);
    folder.run("gcc -O1 fault.c -o fault");
    for words in ["./fault", "./fault 2", "./crash none"] {
        folder.crash(words);
        let program = words.split(' ').next().unwrap();
        let shown = folder.run(&format!("gdb --batch -x at.gdb {} core 2> /dev/null | tail -1", program));
        let ran = dwcheck_elf(&folder, "stack core");
        assert!(ran.lines()[1].starts_with(&format!("instruction {}, ", shown.trim())), "{}{}", shown, ran.out);
    }
    folder.crash("./crash null");
    let ran = dwcheck_elf(&folder, "stack core");
    assert_eq!(ran.lines()[1], "instruction 0x0000000000000000: unreadable");
    let json = dwcheck_elf(&folder, "stack --json core").out;
    assert!(json.contains("\"instruction\":{\"address\":\"0x0\",\"bytes\":null,\"text\":null}"), "{}", json);
    folder.crash("./fault 2 3");
    let ran = dwcheck_elf(&folder, "stack core");
    assert!(ran.lines()[1].starts_with("thread "), "{}", ran.out);
}

/// Code without a row that keeps a frame pointer is passed by it, and its caller is marked. The next
/// frames are found by rows again. Code that keeps none ends the stack.
#[test]
fn code_without_rows() {
    let folder = Folder::new("crash-jit");
    if !build(&folder, "") {
        return;
    }
    folder.crash("./crash frame-pointer");
    let ran = dwcheck_elf(&folder, "stack --no-inline --no-source core");
    let shown = frames(&ran.out);
    assert_eq!(addresses(&shown), by_eu_stack(&folder, "crash"), "{}", ran.out);
    assert!(shown[1].contains(" callee+") && shown[1].ends_with(" guess: frame pointer"), "{}", ran.out);
    assert_eq!(ran.out.matches(" guess: ").count(), 1);
    folder.crash("./crash none");
    let ran = dwcheck_elf(&folder, "stack --no-inline --no-source core");
    assert_eq!((frames(&ran.out).len(), stop(&ran.out)), (1, "stop: not covered"), "{}", ran.out);
}

/// A signal handler on another stack, whose CFAs are above or below those of the frames that it
/// interrupted.
#[test]
fn a_handler_on_another_stack() {
    let folder = Folder::new("crash-other-stack");
    for flags in ["", "-static-pie"] {
        if !build(&folder, flags) {
            return;
        }
        folder.make_core("./crash other-stack");
        let ran = dwcheck_elf(&folder, "stack --no-inline --no-source core");
        let shown = frames(&ran.out);
        assert_eq!(addresses(&shown), by_eu_stack(&folder, "crash"), "{}", ran.out);
        assert!(
            ran.out.contains(" faulty") && ran.out.contains(" main+") && !ran.out.contains(" guess: "),
            "{}",
            ran.out
        );
    }
}

/// A handler returns to code of the program's own that no row covers. gdb knows this code by its name and
/// its instructions.
const OWN_RETURN: &str = r#"
#include <signal.h>
#include <stdlib.h>
#include <unistd.h>
struct action { void (*handler)(int); unsigned long flags; void (*restorer)(void); unsigned long long mask; };
void own__sigaction(void);
asm(".text\n nop\n.globl own__sigaction\n.type own__sigaction, @function\n"
    "own__sigaction: " CODE "\n.size own__sigaction, . - own__sigaction\n");
static void handler(int n) { if (n) abort(); }
__attribute__((noinline)) static int faulty(volatile int *address) { return *address + 1; }
int main(int c, char **v) {
    struct action action = { handler, FLAGS | 0x04000000 /* SA_RESTORER */, own__sigaction, 0 };
    syscall(sizeof(long) == 8 ? 13 : 174 /* rt_sigaction */, SIGSEGV, &action, 0, 8);
    return faulty((volatile int *)(long)c) + 1;
}
"#;

/// For i386, the kernel stores the registers elsewhere for a handler with SA_SIGINFO.
#[test]
fn a_handler_that_returns_to_code_without_rows() {
    let folder = Folder::new("crash-own-return");
    if !has("gdb") {
        return;
    }
    folder.write("a.c", OWN_RETURN);
    for (machine, flags, code) in [
        ("-m64", "0", "mov $15, %rax\\n syscall"),
        ("-m32", "0", "pop %eax\\n mov $119, %eax\\n int $0x80"),
        ("-m32", "SA_SIGINFO", "mov $173, %eax\\n int $0x80"),
    ] {
        folder.run(&format!("gcc {} -O1 -DFLAGS={} '-DCODE=\"{}\"' a.c -o own", machine, flags, code));
        folder.make_core("./own");
        let ran = dwcheck_elf(&folder, "stack --no-inline --no-source core");
        let shown = frames(&ran.out);
        assert_eq!(addresses(&shown), by_gdb(&folder, "own"), "{}{}", ran.out, ran.error);
        let at = shown.iter().position(|line| line.contains(" own__sigaction (")).unwrap();
        assert!(shown[at + 1].contains(" faulty") && shown[at + 1].ends_with(" guess: signal return"), "{}", ran.out);
        assert_eq!(ran.out.matches(" guess: ").count(), 1);
    }
}

/// The same with the number of the call as the assembler's shorter instruction, which gdb doesn't know: the functions
/// are those of the other program.
#[test]
fn a_handler_that_returns_by_the_shorter_instruction() {
    let folder = Folder::new("crash-short-return");
    folder.write("a.c", OWN_RETURN);
    let functions = |code: &str| {
        folder.run(&format!("gcc -O1 -DFLAGS=0 '-DCODE=\"{}\"' a.c -o own", code));
        folder.make_core("./own");
        let ran = dwcheck_elf(&folder, "stack --no-inline --no-source core");
        frames(&ran.out).iter().map(|line| line.split([' ', '+']).nth(1).unwrap().to_string()).collect::<Vec<_>>()
    };
    if has("gdb") {
        let longer = functions("mov $15, %rax\\n syscall");
        assert!(longer.contains(&"faulty".to_string()) && longer.contains(&"main".to_string()), "{:?}", longer);
        assert_eq!(functions("mov $15, %eax\\n syscall"), longer);
    }
}

/// Code that no row covers and that has no frame: `bare` is called, `jumps` leads to it, and `framed` has a frame
/// pointer and a return address of another call at its stack pointer.
const BARE: &str = r#"
#include <stdlib.h>
#include <string.h>
void bare(void), jumps(void), framed(void);
asm(".text\n.globl bare, jumps, framed\nbare: ud2\njumps: jmp bare\n"
    "framed: push %rbp\n mov %rsp, %rbp\n lea after(%rip), %rax\n push %rax\n ud2\n call atoi@plt\nafter: nop\n");
void (*volatile called)(void);
__attribute__((noinline)) int calls(int n) { volatile int kept = n; bare(); return kept; }
__attribute__((noinline)) int leads(int n) { volatile int kept = n; jumps(); return kept; }
__attribute__((noinline)) int points(int n) { volatile int kept = n; called = bare; called(); return kept; }
__attribute__((noinline)) int frames(int n) { volatile int kept = n; framed(); return kept; }
int main(int c, char **v) {
    int (*all[])(int) = {calls, leads, points, frames};
    return all[atoi(v[1])](c) + 1;
}
"#;

/// The innermost frame has no row: its caller is found by the return address at the stack pointer, and isn't skipped,
/// although its frame pointer leads to the caller's caller. The frames are those of the source.
#[test]
fn callers_of_code_without_rows_and_frames() {
    let folder = Folder::new("crash-bare");
    if !has("gdb") {
        return;
    }
    folder.write("a.c", BARE);
    folder.run("gcc -O1 -fno-omit-frame-pointer a.c -o bare");
    for (way, function, guess) in
        [(0, "calls", "call"), (1, "leads", "call"), (2, "points", "call"), (3, "frames", "frame pointer")]
    {
        folder.crash(&format!("./bare {}", way));
        let ran = dwcheck_elf(&folder, "stack --no-inline --no-source core");
        let shown = frames(&ran.out);
        assert!(shown[1].contains(&format!(" {}+", function)), "{}", ran.out);
        assert!(shown[1].ends_with(&format!(" guess: {}", guess)) && shown[2].contains(" main+"), "{}", ran.out);
        assert_eq!((ran.out.matches(" guess: ").count(), stop(&ran.out)), (1, "stop: return undefined"));
    }
}

/// lld writes no FDE for the stubs of the procedure linkage table. One that finds its function when it is first called
/// pushes a number, and jumps to the first entry of the table, which pushes a word, too. The frames are gdb's where
/// nothing is pushed yet.
#[test]
fn a_stub_that_no_row_covers() {
    let folder = Folder::new("crash-stub");
    if !has("ld.lld") || !may_trace() {
        return;
    }
    folder.write(
        "a.c",
        "#include <stdlib.h>
__attribute__((noinline)) int f(const char *s, char **e) { volatile int k = strtol(s, e, 10); return k; }
int main(int c, char **v) { return f(\"12\", 0); }",
    );
    folder.run("gcc -O1 -fno-omit-frame-pointer -no-pie -fuse-ld=lld -Wl,-z,lazy a.c -o stub");
    let address = |line: &str| hex(folder.run(line).trim());
    let first = address("objdump -h stub | awk '$2 == \".plt\" {print $4}'");
    let stub = address("objdump -d -j .plt stub | sed -n 's/^0*\\([0-9a-f]*\\) <strtol@plt>:/\\1/p'");
    let mut callers = Vec::new();
    for at in [stub, stub + 6, stub + 11, first, first + 6] {
        let stop = format!("-ex 'set startup-with-shell off' -ex 'break *{:#x}' -ex run -ex 'gcore core'", at);
        folder.run(&format!("gdb --batch {} ./stub > gdb.log 2>&1", stop));
        let ran = dwcheck_elf(&folder, "stack --no-inline --no-source core");
        let shown = frames(&ran.out);
        if at == stub {
            callers = by_gdb(&folder, "stub").split_off(1);
            assert!(shown[0].contains(" strtol@plt "), "{}", ran.out);
        }
        assert_eq!(addresses(&shown)[1..], callers, "{:#x}: {}", at, ran.out);
        assert!(shown[1].contains(" f+") && shown[1].ends_with(" guess: call"), "{}", ran.out);
        assert_eq!(ran.out.matches(" guess: ").count(), 1, "{}", ran.out);
    }
}

/// A return address that isn't code isn't a frame. gdb shows frames with what it finds on the stack.
#[test]
fn a_stack_that_is_smashed() {
    let folder = Folder::new("crash-smash");
    if !build(&folder, "-fno-stack-protector") {
        return;
    }
    folder.crash("./crash smash");
    let ran = dwcheck_elf(&folder, "stack --no-inline --no-source core");
    assert_eq!(frames(&ran.out).len(), 1, "{}", ran.out);
    assert_eq!(stop(&ran.out), "stop: return address 0x4141414141414141 isn't code");
}

/// Maps a page of its own code again, and other code right after it, where the file has the function
/// `filler`, whose rows would be wrong there.
const GHOST: &str = r#"
#define _GNU_SOURCE
#include <stdint.h>
#include <fcntl.h>
#include <stdlib.h>
#include <string.h>
#include <sys/mman.h>
extern char __executable_start;
__attribute__((noinline)) int stop(void) { abort(); }
__attribute__((noinline)) static int call(int (*f)(int (*)(void))) { return f(stop) + 1; }
int filler(int a) { char x[200]; memset(x, a, 200); return x[a % 200]; }
int main(void) {
    int file = open("/proc/self/exe", O_RDONLY);
    uintptr_t linked = (uintptr_t)filler - (uintptr_t)&__executable_start, page = linked & -4096;
    char *room = mmap(0, 4 * 4096, PROT_READ | PROT_WRITE | PROT_EXEC, MAP_PRIVATE | MAP_ANONYMOUS, -1, 0);
    mmap(room, 4096, PROT_READ | PROT_EXEC, MAP_PRIVATE | MAP_FIXED, file, page - 4096);
    char *code = room + 4096 + linked % 4096 + 16;
    /* push %rbp; mov %rsp, %rbp; sub $32, %rsp; call *%rdi; leave; ret */
    memcpy(code, "\x55\x48\x89\xe5\x48\x83\xec\x20\xff\xd7\xc9\xc3", 12);
    return call((int (*)(int (*)(void)))code);
}
"#;

/// The code before `main` has to fill the page before that of `filler`.
const PAD: &str = ".text\n.globl pad\npad: .cfi_startproc\n .fill 0x3000, 1, 0x90\n ret\n .cfi_endproc\n.section .note.GNU-stack,\"\",@progbits\n";

/// Rows are used only for the very pages of the file that they describe.
#[test]
fn a_page_that_is_mapped_again() {
    let folder = Folder::new("crash-ghost");
    if !has("eu-stack") {
        return;
    }
    folder.write("pad.s", PAD);
    folder.write("ghost.c", GHOST);
    folder.run("gcc -O1 -g pad.s ghost.c -o ghost");
    folder.make_core("./ghost");
    let ran = dwcheck_elf(&folder, "stack --no-inline --no-source core");
    let shown = frames(&ran.out);
    assert_eq!(addresses(&shown), by_eu_stack(&folder, "ghost"), "{}", ran.out);
    let jit = shown.iter().position(|line| line.contains(" stop+")).unwrap() + 1;
    assert!(!shown[jit].contains('('), "{}", ran.out);
    assert!(shown[jit + 1].contains(" call+") && shown[jit + 1].ends_with(" guess: frame pointer"), "{}", ran.out);
}

/// A fault in `last`, whose FDE ends with a remember_state that nothing restores; and in `bad`, whose
/// FDE is refused.
const FDES: &str = ".globl main
main: .cfi_startproc
 push %rbp
 .cfi_adjust_cfa_offset 8
 .cfi_offset %rbp, -16
 mov %rsp, %rbp
 cmp $1, %edi
 jne 1f
 call last
1: call bad
.cfi_endproc
last: .cfi_startproc
 sub $40, %rsp
 .cfi_adjust_cfa_offset 40
 .cfi_remember_state
 ud2
.cfi_endproc
bad: .cfi_startproc
 push %rbp
 .cfi_escape 0x0f, 2, 0x77, 16
 mov %rsp, %rbp
 .cfi_def_cfa_register %rbp
 ud2
.cfi_endproc
.section .note.GNU-stack,\"\",@progbits
";

/// A remember_state that is left over is refused by `check`, but changes no row, so `stack` uses the
/// rows. An FDE that is refused for another reason costs only its own frame.
#[test]
fn refused_fdes() {
    let folder = Folder::new("crash-fdes");
    if !has("eu-stack") {
        return;
    }
    folder.write("a.s", FDES);
    folder.run("gcc a.s -o crash");
    let check = dwcheck_elf(&folder, "check --all --no-lists crash");
    assert!(check.out.contains(": Unrestored: ") && check.out.contains(": CfaNotRegister: "), "{}", check.out);
    folder.crash("./crash");
    let last = dwcheck_elf(&folder, "stack --no-inline --no-source core");
    let shown = frames(&last.out);
    assert!(
        shown[0].contains(" last+0x4 ") && shown[1].contains(" main+") && !last.out.contains("guess"),
        "{}",
        last.out
    );
    assert_eq!(
        (last.error.as_str(), addresses(&shown)),
        ("", by_eu_stack(&folder, "crash").iter().map(String::as_str).collect())
    );
    folder.crash("./crash 2");
    let bad = dwcheck_elf(&folder, "stack --no-inline --no-source core");
    let shown = frames(&bad.out);
    assert!(shown[0].contains(" bad+0x4 ") && shown[1].contains(" main+"), "{}", bad.out);
    assert!(shown[1].ends_with(" guess: frame pointer") && bad.out.matches("guess").count() == 1, "{}", bad.out);
    assert!(bad.error.contains(": CfaNotRegister: FDE ") && bad.error.ends_with(" isn't used\n"), "{}", bad.error);
}

const DEEP: &str = "
#include <stdlib.h>
__attribute__((noinline)) int deep(int n) { volatile int k = n; if (n == 0) abort(); return deep(n - 1) + k; }
int main(void) { return deep(5) + 1; }
";

/// Return addresses that are signed (aarch64), in memory and in a register.
#[test]
fn signed_return_addresses() {
    let folder = Folder::new("crash-signed");
    if !["aarch64-linux-gnu-gcc", "qemu-aarch64"].iter().all(|tool| has(tool)) {
        return;
    }
    folder.write("a.c", DEEP);
    for flags in ["", "-fno-asynchronous-unwind-tables"] {
        folder
            .run(&format!("aarch64-linux-gnu-gcc -O1 -g -static -mbranch-protection=standard {} a.c -o crash", flags));
        folder.run("ulimit -c unlimited; qemu-aarch64 -cpu max ./crash 2> /dev/null || mv qemu_crash_*.core core");
        let ran = dwcheck_elf(&folder, "stack --no-inline --no-source crash core");
        assert_eq!((ran.status, ran.error.as_str()), (0, ""), "{}", ran.out);
        assert!(ran.out.matches(" deep+").count() == 6 && ran.out.contains(" main+"), "{}", ran.out);
        assert!(ran.out.contains(" _start+") && !ran.out.contains("guess"), "{}", ran.out);
    }
}

const CALLS: &str = "
#include <stdlib.h>
int without_rows(int n);
__attribute__((noinline)) int last(int n) { if (n > 0) abort(); return n + 1; }
__attribute__((noinline)) int first(int n) { volatile int room[40]; room[n] = n; return without_rows(room[n]) + room[n]; }
int main(int argc, char **argv) { volatile int room[9]; room[argc] = argc; return first(room[argc]) + room[argc]; }
";
const WITHOUT_ROWS: &str = "
int last(int n);
__attribute__((noinline)) int inner(int n) { volatile int room[70]; room[n] = n; return last(room[n]) + room[n]; }
int without_rows(int n) { volatile int room[20]; room[n] = n; return inner(room[n]) + room[n]; }
";

/// Code of gcc for aarch64 without rows has frame pointers that lead to the bottom of a frame: what is above it isn't known,
/// and by rows its caller's CFA counts from the stack pointer.
#[test]
fn frames_of_gcc_without_rows_are_passed() {
    let folder = Folder::new("crash-bottom");
    if !["aarch64-linux-gnu-gcc", "qemu-aarch64"].iter().all(|tool| has(tool)) {
        return;
    }
    folder.write("a.c", CALLS);
    folder.write("b.c", WITHOUT_ROWS);
    folder.run("aarch64-linux-gnu-gcc -O1 -fno-asynchronous-unwind-tables -fno-unwind-tables -c b.c");
    folder.run("aarch64-linux-gnu-gcc -O1 -static a.c b.o -o crash");
    folder.run("ulimit -c unlimited; qemu-aarch64 ./crash 2> /dev/null || mv qemu_crash_*.core core");
    let ran = dwcheck_elf(&folder, "stack --no-inline --no-source crash core");
    let shown: Vec<&str> = frames(&ran.out).into_iter().skip_while(|line| !line.contains(" last+")).collect();
    for (line, name) in shown.iter().zip(["last", "inner", "without_rows", "first", "main"]) {
        assert!(line.contains(&format!(" {}+", name)), "{}", ran.out);
    }
    let guesses: Vec<usize> =
        (0..shown.len()).filter(|number| shown[*number].ends_with(" guess: frame pointer")).collect();
    assert!(guesses == [2, 3] && ran.out.contains(" _start+"), "{}", ran.out);
}

/// In glibc 2.36 for i386, the FDE of memcpy has a remember_state that is left over.
#[test]
fn a_fault_in_memcpy_of_i386() {
    let folder = Folder::new("crash-memcpy");
    folder.write(
        "a.c",
        "#include <string.h>\nint main(int c, char **v) { return memcpy((char *)16, v[0], 4000 + c) != 0; }",
    );
    let builds = std::process::Command::new("gcc")
        .args(["-m32", "-fno-builtin", "a.c", "-o", "a"])
        .current_dir(folder.path())
        .output();
    if !builds.map_or(false, |output| output.status.success()) || !has("eu-stack") {
        return skipped("gcc -m32 doesn't link");
    }
    folder.crash("env GLIBC_TUNABLES=glibc.cpu.hwcaps=-SSE4_2,-SSSE3,-SSE2,-AVX2 ./a");
    let ran = dwcheck_elf(&folder, "stack --no-inline --no-source core");
    let shown = frames(&ran.out);
    assert_eq!(addresses(&shown), by_eu_stack(&folder, "a"), "{}{}", ran.out, ran.error);
    assert!(ran.out.contains(" main+") && !ran.out.contains("guess"), "{}", ran.out);
}
