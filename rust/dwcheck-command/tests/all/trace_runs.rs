//! Programs that are traced behave as without that, and are never left stopped.

use crate::common::run::dwcheck_elf;
use crate::common::trace::{may_trace_programs, trace};
use crate::common::waiting::comes_true;
use crate::common::{has, Folder};
use std::process::{Child, Command, Stdio};
use std::time::{Duration, Instant};

/// Runs a command line with and without tracing. What it writes and its status have to be the same.
fn runs_alike(folder: &Folder, options: &str, line: &str) {
    let own =
        Command::new("bash").args(["-c", &format!("{}; exit $?", line)]).current_dir(folder.path()).output().unwrap();
    let traced = trace(folder, options, line);
    let own_out = String::from_utf8_lossy(&own.stdout);
    assert_eq!(
        (traced.status, traced.out.as_str()),
        (own.status.code().unwrap(), &*own_out),
        "{} {}",
        line,
        traced.log
    );
    // Of a program that a signal ends, the shell says so.
    if traced.status < 128 {
        assert_eq!(traced.error, String::from_utf8_lossy(&own.stderr), "{}", line);
    }
}

/// A process that ends with the test.
struct Started(Child);

impl Started {
    fn new(folder: &Folder, words: &[&str]) -> Started {
        let mut command = Command::new(folder.file(words[0]));
        Started(command.args(&words[1..]).current_dir(folder.path()).stdout(Stdio::null()).spawn().unwrap())
    }

    fn status(&self, name: &str) -> String {
        status_of(&self.0.id().to_string(), name)
    }
}

/// What the kernel says of a process by this name. Empty if there is no such process.
fn status_of(pid: &str, name: &str) -> String {
    let status = std::fs::read_to_string(format!("/proc/{}/status", pid)).unwrap_or_default();
    let line = status.lines().find_map(|line| line.strip_prefix(name)).unwrap_or_default();
    line.trim().to_string()
}

impl Drop for Started {
    fn drop(&mut self) {
        let _ = self.0.kill();
        let _ = self.0.wait();
    }
}

/// A program may end before a process that it has made has run at all, as daemons do.
#[test]
fn a_process_that_a_program_leaves_behind_goes_on() {
    if !may_trace_programs() {
        return;
    }
    let folder = Folder::new("trace-daemon");
    folder.write(
        "daemon.c",
        "#include <fcntl.h>\n#include <unistd.h>\nint main(int n, char **words) { if (n != 2 || fork() != 0) _exit(0); usleep(100000); return creat(words[1], 0600) < 0; }",
    );
    folder.run("gcc daemon.c -o daemon");
    for name in ["a", "b", "c", "d", "e", "f", "g", "h"] {
        let ran = dwcheck_elf(&folder, &format!("trace --output log --module nothing -- ./daemon {}", name));
        assert_eq!(ran.status, 0, "{}", ran.error);
        assert!(comes_true(|| folder.file(name).exists()), "{}", name);
    }
}

#[test]
fn output_status_and_signals_are_the_programs_own() {
    if !may_trace_programs() {
        return;
    }
    let folder = Folder::new("trace-own");
    // A file that this process writes can't be run while another test's new process still has it open.
    folder.write("text", "#!/bin/sh\necho \"$1 $0\"; exit 5\n");
    folder.run("cp text script && chmod +x script");
    for line in [
        "bash -c 'cat; echo error >&2; exit 7' < script",
        "bash -c 'kill -SEGV $$'",
        "bash -c 'kill -40 $$'",
        "bash -c 'trap \"echo trapped; exit 3\" TERM; kill -TERM $$; echo no'",
        // Again and again, since a traced program may take long to stop itself.
        "bash -c '(while kill -CONT $$ 2> /dev/null; do sleep 0.1; done) > /dev/null & kill -STOP $$; echo on'",
        "bash -c 'yes | head -2; echo ${PIPESTATUS[0]}'",
        "./script word",
    ] {
        runs_alike(&folder, "", line);
    }
    runs_alike(&folder, "--all", "/bin/true");
}

const SIGNALS: &str = "
#define _GNU_SOURCE
#include <signal.h>
#include <stdio.h>
#include <stdlib.h>
#include <string.h>
#include <sys/time.h>
#include <unistd.h>
static volatile sig_atomic_t ticks, sum;
static void tick(int number) { ticks++; char text[32]; snprintf(text, sizeof text, \"%d\", number); }
static void queued(int number, siginfo_t *info, void *context) { (void)context; sum += info->si_value.sival_int + number - SIGRTMIN; }
static void trapped(int number) { sum += number; }
int main(void) {
    static char other[1 << 16];
    stack_t stack = {.ss_sp = other, .ss_size = sizeof other};
    sigaltstack(&stack, NULL);
    struct sigaction action = {.sa_sigaction = queued, .sa_flags = SA_SIGINFO | SA_ONSTACK};
    sigaction(SIGRTMIN + 3, &action, NULL);
    for (int i = 0; i < 50; i++) sigqueue(getpid(), SIGRTMIN + 3, (union sigval){.sival_int = i});
    struct sigaction trap = {.sa_handler = trapped, .sa_flags = SA_NODEFER};
    sigaction(SIGTRAP, &trap, NULL);
    raise(SIGTRAP);
    __asm__ volatile(\"int3\");
    struct sigaction timed = {.sa_handler = tick, .sa_flags = SA_ONSTACK | SA_RESTART};
    sigaction(SIGALRM, &timed, NULL);
    struct itimerval timer = {{0, 1000}, {0, 1000}};
    setitimer(ITIMER_REAL, &timer, NULL);
    while (ticks < 100) for (volatile int i = 0; i < 100; i++);
    memset(&timer, 0, sizeof timer);
    setitimer(ITIMER_REAL, &timer, NULL);
    printf(\"%d\\n\", sum);
}
";

/// Real-time signals with values, traps of the program's own, and a signal each millisecond on another stack.
#[test]
fn signals_arrive() {
    if !may_trace_programs() {
        return;
    }
    let folder = Folder::new("trace-signals");
    folder.write("signals.c", SIGNALS);
    folder.run("gcc -O1 signals.c -o signals");
    runs_alike(&folder, "--calls 50", "./signals");
    let traced = trace(&folder, "--calls 50", "./signals");
    assert!(traced.count("signals") > 0.0, "{}", traced.log);
    assert_eq!(traced.found(), Vec::<[String; 3]>::new(), "{}", traced.log);
}

const FLAGS: &str = "
#include <stdio.h>
long saves(long);
__asm__(\".globl saves\\nsaves: .cfi_startproc\\n pushf\\n .cfi_adjust_cfa_offset 8\\n lea 1(%rdi), %rax\\n popf\\n\"
    \".cfi_adjust_cfa_offset -8\\n ret\\n .cfi_endproc\");
int main(void) { printf(\"%ld\\n\", saves(1) + saves(2)); return 0; }
";

/// Code that pushes and pops the flags, of which the kernel uses one for steps.
#[test]
fn flags_are_the_programs_own() {
    if !may_trace_programs() {
        return;
    }
    let folder = Folder::new("trace-flags");
    folder.write("flags.c", FLAGS);
    folder.run("gcc -O1 flags.c -o flags");
    for options in ["--module flags", "--all --module flags", "--calls 5 --module flags"] {
        runs_alike(&folder, options, "./flags");
        let traced = trace(&folder, options, "./flags");
        assert_eq!(traced.found(), Vec::<[String; 3]>::new(), "{}", traced.log);
    }
}

const STORM: &str = "
#define _GNU_SOURCE
#include <pthread.h>
#include <sched.h>
#include <spawn.h>
#include <stdio.h>
#include <stdlib.h>
#include <sys/wait.h>
#include <unistd.h>
extern char **environ;
static int waited(pid_t pid) { int status; waitpid(pid, &status, __WALL); return WEXITSTATUS(status); }
static long total;
static pthread_mutex_t lock = PTHREAD_MUTEX_INITIALIZER;
static int order(const void *x, const void *y) { return *(const int *)x - *(const int *)y; }
static void *works(void *number) {
    int values[100];
    for (int i = 0; i < 100; i++) values[i] = (int)(i * 7919 + (long)number) % 101;
    qsort(values, 100, sizeof *values, order);
    pthread_mutex_lock(&lock);
    total += values[50];
    pthread_mutex_unlock(&lock);
    return NULL;
}
static int shared;
static int shares(void *number) { shared += (int)(long)number; return 3; }
int main(void) {
    int sum = 0;
    pthread_t threads[20];
    for (long i = 0; i < 20; i++) pthread_create(threads + i, NULL, works, (void *)i);
    for (int i = 0; i < 100; i++) {
        pid_t pid = fork();
        if (pid == 0) exit(i % 7);
        sum += waited(pid);
    }
    for (int i = 0; i < 20; i++) {
        pid_t pid = vfork();
        if (pid == 0) { execl(\"/bin/sh\", \"sh\", \"-c\", \"exit 2\", NULL); _exit(9); }
        sum += waited(pid);
        char *words[] = {\"false\", NULL};
        posix_spawnp(&pid, \"false\", NULL, NULL, words, environ);
        sum += waited(pid);
    }
    for (int i = 0; i < 20; i++) pthread_join(threads[i], NULL);
    char *stack = malloc(1 << 16);
    for (long i = 0; i < 5; i++) sum += waited(clone(shares, stack + (1 << 16), CLONE_VM | SIGCHLD, (void *)i));
    printf(\"%d %ld %d\\n\", sum, total, shared);
}
";

/// Threads, forks, vforks, spawned programs, and processes that share memory.
#[test]
fn many_processes_and_threads() {
    if !may_trace_programs() {
        return;
    }
    let folder = Folder::new("trace-storm");
    folder.write("storm.c", STORM.replace("#include <spawn.h>", "#include <signal.h>\n#include <spawn.h>"));
    folder.run("gcc -O1 -pthread storm.c -o storm");
    runs_alike(&folder, "", "./storm");
    runs_alike(&folder, "--follow-fork", "./storm");
    let traced = trace(&folder, "", "./storm");
    assert_eq!((traced.count("processes"), traced.count("threads")), (1.0, 25.0), "{}", traced.log);
    assert_eq!(traced.found(), Vec::<[String; 3]>::new(), "{}", traced.log);
}

const SECURE: &str = "
#include <stddef.h>
#include <linux/filter.h>
#include <linux/seccomp.h>
#include <stdio.h>
#include <string.h>
#include <sys/prctl.h>
#include <sys/syscall.h>
#include <unistd.h>
__attribute__((noinline)) static int digits(int n) { char text[32]; snprintf(text, sizeof text, \"%d\", n); return (int)strlen(text); }
int main(int argc, char **argv) {
    struct sock_filter lines[] = {
        BPF_STMT(BPF_LD | BPF_W | BPF_ABS, offsetof(struct seccomp_data, nr)),
        BPF_JUMP(BPF_JMP | BPF_JEQ | BPF_K, SYS_getppid, 0, 1),
        BPF_STMT(BPF_RET | BPF_K, SECCOMP_RET_ERRNO | 42),
        BPF_STMT(BPF_RET | BPF_K, SECCOMP_RET_ALLOW),
    };
    struct sock_fprog filter = {4, lines};
    if (argc > 1) {
        if (prctl(PR_SET_SECCOMP, SECCOMP_MODE_STRICT)) return 2;
        char text[] = {(char)('0' + digits(argc)), 10};
        write(1, text, 2);
        syscall(argv[1][0] == 'k' ? SYS_getpid : SYS_exit, 7);
        return 3;
    }
    prctl(PR_SET_NO_NEW_PRIVS, 1, 0, 0, 0);
    if (prctl(PR_SET_SECCOMP, SECCOMP_MODE_FILTER, &filter)) return 2;
    printf(\"%ld %d\\n\", syscall(SYS_getppid), digits(12345));
}
";

/// Programs that have given up the right to make system calls.
#[test]
fn programs_with_few_system_calls() {
    if !may_trace_programs() {
        return;
    }
    let folder = Folder::new("trace-secure");
    folder.write("secure.c", SECURE);
    folder.run("gcc -O1 secure.c -o secure");
    for line in ["./secure", "./secure exits", "./secure killed"] {
        runs_alike(&folder, "", line);
        runs_alike(&folder, "--all --module secure", line);
    }
}

/// What a program starts runs on after it, and isn't traced unless that is asked for.
#[test]
fn what_it_starts_goes_on() {
    if !may_trace_programs() {
        return;
    }
    let folder = Folder::new("trace-starts");
    // It ends at some time also if the test fails.
    let waits = "for ((i = 0; i < 6000; i++)); do [ -e go ] && break; sleep 0.1; done; [ -e go ] && echo late > late";
    for option in ["", "--follow-fork"] {
        let traced = trace(&folder, option, &format!("bash -c '({}) > /dev/null 2>&1 & echo first'", waits));
        assert_eq!((traced.status, traced.out.as_str()), (0, "first\n"), "{}", traced.log);
        assert!(!folder.file("late").exists());
        folder.write("go", "");
        assert!(comes_true(|| folder.file("late").exists()), "{:?}", option);
        folder.run("rm go late");
    }
    let traced = trace(&folder, "--follow-fork", "bash -c '/bin/true; /bin/true; exit 4'");
    assert_eq!((traced.status, traced.count("processes"), traced.count("programs")), (4, 3.0, 2.0), "{}", traced.log);
}

const LOOPS: &str = "
#include <stdio.h>
#include <stdlib.h>
__attribute__((noinline)) static long step(long x) { return x * 7 + 1; }
__attribute__((noinline)) static long steps(long x, int n) { for (int i = 0; i < n; i++) x = step(x); return x; }
int main(int argc, char **argv) {
    long x = argc;
    for (long i = 0; i < atol(argv[1]); i++) x = steps(x, 1000);
    printf(\"%ld\\n\", x);
}
";

/// After the time that was given, the program runs on at full speed.
#[test]
fn a_program_is_let_go() {
    if !may_trace_programs() {
        return;
    }
    let folder = Folder::new("trace-let-go");
    folder.write("loops.c", LOOPS);
    folder.run("gcc -O1 loops.c -o loops");
    let own = folder.run("./loops 300000");
    let begin = Instant::now();
    let traced = trace(&folder, "--all --seconds 5", "./loops 300000");
    assert_eq!((traced.status, &traced.out), (0, &own), "{}", traced.log);
    // Step by step, it would take hours.
    assert!(begin.elapsed() < Duration::from_secs(600));
    assert!(traced.count("steps") > 1000.0, "{}", traced.log);
}

/// A process that runs is stepped, and runs on; so it does if `dwcheck-elf` is killed meanwhile.
#[test]
fn a_process_that_runs() {
    if !may_trace_programs() {
        return;
    }
    let folder = Folder::new("trace-pid");
    folder.write("loops.c", LOOPS);
    folder.run("gcc -O1 loops.c -o loops");
    let process = Started::new(&folder, &["loops", "1000000000"]);
    let pid = process.0.id();
    let ran = dwcheck_elf(&folder, &format!("trace --seconds 5 --module loops --output log --pid {}", pid));
    let log = String::from_utf8_lossy(&folder.bytes("log")).into_owned();
    assert_eq!(ran.status, 0, "{}{}", ran.error, log);
    assert!(log.lines().any(|line| line.contains("/loops: fdes") && !line.contains("judged 0")), "{}", log);
    assert_eq!((process.status("State:"), process.status("TracerPid:").as_str()), ("R (running)".to_string(), "0"));
    for _ in 0..20 {
        let mut tracer = Command::new(env!("CARGO_BIN_EXE_dwcheck-elf"));
        let mut tracer = tracer.args(["trace", "--seconds", "60", "--pid", &pid.to_string()]).spawn().unwrap();
        std::thread::sleep(Duration::from_millis(60));
        tracer.kill().unwrap();
        tracer.wait().unwrap();
        // The process that steps it may still end a window.
        assert!(comes_true(|| process.status("TracerPid:") == "0" && process.status("State:") == "R (running)"));
    }
}

const SLOW_STOPS: &str = "
#include <fcntl.h>
#include <sys/mman.h>
#include <sys/prctl.h>
#include <time.h>
#include <unistd.h>
static double map_zeros(size_t size) {
    struct timespec begin, end;
    clock_gettime(CLOCK_MONOTONIC, &begin);
    void *zeros = mmap(NULL, size, PROT_READ, MAP_PRIVATE | MAP_ANONYMOUS | MAP_NORESERVE | MAP_POPULATE, -1, 0);
    if (zeros == MAP_FAILED) _exit(1);
    munmap(zeros, size);
    clock_gettime(CLOCK_MONOTONIC, &end);
    return end.tv_sec - begin.tv_sec + (end.tv_nsec - begin.tv_nsec) / 1e9;
}
int main(void) {
    prctl(PR_SET_THP_DISABLE, 1, 0, 0, 0);
    int rounds = creat(\"rounds\", 0600);
    double least = map_zeros(1ul << 30);
    for (int i = 0; i < 3; i++) { double time = map_zeros(1ul << 30); if (time < least) least = time; }
    size_t size = ((size_t)(2 / least) + 1) << 30;
    while (write(rounds, \".\", 1) == 1) map_zeros(size);
    return 1;
}
";

/// A thread that runs in the kernel for seconds before it can stop is waited for, and goes on each time.
#[test]
fn a_thread_that_stops_late() {
    if !may_trace_programs() {
        return;
    }
    let folder = Folder::new("trace-late");
    folder.write("maps.c", SLOW_STOPS);
    folder.run("gcc -O1 maps.c -o maps");
    let process = Started::new(&folder, &["maps"]);
    let rounds = || std::fs::read(folder.file("rounds")).unwrap_or_default().len();
    assert!(comes_true(|| rounds() > 0));
    let mut command = Command::new(env!("CARGO_BIN_EXE_dwcheck-elf"));
    let options = ["trace", "--seconds", "3600", "--output", "log", "--pid", &process.0.id().to_string()];
    let mut tracer = Started(command.args(options).current_dir(folder.path()).spawn().unwrap());
    assert!(comes_true(|| !["0", ""].contains(&process.status("TracerPid:").as_str())));
    let before = rounds();
    assert!(comes_true(|| rounds() > before + 2));
    assert!(tracer.0.try_wait().unwrap().is_none());
    drop(tracer);
    assert!(comes_true(|| process.status("TracerPid:") == "0" && process.status("State:") == "R (running)"));
}

/// A program that was started ends with the tracer if that is killed; its breakpoints would end it anyway.
#[test]
fn a_killed_tracer_leaves_nothing_stopped() {
    if !may_trace_programs() {
        return;
    }
    let folder = Folder::new("trace-killed");
    folder.run("cp /bin/sleep mysleep");
    let mut tracer = Command::new(env!("CARGO_BIN_EXE_dwcheck-elf"));
    let mut tracer = tracer.args(["trace", "--", "./mysleep", "1000"]).current_dir(folder.path()).spawn().unwrap();
    let runs = || folder.run("pgrep -f '^./mysleep 1000$' || true");
    assert!(comes_true(|| !runs().is_empty()));
    std::thread::sleep(Duration::from_millis(300));
    tracer.kill().unwrap();
    tracer.wait().unwrap();
    assert!(comes_true(|| runs().is_empty()));
}

/// What can't be traced is refused by name, with status 3, and nothing of it runs.
#[test]
fn what_cannot_be_traced_is_refused() {
    if !may_trace_programs() || !has("setpriv") {
        return;
    }
    let folder = Folder::new("trace-refused");
    folder.write("says.c", "#include <stdio.h>\nint main(void) { return puts(\"ran\") < 0; }\n");
    folder.run("gcc -m32 says.c -o narrow && gcc says.c -o wide && chmod 4755 wide && chmod 755 .");
    // A file that this process writes can't be run while another test's new process still has it open.
    folder.run(concat!("cp ", env!("CARGO_BIN_EXE_dwcheck-elf"), " tool"));
    let user = "$([ $(id -u) = 0 ] && echo setpriv --reuid 65534 --regid 65534 --clear-groups)";
    for (line, why) in [
        ("./tool trace -- ./narrow", "/narrow isn't a 64-bit program for x86-64"),
        (&*format!("{} ./tool trace -- ./wide", user), "/wide is a setuid or setgid program"),
        ("./tool trace -- ./missing", "./missing: it can't be started: No such file or directory"),
        ("./tool trace --pid 4194304", "process 4194304: there is no such process"),
    ] {
        let said = folder.run(&format!("{} 2>&1; echo status $?", line));
        assert!(said.contains(why) && said.ends_with("status 3\n") && !said.contains("ran"), "{}", said);
    }
    assert_eq!(dwcheck_elf(&folder, "trace").status, 2);
    assert_eq!(dwcheck_elf(&folder, "trace --module [ -- ./wide").status, 2);
}

/// A process that another program traces is left alone.
#[test]
fn a_process_that_is_traced_already() {
    if !may_trace_programs() {
        return;
    }
    let folder = Folder::new("trace-twice");
    folder.run("cp /bin/sleep mysleeper");
    let mut command = Command::new(env!("CARGO_BIN_EXE_dwcheck-elf"));
    let mut first =
        Started(command.args(["trace", "--", "./mysleeper", "1000"]).current_dir(folder.path()).spawn().unwrap());
    let children = format!("/proc/{0}/task/{0}/children", first.0.id());
    let child = || std::fs::read_to_string(&children).unwrap_or_default().trim().to_string();
    let tracer = first.0.id().to_string();
    assert!(comes_true(|| status_of(&child(), "TracerPid:") == tracer));
    let ran = dwcheck_elf(&folder, &format!("trace --pid {}", child()));
    assert_eq!(ran.status, 3, "{}", ran.error);
    assert!(ran.error.contains(&format!("the process {} traces it already", tracer)), "{}", ran.error);
    first.0.kill().unwrap();
}
