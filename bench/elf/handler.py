#!/usr/bin/env python3
"""Has the kernel pass crashes to `dwcheck-elf stack --handler`, as root: core_pattern is changed for some seconds, and put
back whatever happens. Other programs that crash meanwhile are reported too, and leave no core file.

    bench/elf/handler.py DWCHECK_ELF compare [-- OPTION..]
    bench/elf/handler.py DWCHECK_ELF time [--threads N] [--gigabytes N] [--touched MB] [-- OPTION..]
    bench/elf/handler.py DWCHECK_ELF many [--count N]

`compare` has small programs crash in several ways, without address space randomization, once with the handler and once
with a core file of the kernel, and compares the frames of all threads by the handler with those of `stack CORE`, and those of
the first thread with gdb's. `time` has a program with N threads (1,000) crash that has mapped N GB (8) and written to some
of it (1,000 MB), and prints how long the handler ran, how much of a processor and of memory it took, and how long the crash
took, with the handler and without. `many` has N processes (100) crash at once, and counts their reports. This needs gcc and gdb.
"""
import argparse
import contextlib
import os
import pathlib
import re
import signal
import subprocess
import sys
import tempfile
import time

HERE = pathlib.Path(__file__).resolve().parent
PATTERN, PIPE_LIMIT = map(pathlib.Path, ("/proc/sys/kernel/core_pattern", "/proc/sys/kernel/core_pipe_limit"))
MANY_THREADS = """
#include <pthread.h>
#include <stdlib.h>
#include <string.h>
#include <sys/mman.h>
#include <unistd.h>
static int order(const void *x, const void *y) { for (;;) pause(); return *(const int *)x - *(const int *)y; }
__attribute__((noinline)) static int deep(int n) {
    int values[] = {3, 1, 2};
    if (n == 0) qsort(values, 3, sizeof *values, order);
    volatile int kept = n;
    return deep(n - 1) + kept;
}
static void *waits(void *n) { return (void *)(long)deep(20 + (int)(long)n % 7); }
int main(int count, char **words) {
    pthread_t thread;
    char *memory = mmap(NULL, atol(words[2]) << 30, PROT_READ | PROT_WRITE, MAP_PRIVATE | MAP_ANONYMOUS | MAP_NORESERVE, -1, 0);
    memset(memory, 7, atol(words[3]) << 20);
    for (long n = 0; n < atoi(words[1]); n++) if (pthread_create(&thread, NULL, waits, (void *)n) != 0) return 1;
    sleep(1);
    abort();
}
"""
CRASHES = """
#include <assert.h>
#include <pthread.h>
#include <signal.h>
#include <stdlib.h>
#include <string.h>
#include <unistd.h>
static int (*volatile null)(int);
static int order(const void *x, const void *y) { (void)x; (void)y; abort(); }
static void *wait_for(void *unused) { for (;;) pause(); return unused; }
static void handler(int number) { if (number) abort(); }
__attribute__((noinline)) static int faulty(volatile int *address) { return *address + 1; }
__attribute__((noinline)) static int recurses(volatile int n) { return recurses(n + 1) + 1; }
int main(int count, char **words) {
    pthread_t thread;
    pthread_create(&thread, NULL, wait_for, NULL);
    usleep(50000);
    static char other[1 << 16];
    stack_t stack = {.ss_sp = other, .ss_size = sizeof other};
    struct sigaction action = {.sa_handler = handler, .sa_flags = SA_ONSTACK};
    int values[] = {3, 1, 2};
    if (!strcmp(words[1], "null")) return null(1) + 1;
    if (!strcmp(words[1], "assert")) assert(count == 1);
    if (!strcmp(words[1], "qsort")) qsort(values, 3, sizeof *values, order);
    if (!strcmp(words[1], "overflow")) return recurses(1) + 1;
    if (!strcmp(words[1], "handler")) { sigaltstack(&stack, NULL); sigaction(SIGSEGV, &action, NULL); }
    return faulty((volatile int *)16) + 1;
}
"""
WAYS = ["null", "assert", "qsort", "overflow", "handler", "fault"]
FRAMES = """set backtrace past-main on
python
frame, count = gdb.newest_frame(), 0
while frame is not None and count < 60:
    if frame.type() not in (gdb.INLINE_FRAME, gdb.TAILCALL_FRAME):
        print('frame', '%#018x' % frame.pc())
    frame, count = frame.older(), count + 1
end
"""
# Runs the handler, and writes how long it took and how much memory.
MEASURE = """#!/usr/bin/env python3
import resource, subprocess, sys, time
begun = time.monotonic()
status = subprocess.run(WORDS + sys.argv[1:]).returncode
took = time.monotonic() - begun
with open(sys.argv[0] + ".log", "a") as file:
    used = resource.getrusage(resource.RUSAGE_CHILDREN)
    print(status, took, used.ru_utime + used.ru_stime, used.ru_maxrss, file=file)
"""


@contextlib.contextmanager
def core_pattern(pattern):
    """Sets core_pattern. The kernel waits for a handler."""
    before = PATTERN.read_text(), PIPE_LIMIT.read_text()
    try:
        PATTERN.write_text(pattern)
        PIPE_LIMIT.write_text("0" if pattern[0] != "|" else "200")
        yield
    finally:
        PATTERN.write_text(before[0])
        PIPE_LIMIT.write_text(before[1])


def compiled(folder, name, source):
    (folder / f"{name}.c").write_text(source)
    subprocess.run(["gcc", "-O1", "-g", "-pthread", f"{name}.c", "-o", name], cwd=folder, check=True)
    return folder / name


def crash(words):
    """Runs a program that crashes, with the same addresses each time. Returns how long that took."""
    begun = time.monotonic()
    command = ["setarch", "-R", "sh", "-c", 'ulimit -c unlimited; exec "$@"', "sh", *map(str, words)]
    subprocess.run(command, cwd=words[0].parent, stdout=subprocess.DEVNULL, stderr=subprocess.DEVNULL)
    return time.monotonic() - begun


def frames(text):
    """For each thread the frames: address and how it was found, without the ids and names of threads."""
    threads = [part.splitlines()[1:] for part in re.split(r"^thread ", text, flags=re.MULTILINE)[1:]]
    return [[line for line in thread if line.startswith(("#", "stop", "tail"))] for thread in threads]


def by_gdb(folder, program, core):
    """The addresses of the first frames that gdb finds by unwinding."""
    (folder / "frames.gdb").write_text(FRAMES)
    shown = subprocess.run(["gdb", "--batch", "-x", "frames.gdb", program, core], cwd=folder, capture_output=True, text=True)
    return re.findall(r"^frame (0x[0-9a-f]+)", shown.stdout, re.MULTILINE)


def report_of(folder):
    """The longest report: another program may have crashed meanwhile. It is written after the process was let go."""
    deadline = time.monotonic() + 20
    while not (reports := list((folder / "reports").glob("crash.*"))) and time.monotonic() < deadline:
        time.sleep(0.02)
    text = max((report.read_text() for report in reports), key=len, default="")
    for report in reports:
        report.unlink()
    return text


def compare(program, folder, options):
    crashing = compiled(folder, "crashes", CRASHES)
    different = 0
    for way in WAYS:
        with core_pattern(" ".join([f"|{program} stack --handler %P --output {folder}/reports", *options])):
            crash([crashing, way])
        report = report_of(folder)
        with core_pattern("core"):
            crash([crashing, way])
        core = next(folder.glob("core*"))
        by_core = subprocess.run([program, "stack", core, *options], capture_output=True, text=True).stdout
        theirs, ours = by_gdb(folder, crashing, core), frames(report)
        shown = {line.split()[1] for line in ours[0] if line.startswith("#")} if ours else set()
        missing = [address for address in theirs if address not in shown]
        same = ours == frames(by_core) and ours
        print(f"{way}: threads {len(ours)} frames {sum(map(len, ours))}; as by core file: {'yes' if same else 'NO'}; of gdb's "
              f"{len(theirs)} missing {len(missing)}")
        different += not same or bool(missing)
        core.unlink()
    return different


def measure(program, folder, words):
    # The kernel takes a pattern of at most 127 bytes.
    command = [program, "stack", "--output", f"{folder}/reports", *words.options, "--handler"]
    (folder / "measure").write_text(MEASURE.replace("WORDS", repr(command)))
    (folder / "measure").chmod(0o755)
    crashing = compiled(folder, "threads", MANY_THREADS)
    arguments = [crashing, words.threads, words.gigabytes, words.touched]
    with core_pattern("|/bin/true"):
        alone = crash(arguments)
    with core_pattern(f"|{folder}/measure %P"):
        took = crash(arguments)
    report = report_of(folder)
    runs = [line.split() for line in (folder / "measure.log").read_text().splitlines()]
    status, handler, processor, memory = max(runs, key=lambda run: float(run[1]))
    print(f"threads {len(frames(report))} report {len(report)} bytes; status {status}; handler {float(handler):.3f} s, of a processor "
          f"{float(processor):.3f} s; memory "
          f"{int(memory) / 1024:.1f} MB; the process {took:.3f} s, with a handler that does nothing {alone:.3f} s")


def many(program, folder, count):
    crashing = compiled(folder, "crashes", CRASHES)
    with core_pattern(f"|{program} stack --handler %P --output {folder}/reports --keep 1000"):
        begun = time.monotonic()
        started = [subprocess.Popen([crashing, "qsort"], stderr=subprocess.DEVNULL) for _ in range(count)]
        for one in started:
            one.wait()
        took = time.monotonic() - begun
    reports = [report.read_text() for report in (folder / "reports").glob("crash.*")]
    whole = sum(report.count("\nstop: return undefined") == 2 for report in reports)
    print(f"crashes {count} reports {len(reports)} whole {whole} in {took:.1f} s")
    return whole != count


def main():
    words = argparse.ArgumentParser()
    words.add_argument("program")
    words.add_argument("what", choices=["compare", "time", "many"])
    words.add_argument("--threads", type=int, default=1000)
    words.add_argument("--gigabytes", type=int, default=8)
    words.add_argument("--touched", type=int, default=1000)
    words.add_argument("--count", type=int, default=100)
    words.add_argument("options", nargs="*")
    words = words.parse_args()
    # Also if it is ended from outside, core_pattern is put back.
    signal.signal(signal.SIGTERM, lambda *_: sys.exit(1))
    program = os.path.abspath(words.program)
    with tempfile.TemporaryDirectory(dir="/var/tmp", prefix="h") as name:
        folder = pathlib.Path(name)
        if words.what == "compare":
            return compare(program, folder, words.options)
        if words.what == "many":
            return many(program, folder, words.count)
        return measure(program, folder, words)


if __name__ == "__main__":
    sys.exit(main())
