#!/usr/bin/env python3
"""Compares the stacks of core files of real programs with those of eu-stack.

    bench/elf/cores.py DWCHECK_ELF [--pid] [--only WORD]

Programs of several languages are started, those of PROGRAMS that are installed. After two seconds,
gdb writes the core file of each, or, where a line of PROGRAMS says `abort`, the kernel does, if it
writes core files into the current folder. The frames of each thread are compared, by their
addresses. For each program a line says how many threads have the same frames, where
dwcheck-elf's go on after the last one of eu-stack, where eu-stack's go on after the last one of
dwcheck-elf, and where they differ; then the threads of the last two kinds are shown. With --pid,
`stack --pid` is also run, three times, on each program before its core is written, and the program
has to run on. The exit status is 1 if a thread of the last two kinds was found, or a program ended.
"""
import argparse
import os
import re
import shutil
import signal
import subprocess
import sys
import tempfile
import time
from collections import Counter

JAVA = """public class Busy {
    static int fib(int n) { return n < 2 ? n : fib(n - 1) + fib(n - 2); }
    public static void main(String[] words) throws Exception {
        Object lock = new Object();
        for (int i = 0; i < 3; i++) new Thread(() -> { for (;;) fib(30); }).start();
        new Thread(() -> { synchronized (lock) { try { lock.wait(); } catch (InterruptedException e) {} } }).start();
        Thread.sleep(100000);
    }
}
"""
GO = """package main
import "time"
//go:noinline
func fib(n int) int { if n < 2 { return n }; return fib(n-1) + fib(n-2) }
func main() { for i := 0; i < 3; i++ { go func() { for { fib(30) } }() }; time.Sleep(100 * time.Second) }
"""
RUST = """use std::thread;
fn fib(n: u32) -> u32 { if n < 2 { n } else { fib(n - 1) + fib(n - 2) } }
fn main() {
    let busy: Vec<_> = (0..3).map(|_| thread::spawn(|| while fib(30) > 1 {})).collect();
    for one in busy { one.join().unwrap(); }
}
"""
OCAML = "let rec fib n = if n < 2 then n else fib (n - 1) + fib (n - 2)\nlet () = while true do ignore (fib 30) done\n"
FORTRAN = """recursive integer function fib(n) result(r)
  integer, intent(in) :: n
  if (n < 2) then
    r = n
  else
    r = fib(n - 1) + fib(n - 2)
  end if
end function
program main
  integer, external :: fib
  do
    if (fib(30) < 0) exit
  end do
end program
"""
PASCAL = """program busy;
function fib(n: longint): longint;
begin
  if n < 2 then fib := n else fib := fib(n - 1) + fib(n - 2);
end;
begin
  while fib(30) > 0 do;
end.
"""
CXX = """#include <algorithm>
#include <thread>
#include <vector>
int main() {
    auto busy = [] { std::vector<int> v(100000); for (;;) { for (auto &x : v) x = rand(); std::sort(v.begin(), v.end()); } };
    std::thread one(busy), other(busy);
    one.join();
}
"""
THREADS = """#include <pthread.h>
#include <unistd.h>
__attribute__((noinline)) static int deep(int n) { volatile int k = n; if (n == 0) for (;;) pause(); return deep(n - 1) + k; }
static void *run(void *n) { deep((long)n % 20); return 0; }
int main(void) { pthread_t t; for (long i = 0; i < 1000; i++) pthread_create(&t, 0, run, (void *)i); for (;;) pause(); }
"""
SOURCES = {"Busy.java": JAVA, "busy.go": GO, "busy.rs": RUST, "busy.ml": OCAML, "busy.f90": FORTRAN, "busy.pas": PASCAL,
           "busy.cc": CXX, "threads.c": THREADS}
# What is compiled first, by the program that is needed for it.
BUILDS = {
    "javac": "javac Busy.java",
    "go": "HOME=$PWD GO111MODULE=off GOTOOLCHAIN=local go build -o busy-go busy.go",
    "rustc": "/usr/bin/rustc -O busy.rs -o busy-rust",
    "ocamlopt": "ocamlfind ocamlopt busy.ml -o busy-ocaml || ocamlopt busy.ml -o busy-ocaml",
    "gfortran": "gfortran -O1 busy.f90 -o busy-fortran",
    "fpc": "fpc -O1 busy.pas -obusy-pascal",
    "g++": "g++ -O2 busy.cc -o busy-cxx -pthread",
    "gcc": "gcc -O1 threads.c -o threads -pthread",
}
PROGRAMS = [
    "sleep 99", "abort sleep 98", "bash -c 'while :; do :; done'", "abort bash -c 'read x'", "dash -c 'read x'",
    "cat", "tail -f /dev/null", "abort python3 -c 'import time; time.sleep(99)'",
    "python3 -c 'import re\nwhile 1: re.sub(\"(a|b)*c\", \"\", \"ab\" * 99)'",
    "python3 -c 'import threading, time\nfor i in range(9): threading.Thread(target=time.sleep, args=(99,)).start()'",
    "perl -e 'sleep 99'", "abort perl -e '$x = \"ab\" x 99; while (1) { $x =~ /(a|b)*c/ }'",
    "node -e 'setInterval(() => 0, 1000)'", "node -e 'const f = n => n < 2 ? n : f(n - 1) + f(n - 2); for (;;) f(30)'",
    "node -e 'const z = require(\"zlib\"); const g = () => z.gzip(Buffer.alloc(9e7), g); g(); g(); g()'",
    "java -cp . Busy", "java -Xint -cp . Busy", "java -XX:+PreserveFramePointer -cp . Busy",
    "./busy-go", "abort ./busy-rust", "./busy-ocaml", "abort ./busy-fortran", "./busy-pascal", "abort ./busy-cxx", "./threads",
    "awk 'BEGIN { while (1) x = x + 1 }'", "abort gzip -c /dev/zero", "xz -c /dev/zero", "bzip2 -c /dev/zero",
    "sha256sum /dev/zero", "abort openssl speed -seconds 60 rsa4096", "openssl speed -seconds 60 sha256", "sort", "find / -name '*zzz'",
    "grep -r zzzz /usr", "sqlite3 :memory: 'with recursive c(x) as (select 1 union all select x + 1 from c) select count(*) from c'",
    "tclsh", "bc", "gdb -q", "abort vim -es", "make -f - ", "top -b -d 60", "ocaml",
    "gcc -O2 -x c++ -S -o /dev/null big.cc", "clang -O2 -x c++ -S -o /dev/null big.cc", "/usr/bin/rustc -O big.rs -o big",
    "curl -s http://127.0.0.1:9/ --retry 99 --retry-all-errors --retry-delay 9", "ssh-agent -D",
    "strace -o /dev/null sleep 99", "perf record -o /dev/null sleep 99",
]
FRAME = re.compile(r"^#\d+ +(0x[0-9a-f]+)(.*)")


def stacks(text):
    """The frames of each thread, as (address, text), without inlined functions."""
    found, frames = {}, None
    for line in text.splitlines():
        words = line.split()
        if words and words[0].lower() in ("thread", "tid"):
            frames = found.setdefault(words[1].strip(":"), [])
        elif frames is not None and (frame := FRAME.match(line)):
            frames.append((int(frame[1], 16), frame[2]))
    return found


def compare(ours, theirs):
    """What is so of a thread: the same, ours longer, theirs longer, or a difference."""
    one, other = [address for address, _ in ours], [address for address, _ in theirs]
    count = min(len(one), len(other))
    if one[:count] != other[:count]:
        return "differ"
    return "same" if len(one) == len(other) else "longer" if len(one) > count else "shorter"


def children(pid):
    """The processes that a process started, itself first."""
    with open(f"/proc/{pid}/task/{pid}/children") as file:
        below = [int(child) for child in file.read().split()]
    return [pid] + [one for child in below for one in children(child)]


def busiest(pid):
    """The process that used most time, of a process and those that it started."""
    def time_of(one):
        with open(f"/proc/{one}/stat") as file:
            words = file.read().rsplit(")", 1)[1].split()
        return int(words[11]) + int(words[12])
    return max(children(pid), key=time_of)


def run(words, folder):
    return subprocess.run(words, cwd=folder, capture_output=True, text=True, errors="replace")


def live(program, pid, folder):
    """Runs `stack --pid` three times. Returns what is wrong, or the longest stop of a thread."""
    longest = 0
    for _ in range(3):
        ran = run([program, "stack", "--json", "--pid", str(pid)], folder)
        if ran.returncode != 0 or "panicked" in ran.stderr:
            return f"status {ran.returncode}: {ran.stderr[-200:]}", 0
        longest = max(longest, int(re.search(r'"longest_stop_us":(\d+)', ran.stdout)[1]))
    time.sleep(0.2)
    try:
        with open(f"/proc/{pid}/status") as file:
            state = re.search(r"State:\s+(\S)", file.read())[1]
    except FileNotFoundError:
        return "it ended", 0
    return (f"its state is {state}" if state in "tTZX" else None), longest


def core_of(words, folder, program, is_live):
    """Starts a program and makes its core file. Returns the program's path, and what is wrong."""
    by_kernel = words.startswith("abort ")
    command = words.removeprefix("abort ")
    start = f"ulimit -c unlimited; exec {command}"
    process = subprocess.Popen(["bash", "-c", start], cwd=folder, stdin=subprocess.PIPE, stdout=subprocess.DEVNULL,
                               stderr=subprocess.DEVNULL, start_new_session=True)
    try:
        time.sleep(2)
        if process.poll() is not None:
            return None, "it ended at once"
        pid = busiest(process.pid)
        path = os.readlink(f"/proc/{pid}/exe")
        wrong = None
        if is_live:
            wrong, longest = live(program, pid, folder)
            print(f"    --pid {pid}: longest stop {longest} us" if not wrong else f"    --pid {pid}: {wrong}")
        if by_kernel:
            os.kill(pid, signal.SIGABRT)
            process.wait(30)
        else:
            run(["gdb", "--batch", "-p", str(pid), "-ex", "gcore core"], folder)
        for name in os.listdir(folder):
            if name.startswith("core."):
                os.rename(os.path.join(folder, name), os.path.join(folder, "core"))
        return path, wrong
    finally:
        try:
            os.killpg(process.pid, signal.SIGKILL)
        except ProcessLookupError:
            pass
        process.wait()


def prepare(folder):
    """Writes the sources, and compiles them with the compilers that are installed."""
    cxx = "".join(f"int f{i}(std::map<int, std::string> &m) {{ m[{i}] = std::to_string({i}); return m.size(); }}\n" for i in range(3000))
    rust = "".join(f"pub fn f{i}(v: &mut Vec<String>) {{ v.push(format!(\"{{}}\", {i})); v.sort(); }}\n" for i in range(3000))
    big = {"big.cc": "#include <map>\n#include <string>\n" + cxx, "big.rs": rust + "fn main() {}\n"}
    for name, source in {**SOURCES, **big}.items():
        with open(os.path.join(folder, name), "w") as file:
            file.write(source)
    for tool, line in BUILDS.items():
        if shutil.which(tool) is not None:
            run(["bash", "-c", line], folder)


def compared(program, command, path, folder):
    """Compares the stacks of the core file of a command. Returns the kind of each thread."""
    ours = run([program, "stack", "--no-inline", "--no-source", "core"], folder)
    theirs = stacks(run(["eu-stack", "--core", "core", "-e", path], folder).stdout)
    found = stacks(ours.stdout)
    kinds = {tid: compare(found.get(tid, []), frames) for tid, frames in theirs.items()}
    counts = Counter(kinds.values())
    print(f"{command[:60]!r}: {dict(counts)} {ours.stderr.strip()[:200]}", flush=True)
    for tid in (tid for tid, kind in kinds.items() if kind in ("shorter", "differ")):
        one, other = found.get(tid, []), theirs[tid]
        at = next((n for n, pair in enumerate(zip(one, other)) if pair[0][0] != pair[1][0]), min(len(one), len(other)))
        for place in range(max(at - 2, 0), at + 3):
            for whose, frames in [("ours", one), ("eu-stack", other)]:
                if place < len(frames):
                    print(f"    {tid} #{place} {whose:8} {frames[place][0]:#x}{frames[place][1][:80]}")
    return counts


def main():
    words = argparse.ArgumentParser()
    words.add_argument("program")
    words.add_argument("--pid", action="store_true")
    words.add_argument("--only", default="")
    words = words.parse_args()
    program = os.path.abspath(words.program)
    folder = tempfile.mkdtemp()
    core = os.path.join(folder, "core")
    prepare(folder)
    cores, wrong, threads = 0, [], Counter()
    for command in PROGRAMS:
        name = command.removeprefix("abort ").split()[0]
        is_there = shutil.which(name) or os.path.exists(os.path.join(folder, name))
        if words.only not in command or not is_there:
            continue
        if os.path.exists(core):
            os.remove(core)
        path, why = core_of(command, folder, program, words.pid)
        wrong += [why] if why else []
        if path is None or not os.path.exists(core):
            print(f"{command[:60]!r}: no core file: {why}")
            continue
        cores += 1
        threads += compared(program, command, path, folder)
    print(f"{cores} cores, threads: {dict(threads)}, wrong: {wrong}")
    shutil.rmtree(folder)
    return 1 if wrong or threads["shorter"] + threads["differ"] > 0 else 0


if __name__ == "__main__":
    sys.exit(main())
