#!/usr/bin/env python3
"""Runs unchanged programs of Debian with their libunwind and with ours in its place, and compares the stacks.

    bench/unwind/clients.py FOLDER [CLIENT ..]     some ten seconds

FOLDER has our libunwind.so.8 (build/unwind). The clients, all if none is named:
    heaptrack   a program of known stacks (work.cc): the folded stacks of all allocations
    heap        gperftools' heap profile of the same program: all stacks with their counts
    cpu         gperftools' profile of a running program: every sample's stack, taken in a signal handler, is complete
    glog        what glog's handler of failures prints when the program crashes
    xvfb        what the X server prints when it crashes
    gstreamer   the stack of an object that isn't freed, by the tracer `leaks`
    strace      the stack of each system call of two programs, by `strace -k`
    perf        what perf script and perf report write for recordings with stacks: those of the tests of dwcheck-elf, and one of
                the program of known stacks, if the machine allows to record
Prints `ok NAME` or `FAILED NAME` for each, and at a failure where the stacks differ; the status is 1 if one failed.
A client that isn't installed fails: heaptrack, google-perftools, libgoogle-glog-dev, xvfb, libgstreamer1.0-0, strace, linux-perf.
"""
import argparse
import os
import pathlib
import re
import shutil
import signal
import struct
import subprocess
import sys
import tempfile
import time

HERE = pathlib.Path(__file__).resolve().parent
RECORDINGS = HERE.parent.parent / "rust/dwcheck-command/tests/recordings"
# Frames of the library itself, and of a program that runs with another libunwind, lie at other addresses; so addresses are
# compared by file and offset, and files are loaded where they were.
FIXED = ["setarch", "-R"]


def words_of(folder, **environment):
    """The words of `env` that set variables for a command alone, and not for what starts it."""
    own = {**environment, "LC_ALL": "C.UTF-8", **({"LD_LIBRARY_PATH": str(folder)} if folder else {})}
    return ["env", "-u", "LD_LIBRARY_PATH"] + [f"{name}={value}" for name, value in own.items()]


def run(command, folder, **environment):
    """What a command prints, with our libraries if a folder is given."""
    done = subprocess.run(FIXED + words_of(folder, **environment) + command, stdout=subprocess.PIPE, stderr=subprocess.STDOUT, text=True,
                          errors="replace", timeout=600, check=False)
    return done.stdout


def build(work, *flags):
    """The program of known stacks."""
    program = pathlib.Path(work) / ("work" + "".join(flags).replace("-", "_"))
    if not program.exists():
        subprocess.run(["g++", "-O2", "-g", *flags[:1], str(HERE / "work.cc"), *flags[1:], "-o", str(program)], check=True)
    return str(program)


def library(name):
    """The path of a shared library by the loader's list."""
    text = subprocess.run(["/sbin/ldconfig", "-p"], stdout=subprocess.PIPE, text=True, check=True).stdout
    found = re.search(rf"^\s*{re.escape(name)} .*=> (\S+)", text, re.MULTILINE)
    if not found:
        raise FileNotFoundError(name)
    return found.group(1)


def places(maps):
    """A function from addresses to files with offsets, by lines of /proc/PID/maps."""
    ranges = []
    for line in maps.splitlines():
        found = re.match(r"([0-9a-f]+)-([0-9a-f]+) \S+ ([0-9a-f]+) \S+ \S+ *(.*)", line)
        if found:
            start, end, offset = (int(word, 16) for word in found.groups()[:3])
            ranges.append((start, end, offset, pathlib.Path(found.group(4)).name))

    def place(address):
        for start, end, offset, name in ranges:
            if start <= address < end:
                return f"{name}+{address - start + offset:#x}"
        return "nowhere"

    return place


def heaptrack(folder, work):
    """The folded stacks of all allocations, with their numbers."""
    out = pathlib.Path(work) / "heaptrack"
    for file in pathlib.Path(work).glob("heaptrack*"):
        file.unlink()
    run(["heaptrack", "-o", str(out), build(work), "allocate"], folder)
    file = next(pathlib.Path(work).glob("heaptrack.*"))
    run(["heaptrack_print", "-F", f"{work}/folded", str(file)], None)
    return sorted(pathlib.Path(f"{work}/folded").read_text(encoding="utf-8").splitlines())


def heap(folder, work):
    """Each stack of the heap profile, by files and offsets, with its counts."""
    for file in pathlib.Path(work).glob("heap.*.heap"):
        file.unlink()
    run([build(work), "allocate"], folder, LD_PRELOAD=library("libtcmalloc.so.4"), HEAPPROFILE=f"{work}/heap")
    text = next(pathlib.Path(work).glob("heap.*.heap")).read_text(encoding="utf-8")
    stacks, maps = text.split("MAPPED_LIBRARIES:")
    place = places(maps)
    return sorted(line.split("@")[0].strip() + " " + " ".join(place(int(word, 16)) for word in line.split("@")[1].split())
                  for line in stacks.splitlines()[1:] if "@" in line)


def cpu(folder, work):
    """Whether each sample's stack begins in compute and ends where the program begins."""
    path = pathlib.Path(work) / "cpu"
    path.unlink(missing_ok=True)
    run([build(work), "compute"], folder, LD_PRELOAD=library("libprofiler.so.0"), CPUPROFILE=str(path), CPUPROFILE_FREQUENCY="1000")
    data = path.read_bytes()
    words = struct.unpack(f"<{len(data) // 8}Q", data[: len(data) // 8 * 8])
    at, samples, whole = 2 + words[1], 0, 0
    while words[at] != 0:
        stack = words[at + 2: at + 2 + words[at + 1]]
        samples += 1
        last = places(data[at:].decode("latin-1"))(stack[-1])
        whole += len(stack) > 5 and last.startswith(pathlib.Path(build(work)).name)
        at += 2 + words[at + 1]
    return [f"complete: {samples > 0 and whole >= 0.99 * samples}"]


def glog(folder, work):
    """The names of the frames that glog prints."""
    text = run([build(work, "-DWITH_GLOG", "-lglog"), "crash"], folder)
    return [line.split(None, 2)[2] for line in text.splitlines() if re.match(r" +@ ", line)]


EPOLL_WAIT = "232 "


def waits_for_clients(server):
    """Whether a process waits in epoll_wait."""
    return pathlib.Path(f"/proc/{server.pid}/syscall").read_text(encoding="utf-8").startswith(EPOLL_WAIT)


def xvfb(folder, work):
    """The frames that the X server prints. It writes its display when it has begun, and then waits for clients."""
    display, written = os.pipe()
    command = ["Xvfb", "-displayfd", str(written), "-screen", "0", "640x480x8", "-nolisten", "tcp"]
    with open(f"{work}/xvfb.log", "w+", encoding="utf-8") as log, open(display, encoding="utf-8") as begun:
        server = subprocess.Popen(FIXED + words_of(folder) + command, stdout=log, stderr=log, pass_fds=[written])
        os.close(written)
        try:
            begun.readline()
            end = time.monotonic() + 60
            while server.poll() is None and not waits_for_clients(server) and time.monotonic() < end:
                time.sleep(0.05)
            server.send_signal(signal.SIGSEGV)
            server.wait(600)
        finally:
            server.kill()
        log.seek(0)
        lines = re.findall(r"^\(EE\) (\d+: .*) \[0x", log.read(), re.MULTILINE)
        return [re.sub(r"(\d+: )\S*/", r"\1", line) for line in lines]


LEAK = """
import ctypes
library = ctypes.CDLL("libgstreamer-1.0.so.0")
library.gst_init(None, None)
library.gst_element_factory_make(b"fakesink", None)
library.gst_deinit()
"""


def gstreamer(folder, work):
    """The frames at which an element was made that isn't freed."""
    text = run(["/usr/bin/python3", "-c", LEAK], folder, GST_DEBUG_NO_COLOR="1", GST_DEBUG="GST_TRACER:7",
               GST_TRACERS="leaks(stack-traces-flags=full)", GST_REGISTRY=f"{work}/registry")
    stacks = re.findall(r"object-alive, [^\n]*trace=\(string\)(.*?)\n;", text, re.DOTALL)
    frames = re.findall(r"^(\S+ \([^()]*\))$", "\n".join(stacks), re.MULTILINE)
    return [re.sub(r":0x[0-9a-f]+", "", line) for line in frames]


def calls_of(text):
    """The system calls that strace shows, each by its name and its frames. Where a shell is when one of its children ends is
    chance, and so is where it returns to from the signal."""
    calls = re.findall(r"^(\w+)\(.*\n((?: > .*\n)*)", text, re.MULTILINE)
    return {name + ":" + frames.replace("\n", "") for name, frames in calls if frames and name != "rt_sigreturn"}


def strace(folder, work):
    """The stacks of two programs; and of a shell and its children, which have other programs at the same addresses."""
    found, follow = set(), "cd / && find usr/share/doc -maxdepth 1 | wc -l && ls | sort"
    for flags, command in ([], [build(work), "allocate"]), ([], ["ls", "-l", "/"]), (["-ff"], ["sh", "-c", follow]):
        for file in pathlib.Path(work).glob("strace*"):
            file.unlink()
        run(["strace", "-E", "LD_LIBRARY_PATH", "-k", *flags, "-o", f"{work}/strace", *command], folder)
        for file in pathlib.Path(work).glob("strace*"):
            found |= calls_of(file.read_text(encoding="utf-8"))
    return sorted(found)


def perf_lines(file, folder, *flags):
    """What perf writes for a recording."""
    script = run(["perf", "script", "--no-inline", *flags, "-i", str(file)], folder)
    report = run(["perf", "report", "--no-inline", "--stdio", "--stdio-color=never", *flags, "-i", str(file)], folder)
    return script.splitlines() + [line for line in report.splitlines() if not line.startswith("# (Tip")]


def perf(folder, work):
    """What perf writes for the recordings that there are."""
    own = pathlib.Path(work) / "own.perf"
    if not own.exists():
        record = ["perf", "record", "-q", "-N", "-e", "cpu-clock:u", "--call-graph", "dwarf", "-o", str(own), build(work), "compute"]
        if run(record, None) and not own.exists():
            print("note: the machine forbids perf to record, so only recordings that there are were read")
    lines = perf_lines(own, folder) if own.exists() else []
    for name in "dwarf", "zstd", "two", "group", "chain":
        lines += perf_lines(RECORDINGS / f"{name}.perf", folder, "--symfs", str(RECORDINGS))
    return lines


CLIENTS = {"heaptrack": heaptrack, "heap": heap, "cpu": cpu, "glog": glog, "xvfb": xvfb, "gstreamer": gstreamer, "strace": strace,
           "perf": perf}


def try_client(name, folder, work):
    """Runs a client twice and compares. Returns whether its stacks are the same."""
    try:
        theirs, ours = CLIENTS[name](None, work), CLIENTS[name](folder, work)
    except (OSError, StopIteration, subprocess.SubprocessError, ValueError, IndexError) as error:
        print(f"FAILED {name}: {error!r}")
        return False
    if not theirs or theirs != ours:
        print(f"FAILED {name}: {len(theirs)} lines with libunwind, {len(ours)} with ours")
        for line in [f"    - {line}" for line in theirs if line not in ours][:8] + [f"    + {line}" for line in ours if line not in theirs][:8]:
            print(line[:400])
        return False
    print(f"ok {name}: {len(ours)} lines are the same")
    return True


def main():
    parser = argparse.ArgumentParser(description=__doc__, formatter_class=argparse.RawDescriptionHelpFormatter)
    parser.add_argument("folder", type=pathlib.Path)
    parser.add_argument("clients", nargs="*", default=list(CLIENTS), metavar="CLIENT")
    arguments = parser.parse_args()
    work = tempfile.mkdtemp()
    results = [try_client(name, arguments.folder.resolve(), work) for name in arguments.clients]
    shutil.rmtree(work)
    sys.exit(0 if all(results) else 1)


if __name__ == "__main__":
    main()
