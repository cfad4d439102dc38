#!/usr/bin/env python3
"""Runs all tests of this repository. This is `make test`, and the gate `.ci/run`.

    tools/test.py [STAGE]..

First it installs the Debian packages that are missing (tools/packages.sh), and says what the run
will take. Then it runs the stages below, or only those that are named. What needs no proof begins at
once, beside `proofs`; `archive` and `build` begin as soon as `proofs` has proved what they build
from, while wrong bodies are still tried; and what runs the built programs begins after them. Each
stage prints a line when it begins, a line now and then while it runs, and a line with its counts when
it ends. Its whole output goes to build/test/STAGE.log. The last lines say what the run took, and `N passed, M failed`,
the sum of all stages. A test that can't run is a failure, except where the machine forbids perf or
ptrace: then a line that begins with `note:` says what ran instead.

The tests of Rust use Debian's cargo, so that results don't depend on other versions on the machine.
"""
import argparse
import contextlib
import os
import pathlib
import re
import resource
import subprocess
import sys
import threading
import time
from concurrent.futures import ThreadPoolExecutor
from dataclasses import dataclass, field
from typing import Callable

TOP = pathlib.Path(__file__).resolve().parent.parent
BUILD = TOP / "build"
LOGS = BUILD / "test"
# The crates that `rt ci` has proved in this run, a line for each, and at last the line `end`.
PROVED = LOGS / "proved"
# Without debug information the tests are compiled in less time.
RUST = {"DWCHECK_LIB_DIR": str(BUILD), "CARGO_TARGET_DIR": str(BUILD / "cargo-test"), "CARGO_PROFILE_DEV_DEBUG": "0"}
# The crates that the stage `elf` tests. It builds no examples, which the stage `lint` checks.
ELF = "--no-fail-fast -p dwcheck-minidump -p dwcheck-symbols -p dwcheck-debuginfod -p dwcheck-zstd -p dwcheck-lz4 -p dwcheck-store -p dwcheck-package -p dwcheck-elf -p dwcheck-profile -p dwcheck-trace -p dwcheck-command"
# How many seconds a stage may be silent before a line says that it goes on.
SILENCE = 60


@dataclass
class Counts:
    """How many tests passed, what failed, and how many seconds of a processor they took."""

    passed: int = 0
    failed: list = field(default_factory=list)
    seconds: float = 0


@dataclass
class Stage:
    """A part of the tests: a command, how to count in what it prints, which lines tell how far it is,
    and the events for which it waits: `below`, when `rt ci` has proved the crates that the library
    uses; `proved`, when it has proved all that is built; or the end of the stage `proofs`, `archive`,
    `build` or `optimized`."""

    name: str
    what: str
    command: str
    count: Callable[[str], Counts]
    progress: str = r"(?!)"
    after: tuple = ("build",)
    environment: dict = field(default_factory=dict)

    @property
    def log(self):
        return LOGS / f"{self.name}.log"


def counted_by_rt(text):
    """The last line of `rt ci`. Where it says what failed, those are the names."""
    last = re.findall(r"^(\d+) passed, (\d+) failed", text, re.MULTILINE)
    if not last:
        return Counts(0, ["rt ci, which printed no counts"])
    passed, failed = map(int, last[-1])
    names = re.findall(r"^rt: FAILED: (.*)", text, re.MULTILINE)
    return Counts(passed, (names[-1].split() if names else ["rt ci"] * failed)[:failed])


def counted_lines(text):
    """Lines `ok NAME` and `FAILED NAME`."""
    return Counts(len(re.findall(r"^ok .", text, re.MULTILINE)), re.findall(r"^FAILED (.*)", text, re.MULTILINE))


def counted_by_unittest(text):
    """The lines of Python's unittest with `-v`: `test_name (..) ... ok`."""
    return Counts(len(re.findall(r"\.\.\. ok$", text, re.MULTILINE)),
                  re.findall(r"^(\S+) .*\.\.\. (?:FAIL|ERROR|skipped)", text, re.MULTILINE) or re.findall(r"^(\w*Error: .*)", text, re.MULTILINE))


def counted_refusals(text):
    """The lines of bench/stress/refused_memory.py, one for each run that was tried."""
    return Counts(len(re.findall(r"^ *\d+ \w", text, re.MULTILINE)))


def counted_by_cargo(text):
    """The lines of `cargo test`. A test that is ignored counts as a failure."""
    results = re.findall(r"^test result: \w+\. (\d+) passed; (\d+) failed; (\d+) ignored", text, re.MULTILINE)
    failed = re.findall(r"^test (.*?) \.\.\. (?:FAILED|ignored)", text, re.MULTILINE)
    return Counts(sum(int(passed) for passed, _, _ in results), failed)


def counted_pages(text):
    """The lines of bench/pages.py. A session that was left out is a failure."""
    pages = re.findall(r"^(\S+): (\d+) commands, (\d+) differ$", text, re.MULTILINE)
    passed = sum(int(count) - int(differ) for _, count, differ in pages)
    differing = re.findall(r"^(\S+:\d+: .*)", text, re.MULTILINE)
    return Counts(passed, differing + re.findall(r"^(\S+: left out: .*)", text, re.MULTILINE))


def memory():
    """The memory of this machine, in gigabytes."""
    return os.sysconf("SC_PAGE_SIZE") * os.sysconf("SC_PHYS_PAGES") / 1e9


def lanes():
    """How many proofs and wrong bodies `rt ci` tries side by side. By itself it gives one proof
    several processors, which takes more time of a processor in all. A proof takes 3 GB at most."""
    return max(1, min(len(os.sched_getaffinity(0)), int(memory() / 3)))


# Of those that run side by side, the longest come first. What runs beside the proofs of what is built
# yields to them, and they yield to what runs after the build.
STAGES = [
    Stage("proofs", "every proof, the tests in Rattle", "nice -n 5 rt ci", counted_by_rt,
          progress=r"^rt: (\w+(?:: its tests are)? (?:NOT )?proved|\w+(?= is kept))", after=(), environment={"RT_JOBS": str(lanes())}),
    Stage("bodies", "wrong bodies of functions, which the prover must refuse", "nice -n 19 tools/wrong_bodies.py --proved build/test/proved", counted_lines,
          progress="^ok (.*?): ", after=()),
    Stage("lint", "clippy, rustfmt, the heads of files, the manual pages", "nice -n 10 rust/lint.sh; tools/files.py --check; tools/man.py --check",
          counted_lines, progress="^(ok .*)", after=(), environment=RUST),
    Stage("code", "rust/dwcheck-lint and dwcheck-types", "cd rust && nice -n 10 ./cargo.sh test --no-fail-fast -p dwcheck-lint -p dwcheck-types", counted_by_cargo,
          after=(), environment=RUST),
    Stage("archive", "the library for C, which is proved while it is built", "tools/build.sh archive && echo 'ok archive' || echo 'FAILED archive'",
          counted_lines, after=("below",)),
    Stage("build", "the libraries, the program dwcheck, and the manual pages", "make -s but_elf && echo 'ok build' || echo 'FAILED build'",
          counted_lines, progress="^(proving .*)", after=("proved", "archive")),
    Stage("optimized", "the program dwcheck-elf as it is installed", "make -s build/dwcheck-elf && [ -x build/dwcheck-elf ] && echo 'ok optimized' || echo 'FAILED optimized'",
          counted_lines),
    Stage("rust", "rust/dwcheck and its documentation, also under valgrind", "rust/dwcheck/run.sh", counted_by_cargo,
          environment=RUST),
    Stage("pages", "the commands in README.md and docs/", "bench/pages.py build/dwcheck --elf build/dwcheck-elf --slow", counted_pages,
          progress="^(.*): [0-9]+ commands, .*", after=("build", "optimized")),
    Stage("elf", "the program dwcheck-elf and its libraries", f"cd rust && ./cargo.sh test {ELF} --lib --bins --tests && ./cargo.sh test {ELF} --doc",
          counted_by_cargo,
          environment=RUST | {"DWCHECK": str(BUILD / "dwcheck")}),
    Stage("cases", "cases over the program dwcheck", "/usr/bin/python3 tests/dwcheck/run.py build/dwcheck", counted_lines),
    Stage("library", "cases over the library for C", "/usr/bin/python3 tests/library/run.py build/libdwcheck.so.2.0.0", counted_lines),
    Stage("python", "python/dwcheck.py, beside pyelftools", "/usr/bin/python3 python/test_dwcheck.py -v", counted_by_unittest,
          environment={"DWCHECK_LIBRARY": str(BUILD / "libdwcheck.so.2.0.0")}),
    Stage("memory", "each request for memory refused in turn, in tests and in dwcheck",
          "bench/stress/refused_memory.py crates/dw_tests/out/dw_tests_tests build/dwcheck", counted_refusals,
          after=("proofs", "build")),
    Stage("c", "the C library, with sanitizers and valgrind", "c/tests/run.sh", counted_lines, progress="^(ok .*)",
          environment={"LIBRARY": str(BUILD / "libdwcheck.a")}),
    Stage("unwind", "libunwind's own tests and unchanged programs, over the library", "WORK=build/suite bench/unwind/suite.sh build/unwind; bench/unwind/clients.py build/unwind",
          counted_lines, progress="^(ok .*)"),
    Stage("arm64", "what is built for aarch64, under qemu-user", "tests/arm64/run.sh", counted_lines, progress="^(ok .*)"),
    Stage("examples", "frames of the examples beside those of gdb and eu-stack", "examples/run.sh", counted_lines,
          progress="^(ok .*)", after=("build", "optimized"), environment=RUST),
]


class Reporter:
    """Prints lines with the time since the beginning. Stages that run side by side share it."""

    def __init__(self):
        self.begun = time.monotonic()
        self.last = self.begun
        self.lock = threading.Lock()

    def say(self, *lines):
        with self.lock:
            self.last = time.monotonic()
            seconds = int(self.last - self.begun)
            print(f"{seconds // 60:3d}:{seconds % 60:02d} " + "\n       ".join(lines), flush=True)


def environment_of(stage):
    """Debian's programs come first, and a test that would be skipped fails. A `make` in a stage isn't
    part of the `make` that runs this script."""
    own = {name: value for name, value in os.environ.items() if name not in ("MAKEFLAGS", "MAKELEVEL", "MFLAGS")}
    path = os.pathsep.join(["/usr/bin", os.environ["PATH"]])
    return {**own, "PATH": path, "LC_ALL": "C.UTF-8", "DWCHECK_NO_SKIPS": "1", **stage.environment}


def note_proved(name):
    """Says to tools/wrong_bodies.py that a crate is proved, or `end`: that no other will be."""
    with open(PROVED, "a", encoding="utf-8") as file:
        file.write(f"{name}\n")


class Proofs:
    """How far `rt ci` is: which crates are proved, and whether those are that are built."""

    def __init__(self):
        lines = (TOP / "crates.txt").read_text(encoding="utf-8").splitlines()
        self.uses = {words[0]: words[1:] for line in lines if (words := re.findall(r"\w+", line.replace(" staticlib:", ":"))) and line[0] != "#"}
        self.crates, self.proved = set(self.uses), set()
        # The library itself, dwcheck_c, is proved while it is built.
        self.below = self.with_below(self.uses["dwcheck_c"])
        self.built = self.below | self.with_below(["dwcheck"])

    def with_below(self, names):
        """Those of these that are crates here, and all crates that they use, also through others."""
        found, left = set(), list(names)
        while left:
            name = left.pop()
            if name in self.uses and name not in found:
                found.add(name)
                left += self.uses[name]
        return found

    def of_line(self, text):
        """Notes what a line of progress says, and returns what to print for it."""
        name, *words = text.split(None, 1)
        if words and words != ["proved"]:
            return text
        self.proved.add(name)
        note_proved(name)
        return f"{text}{'' if words else ' was proved before'} ({len(self.proved)} of {len(self.crates)} crates)"

    def events(self):
        """The events that have happened."""
        return [name for name, needs in (("below", self.below), ("proved", self.built)) if needs <= self.proved]


def run(stage, reporter, proofs=None, on_event=lambda name: None):
    """Runs a stage's command, and returns its counts. Prints how far it is. If `proofs` is passed, calls
    `on_event` with each event that has happened."""
    events, ended = 0, threading.Event()

    def reassure():
        while not ended.wait(1):
            if time.monotonic() - reporter.last > SILENCE:
                reporter.say(f"{stage.name}: goes on")

    watcher = threading.Thread(target=reassure, daemon=True)
    watcher.start()
    with open(stage.log, "w", encoding="utf-8") as log, subprocess.Popen(
            ["bash", "-c", stage.command], cwd=TOP, env=environment_of(stage), text=True, errors="replace",
            stdin=subprocess.DEVNULL, stdout=subprocess.PIPE, stderr=subprocess.STDOUT) as process:
        for line in process.stdout:
            log.write(line)
            log.flush()
            if found := re.match(stage.progress, line):
                events += 1
                reporter.say(f"{stage.name}: " + (proofs.of_line(found[1]) if proofs else f"{events}. {found[1]}"))
                for name in proofs.events() if proofs else []:
                    on_event(name)
            elif line.startswith("note: the machine "):
                reporter.say(line.rstrip())
        _, status, used = os.wait4(process.pid, 0)
        process.returncode = os.waitstatus_to_exitcode(status)
    ended.set()
    watcher.join()
    counts = stage.count(stage.log.read_text(encoding="utf-8"))
    counts.seconds = used.ru_utime + used.ru_stime
    if process.returncode and not counts.failed:
        counts.failed.append(f"{stage.name}: status {process.returncode}")
    if not counts.passed and not counts.failed:
        counts.failed.append(f"{stage.name}: nothing ran")
    return counts


def show(stage, counts, reporter):
    """Prints the counts of a stage that ended, and for failures their names and the end of the log."""
    lines = [f"{stage.name}: {counts.passed} passed, {len(counts.failed)} failed, {counts.seconds / 60:.1f} minutes of a processor"]
    if counts.failed:
        lines += [f"| {line}" for line in stage.log.read_text(encoding="utf-8").splitlines()[-20:]]
        lines += [f"FAILED {stage.name}: {name}" for name in counts.failed]
        lines.append(f"the whole log: {stage.log.relative_to(TOP)}")
    reporter.say(*lines)


def run_and_show(stage, reporter, **hooks):
    """Runs a stage, prints its counts, and returns them."""
    reporter.say(f"{stage.name}: {stage.what}")
    counts = run(stage, reporter, **hooks)
    show(stage, counts, reporter)
    return counts


def note_what_is_proved():
    """Writes a checksum of what `rt ci` has proved, for tools/build.sh."""
    proved = subprocess.run(["tools/build.sh", "sum"], cwd=TOP, capture_output=True, text=True, check=True)
    (BUILD / "proved").write_text(proved.stdout, encoding="utf-8")


class Event:
    """Something for which stages wait: that it has happened, and whether it went well."""

    def __init__(self):
        self.happened, self.is_well = threading.Event(), False

    def happens(self, is_well=True):
        """Notes how it went. Only the first time counts."""
        if not self.happened.is_set():
            self.is_well = is_well
            self.happened.set()

    def wait(self):
        self.happened.wait()
        return self.is_well


class Gate:
    """Runs stages, each once the events for which it waits have happened."""

    def __init__(self, stages, reporter):
        self.stages, self.reporter = stages, reporter
        self.events = {name: Event() for name in ("below", "proved", "proofs", "archive", "build", "optimized")}
        # What no stage of this run does has been done before.
        for name in self.events.keys() - {stage.name for stage in stages} - {"below", "proved"}:
            self.events[name].happens()
        if self.events["proofs"].is_well:
            self.events["below"].happens()
            self.events["proved"].happens()
        # Most of the time a stage waits for one processor.
        self.places = threading.Semaphore(len(os.sched_getaffinity(0)))

    def on_event(self, name):
        """Notes an event. What is proved, tools/build.sh need not prove once more."""
        if name == "proved" and not self.events[name].happened.is_set():
            note_what_is_proved()
        self.events[name].happens()

    def counts_of(self, stage):
        """Runs a stage, and returns its counts."""
        if stage.name == "proofs":
            return run_and_show(stage, self.reporter, proofs=Proofs(), on_event=self.on_event)
        if stage.name in self.events:
            return run_and_show(stage, self.reporter)
        with self.places:
            return run_and_show(stage, self.reporter)

    def run(self, stage):
        """Runs a stage when its time has come, and returns its counts."""
        failed = [name for name in stage.after if not self.events[name].wait()]
        if failed:
            self.reporter.say(f"{stage.name}: not run, since {failed[0]} failed")
            counts = Counts(0, [stage.name])
        else:
            counts = self.counts_of(stage)
        if stage.name in self.events:
            self.events[stage.name].happens(not counts.failed)
        if stage.name == "proofs":
            self.events["below"].happens(False)
            self.events["proved"].happens(False)
            note_proved("end")
        return counts

    def run_all(self):
        """Returns how many tests passed, and how many failed."""
        with ThreadPoolExecutor(max_workers=len(self.stages)) as pool:
            return total_of(list(pool.map(self.run, self.stages)))


def total_of(results):
    return sum(counts.passed for counts in results), sum(len(counts.failed) for counts in results)


def prepare():
    """Sees that everything is there that the stages need. Otherwise ends with one line that says what
    to do, before anything long has begun."""
    try:
        LOGS.mkdir(parents=True, exist_ok=True)
        PROVED.write_text("", encoding="utf-8")
    except OSError as error:
        sys.exit(f"make test: {error.strerror}: {error.filename}; run it in a clone that you may write to")
    for words in [["tools/kit.sh"], ["tools/packages.sh", "install", "rust", "cargo", "test"]]:
        ready = subprocess.run(words, cwd=TOP, stdin=subprocess.DEVNULL, stderr=subprocess.PIPE, text=True, check=False)
        if ready.returncode:
            sys.exit(f"make test: {ready.stderr.strip()}")


# What the gate takes from nothing, in minutes of a processor, its longest chain of proofs in minutes,
# and what it takes if all is kept (docs/PERFORMANCE.md).
FROM_NOTHING, CHAIN, OVER_KEPT = 190, 45, 15


def forecast():
    """A line that says what the gate will take on this machine."""
    processors, kept = len(os.sched_getaffinity(0)), pathlib.Path(kit()).parent / "rattle-kept"
    clock = max(CHAIN + 10, FROM_NOTHING / processors * 1.2)
    known = len({file.name.split("-")[1] for file in kept.glob("proof-*")}) if os.access(kept, os.R_OK) else 0
    start = f"{processors} processors, {memory():.0f} GB: from nothing, some {clock:.0f} minutes ({FROM_NOTHING} of a processor)"
    if known:
        return f"{start}; this machine has proofs of {known} crates, and if nothing changed since then, some {OVER_KEPT} minutes"
    return f"{start}; nothing was proved on this machine before"


def kit():
    """The folder of the kit."""
    page = subprocess.run(["rt", "doc"], capture_output=True, text=True, check=True).stdout.strip()
    return pathlib.Path(page).parent


def minutes_used():
    """How many minutes of a processor the stages took."""
    used = resource.getrusage(resource.RUSAGE_CHILDREN)
    return round((used.ru_utime + used.ru_stime) / 60)


def forbids_ptrace():
    """Whether gdb can't run programs on this machine. A line then says what that means."""
    words = ["gdb", "-q", "-batch", "-ex", "set startup-with-shell off", "-ex", "starti", "/bin/true"]
    shown = subprocess.run(words, stdin=subprocess.DEVNULL, capture_output=True, text=True, check=False).stdout
    if "Program stopped" in shown:
        return False
    print("note: the machine forbids ptrace: the kernel writes the core files that are compared with eu-stack's frames, "
          "and what gdb would do with running programs is left out", flush=True)
    return True


def main():
    parser = argparse.ArgumentParser(description=__doc__, formatter_class=argparse.RawDescriptionHelpFormatter)
    parser.add_argument("stages", nargs="*", metavar="STAGE", help=", ".join(stage.name for stage in STAGES))
    words = parser.parse_args()
    if unknown := {*words.stages} - {stage.name for stage in STAGES}:
        parser.error(f"no stage {' '.join(sorted(unknown))}")
    prepare()
    if forbids_ptrace():
        os.environ["DWCHECK_NO_PTRACE"] = "1"
    stages = [stage for stage in STAGES if not words.stages or stage.name in words.stages]
    if not words.stages:
        print(forecast(), flush=True)
    if "proofs" not in {stage.name for stage in stages}:
        for name in Proofs().crates:
            note_proved(name)
    reporter = Reporter()
    passed, failed = Gate(stages, reporter).run_all()
    reporter.say(f"took {minutes_used()} minutes of a processor")
    of = f" (only {' '.join(words.stages)}: not the gate)" if words.stages else ""
    print(f"{passed} passed, {failed} failed{of}")
    return 1 if failed else 0


if __name__ == "__main__":
    sys.exit(main())
