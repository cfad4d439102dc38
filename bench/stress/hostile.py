#!/usr/bin/env python3
"""Runs dwcheck with files, arguments and standard outputs that are wrong, missing or too large, and
checks that it ends as docs/OUTPUT.md says.

    bench/stress/hostile.py DWCHECK        a minute

Each run whose exit status, line on standard error or output is different is printed, and then the
exit status is 1. dwcheck reads one sparse file of more than 4 GiB, for which 6 GiB of memory must
be free. With less free memory, that run is left out.
"""
import os
import resource
import shutil
import subprocess
import sys
import tempfile
import threading

TIMES = os.path.join(os.path.dirname(os.path.dirname(os.path.abspath(__file__))), "times")
CIE = "14000000ffffffff04000800017810" + "0c0708900100000000"
FRAME = bytes.fromhex(CIE + "1c0000000000000000100000000000002000000000000000410e108602430d06")
EMPTY_REPORT = "accepted\ncies 0 fdes 0 rows 0\ntables 0 lists 0 expressions 0\n"
ROWS = """\
fde 0x00000018 cie 0x00000000 0x0000000000001000..0x0000000000001020 ra r16
row 0x0000000000001000..0x0000000000001001 cfa=r7+8 r16=[c-8]
row 0x0000000000001001..0x0000000000001004 cfa=r7+16 r6=[c-16] r16=[c-8]
row 0x0000000000001004..0x0000000000001020 cfa=r6+16 r6=[c-16] r16=[c-8]
"""
STATE = """\
reg 6 0x7f00
mem 0x7f00 407f000000000000
mem 0x7f08 2010000000000000
mem 0x7f40 0000000000000000
mem 0x7f48 0020000000000000
"""
FRAMES = """\
frame 0 0x0000000000001010 cfa value 0x0000000000007f10
frame 1 0x0000000000001020 cfa value 0x0000000000007f50
frame 2 0x0000000000002000 none
stop not covered
"""
# A section whose only FDE covers addresses 0 to 0x1f, and whose rules make every return address 7,
# whatever the state file says. So only the limit ends a walk.
ROUND = bytes.fromhex(CIE + "1c0000000000000000000000000000002000000000000000" + "0f013f1410010000")
WALK = ["backtrace", "frame", "0x1010", "state", "9"]
LONGEST = ["backtrace", "round", "0x3", "empty", "65535"]
BAD_LIMITS = ("", "a", "+1", "0x1", " 9", "9 ", "1_0", "65536", "000001", "99999", "9" * 1000)
BAD_STATES = (
    (b"reg 6 0x7f00\r\n", 1), (b"\0", 1), (b"\xff\n", 1), (b"keep 6\nsp 6\n", 2), (b"sp 6\n\nkeep 6\n", 3), (b"keep 65536\n", 1),
    (b"".join(b"keep %d\n" % i for i in range(128)), 128), (b"mem 0xffffffffffffffff 0000\n", 1), (b"mem 0x0 " + b"0" * 99999, 1),
)
TOO_LONG = "refused 61 SectionTooLong {} 0x00000000\n"
CANNOT_WRITE = "dwcheck: cannot write\n"
NO_MEMORY = "dwcheck: out of memory\n"
NOBODY = 65534
SPARSE = 2 ** 32 + 1
wrong = []


def judge(said, found, wanted):
    """Prints how a run ended if it should have ended otherwise. `found` and `wanted` are the
    output, the line on standard error, and the exit status; `said` describes the run."""
    if found != wanted:
        wrong.append(said)
        print(f"{said}\n  wanted {wanted}\n  found  {found}")


def ended(run):
    return run.stdout.decode(errors="replace") if run.stdout else "", run.stderr.decode(errors="replace"), run.returncode


def run(program, words, **how):
    how = {"stdin": subprocess.DEVNULL, "stdout": subprocess.PIPE, "stderr": subprocess.PIPE, "check": False, "timeout": 300, **how}
    return ended(subprocess.run([program, *words], **how))


def try_files(program):
    """Runs with files that can't be read, and with some unusual ones that can."""
    for name in ("missing", "folder", "", "frame/under", "n" * 300, "loop"):
        for words in (
            ["rows", name], ["check", "frame", name], ["unwind", "frame", "0x1000", name], ["eval", "cfa", name, "--state", "missing"],
            ["backtrace", name, "0x1010", "missing", "9"], ["backtrace", "frame", "0x1010", name, "9"],
        ):
            judge(f"{words}", run(program, words), ("", f"dwcheck: cannot read {name}\n", 3))
    locked = {"user": NOBODY} if os.geteuid() == 0 else {}
    judge("no leave to read", run(program, ["rows", "locked"], **locked), ("", "dwcheck: cannot read locked\n", 3))
    judge("the first of two", run(program, ["check", "missing", "folder"]), ("", "dwcheck: cannot read missing\n", 3))
    judge("not hex, and missing", run(program, ["check", "--hex", "frame", "missing"]), ("", "dwcheck: cannot read missing\n", 3))
    judge("not hex", run(program, ["rows", "--hex", "frame"]), ("", "dwcheck: not hex: frame\n", 3))
    judge("a bad argument comes first", run(program, ["row", "missing", "0x"]), ("", "dwcheck: bad argument\n", 2))
    judge("a bad line", run(program, ["unwind", "frame", "0x1000", "frame"]), ("", "dwcheck: state line 1\n", 2))
    for words, text in (
        (["rows", "empty"], ""), (["check", "empty", "/dev/null"], EMPTY_REPORT), (["row", "empty", "0x0"], "none\n"),
        (["eval", "location", "empty"], "empty\nsteps 0 depth 0\n"), (["rows", "frame"], ROWS), (["rows", "./link"], ROWS),
        (["unwind", "frame", "0x0", "empty"], "none\n"), (["locs", "empty", "0x0", "0x0", "0x0"], "no list\n"), (WALK, FRAMES),
        (["backtrace", "empty", "0x0", "/dev/null", "1"], "frame 0 0x0000000000000000 none\nstop limit\n"),
        (["backtrace", "empty", "0x0", "empty", "0"], "stop limit\n"),
    ):
        judge(f"{words}", run(program, words), (text, "", 0))


def try_words(program):
    """Runs with arguments that aren't UTF-8, and with arguments that make no valid command."""
    judge("a word that isn't UTF-8", run(program, ["rows", b"\xff"]), ("", "error: invalid UTF-8 was detected in one or more arguments\n", 2))
    for words in (
        [], ["rows"], ["columns", "frame"], ["rows", "frame", "frame"], ["--help"], ["eval", "foo"], ["backtrace"], ["backtrace", "--help"],
        WALK[:-1], WALK + ["9"], WALK[:-1] + ["-1"], ["backtrace", "frame", "0x1010", "9", "--state", "state"], WALK + [b"\xff"],
    ):
        text, line, status = run(program, words)
        judge(f"words {words}", (text, line != "", status), ("", True, 2))


def try_walks(program):
    """Walks with a wrong argument, state file or section. In most of them several things are wrong,
    and dwcheck must report the one that it checks first."""
    for limit_word in BAD_LIMITS:
        judge(f"a limit {limit_word[:9]!r}", run(program, ["backtrace", "missing", "0x0", "missing", limit_word]), ("", "dwcheck: bad argument\n", 2))
    for address in ("", "0x", "1010", "0X10", "0x" + "0" * 17):
        judge(f"an address {address!r}", run(program, ["backtrace", "missing", address, "missing", "9"]), ("", "dwcheck: bad argument\n", 2))
    judge("both missing", run(program, ["backtrace", "missing", "0x0", "folder", "9"]), ("", "dwcheck: cannot read missing\n", 3))
    judge("not hex, and no state", run(program, ["backtrace", "--hex", "frame", "0x0", "missing", "9"]), ("", "dwcheck: cannot read missing\n", 3))
    judge("not hex, and a bad line", run(program, ["backtrace", "--hex", "frame", "0x0", "frame", "9"]), ("", "dwcheck: not hex: frame\n", 3))
    words = ["backtrace", "--hex", "empty", "0x0", "frame", "9", "--module", "0x0=frame"]
    judge("a module that isn't hex, and a bad line", run(program, words), ("", "dwcheck: not hex: frame\n", 3))
    for state, line in BAD_STATES:
        with open("bad", "wb") as file:
            file.write(state)
        for section in ("frame", "cut"):
            judge(f"a state {state[:20]}", run(program, ["backtrace", section, "0x0", "bad", "9"]), ("", f"dwcheck: state line {line}\n", 2))
    text, line, status = run(program, LONGEST)
    lines = text.splitlines()
    wanted = ["frame 65534 0x0000000000000007 cfa value 0x000000000000000f", "stop limit"]
    judge("the longest walk", (len(lines), lines[-2:], line, status), (65536, wanted, "", 0))


def try_modules(program):
    """Walks with modules whose options are malformed, whose files are missing or refused, and with
    many modules."""
    for options in (
        ["--load", ""], ["--load", "1"], ["--load", "0x" + "0" * 17], ["--addr4", "--load", "0x100000000"], ["--module", "0x10"], ["--module", "0x10="],
        ["--module", "=frame"], ["--module", "10=frame"], ["--addr4", "--module", "0x100000000=frame"], ["--module", "0x0=frame", "--module", "x=frame"],
    ):
        judge(f"{options}", run(program, ["backtrace", *options, "missing", "0x0", "missing", "9"]), ("", "dwcheck: bad argument\n", 2))
    for words in (
        ["rows", "frame", "--load", "0x0"], ["check", "frame", "empty", "--load", "0x0"], ["row", "frame", "0x0", "--module", "0x0=frame"],
        [*WALK, "--load", "0x0", "--load", "0x0"], [*WALK, "--load"], [*WALK, "--module"],
    ):
        text, line, status = run(program, words)
        judge(f"{words}", (text, line != "", status), ("", True, 2))
    judge("no such module", run(program, [*WALK, "--module", "0x0=missing"]), ("", "dwcheck: cannot read missing\n", 3))
    judge("a module that is cut", run(program, [*WALK, "--module", "0x0=cut"]), ("refused 1 Truncated frame 0x0000001c\n", "", 1))
    judge("the first module is named", run(program, ["backtrace", "cut", "0x0", "state", "9", "--module", "0x0=frame"])[2], 1)
    many = [word for place in range(1000) for word in ("--module", f"0x{place:x}000000=frame")]
    judge("1,000 modules", run(program, [*WALK, *many]), (FRAMES, "", 0))
    judge("the last of 1,000", run(program, ["row", "--load", "0xffffffffffffff00", "frame", "0xf10"])[0], ROWS.splitlines(True)[3])
    away = ["backtrace", "--load", "0x1000000", "frame", "0x1010", "state", "9"]
    judge("a second module where the first isn't", run(program, [*away, "--module", "0x0=frame"]), (FRAMES, "", 0))
    judge("a walk with no module there", run(program, away), ("frame 0 0x0000000000001010 none\nstop not covered\n", "", 0))


def try_changed_sections(program):
    """Walks over a section that is cut after any number of bytes, or in which any one byte is
    changed. Each walk must end at once, with an allowed result."""
    for length in range(len(FRAME) + 1):
        with open("changed", "wb") as file:
            file.write(FRAME[:length])
        at = next(at for most, at in ((0, None), (3, 0), (23, 4), (24, None), (27, 24), (55, 28), (56, None)) if length <= most)
        found = run(program, ["backtrace", "changed", "0x1010", "state", "9"], timeout=10)
        text = FRAMES if length == len(FRAME) else "frame 0 0x0000000000001010 none\nstop not covered\n"
        judge(f"{length} bytes", found, (text, "", 0) if at is None else (f"refused 1 Truncated frame 0x{at:08x}\n", "", 1))
    for place in range(len(FRAME)):
        for byte in (0, 0x7f, 0x80, 0xff, FRAME[place] ^ 1):
            with open("changed", "wb") as file:
                file.write(FRAME[:place] + bytes([byte]) + FRAME[place + 1:])
            text, line, status = run(program, ["backtrace", "changed", "0x1010", "state", "9"], timeout=10)
            beginning = {0: "frame 0 0x0000000000001010 ", 1: "refused "}.get(status, "no such end")
            judge(f"byte {place} is {byte}", (text.startswith(beginning), text.endswith("\n"), line), (True, True, ""))


def try_outputs(program, big):
    """Runs whose standard output accepts no bytes, is closed from the start, or is closed while
    dwcheck still writes."""
    with open("/dev/full", "wb") as full:
        judge("/dev/full", run(program, ["rows", "frame"], stdout=full), ("", CANNOT_WRITE, 3))
        judge("/dev/full, for a refusal", run(program, ["rows", "cut"], stdout=full), ("", CANNOT_WRITE, 3))
        judge("/dev/full, for nothing", run(program, ["rows", "empty"], stdout=full), ("", "", 0))
        for words in (WALK, LONGEST, WALK[:-1] + ["0"], ["backtrace", "cut", "0x0", "empty", "9"]):
            judge(f"/dev/full, {words}", run(program, words, stdout=full), ("", CANNOT_WRITE, 3))
        judge("/dev/full, for a bad line", run(program, ["backtrace", "frame", "0x0", "frame", "9"], stdout=full), ("", "dwcheck: state line 1\n", 2))
    closed = {"stdout": None, "preexec_fn": lambda: os.close(1)}
    judge("closed", run(program, ["rows", "frame"], **closed), ("", CANNOT_WRITE, 3))
    judge("closed, for nothing", run(program, ["rows", "empty"], **closed), ("", "", 0))
    judge("closed, for a walk", run(program, WALK, **closed), ("", CANNOT_WRITE, 3))
    mute = {"stderr": None, "preexec_fn": lambda: os.close(2)}
    for words, status in ((["rows", "missing"], 3), (["backtrace", "frame", "0x0", "missing", "9"], 3), (WALK[:-1] + ["a"], 2)):
        quiet = subprocess.run([program, *words], stdin=subprocess.DEVNULL, stdout=subprocess.PIPE, check=False, **mute)
        judge(f"closed standard error, {words}", (quiet.stdout, quiet.returncode), (b"", status))
    for words, beginning in ((["rows", big], b"fde "), (LONGEST, b"frame 0 ")):
        writer = subprocess.Popen([program, *words], stdout=subprocess.PIPE, stderr=subprocess.PIPE)
        first = writer.stdout.readline()
        writer.stdout.close()
        line = writer.stderr.read().decode()
        judge(f"a pipe that is closed after the first line, {words}", (first.startswith(beginning), line, writer.wait()), (True, CANNOT_WRITE, 3))


def feed(name, pieces):
    with open(name, "wb") as pipe:
        for piece in pieces:
            pipe.write(piece)
            pipe.flush()


def try_pipes(program):
    """Runs that read their files from named pipes or standard input, a byte at a time, all at once,
    or without any bytes."""
    for pieces, text in (([FRAME[i:i + 1] for i in range(len(FRAME))], ROWS), ([FRAME], ROWS), ([], "")):
        feeder = threading.Thread(target=feed, args=("pipe", pieces))
        feeder.start()
        judge("a named pipe", run(program, ["rows", "pipe"]), (text, "", 0))
        feeder.join()
    judge("standard input", run(program, ["rows", "/dev/stdin"], stdin=None, input=FRAME), (ROWS, "", 0))
    state = STATE.encode()
    for words, fed, given in (
        (["backtrace", "pipe", "0x1010", "/dev/stdin", "9"], FRAME, state), (["backtrace", "/dev/stdin", "0x1010", "pipe", "9"], state, FRAME),
    ):
        feeder = threading.Thread(target=feed, args=("pipe", [fed[i:i + 1] for i in range(len(fed))]))
        feeder.start()
        judge(f"a pipe and standard input, {words}", run(program, words, stdin=None, input=given), (FRAMES, "", 0))
        feeder.join()


def limit(most):
    return lambda: resource.setrlimit(resource.RLIMIT_AS, (most, most))


def free_memory():
    with open("/proc/meminfo", encoding="ascii") as lines:
        return next(int(line.split()[1]) * 1024 for line in lines if line.startswith("MemAvailable:"))


def try_long_files(program):
    """Runs with files that don't fit into memory, and with one that is longer than a section may
    be."""
    with open("long", "wb") as file:
        file.truncate(2 ** 27)
    for words in (
        ["rows", "long"], ["rows", "--hex", "long"], ["eval", "cfa", "long"], ["rows", "/dev/zero"], ["backtrace", "long", "0x0", "empty", "9"],
        ["backtrace", "frame", "0x0", "long", "9"],
    ):
        judge(f"little memory, {words}", run(program, words, preexec_fn=limit(2 ** 26)), ("", NO_MEMORY, 3))
    if free_memory() < 6 * 2 ** 30:
        print("too little free memory for a file of 4 GiB and one byte")
        return
    with open("sparse", "wb") as file:
        file.truncate(SPARSE)
    for words, place in (
        (["rows", "sparse"], "frame"), (["check", "empty", "sparse"], "lists"), (["eval", "cfa", "sparse"], "expression"),
        (["rows", "/dev/zero"], "frame"), (["backtrace", "sparse", "0x0", "empty", "9"], "frame"),
    ):
        judge(f"{words}", run(program, words, preexec_fn=limit(SPARSE * 9 // 8)), (TOO_LONG.format(place), "", 1))
    os.truncate("sparse", 2 ** 32 - 1)
    judge("the longest section", run(program, ["rows", "sparse"]), ("refused 1 Truncated frame 0x00000004\n", "", 1))


def make_files(folder):
    files = {"frame": FRAME, "cut": FRAME[:30], "empty": b"", "locked": FRAME, "state": STATE.encode(), "round": ROUND}
    for name, content in files.items():
        with open(name, "wb") as file:
            file.write(content)
    os.chmod("locked", 0)
    os.mkdir("folder")
    os.mkfifo("pipe")
    os.symlink("frame", "link")
    os.symlink("loop", "loop")
    os.chmod(folder, 0o755)
    words = [sys.executable, f"{TIMES}/sections.py", "ordinary", "5000"]
    with open("big", "wb") as file:
        subprocess.run(words, stdout=file, check=True)


def main():
    if len(sys.argv) != 2:
        raise SystemExit(__doc__)
    given = os.path.abspath(sys.argv[1])
    with tempfile.TemporaryDirectory() as folder:
        program = shutil.copy(given, f"{folder}/dwcheck")
        os.chdir(folder)
        make_files(folder)
        try_files(program)
        try_words(program)
        try_walks(program)
        try_modules(program)
        try_changed_sections(program)
        try_outputs(program, "big")
        try_pipes(program)
        try_long_files(program)
        os.chdir("/")
    if wrong:
        raise SystemExit(f"{len(wrong)} runs end otherwise")
    print("all runs end as they should")


main()
