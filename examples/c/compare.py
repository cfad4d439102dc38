"""A script for gdb. It runs the example program `stack` or `crash`, and checks that the frames that the
program prints are those that gdb finds. `stack` is stopped in its function `printed`, `crash` where
it crashes, before its handler runs.

gdb's level 0 is the frame of `printed`, which isn't printed, or of the null pointer that `crash` has called, which
is. The address of frame 0 of `stack` isn't compared, because the
function has run on since it took its registers. gdb says of the outermost frame, `_start`, that its
canonical frame address is 0, so that isn't compared either.
"""
import re
import signal
import sys

import gdb

LINE = re.compile(r"frame (\d+) (0x[0-9a-f]{16})(?: cfa (0x[0-9a-f]{16}))?(?: \S+\+0x[0-9a-f]+)?$")


def cfa_of_selected():
    """The canonical frame address of the selected frame, if gdb knows it. For the outermost frame of aarch64
    it only says that register 30 wasn't saved."""
    try:
        cfa = re.search(r"frame at (0x[0-9a-f]+)", gdb.execute("info frame", to_string=True))
    except gdb.error:
        return None
    return int(cfa.group(1), 16) if cfa else None


def levels(frame):
    """The address and the canonical frame address of each of gdb's frames from this one on.
    Frames of inlined functions are left out, since they aren't on the stack."""
    found = []
    while frame is not None:
        if frame.type() != gdb.INLINE_FRAME:
            frame.select()
            found.append((frame.pc(), cfa_of_selected()))
        frame = frame.older()
    return found


def compare(path, expected, has_run_on):
    """Compares the frames in the file `path` with gdb's. Exits at the first that differs; otherwise
    returns their number."""
    frames = [m.groups() for m in map(LINE.match, open(path)) if m]
    for (number, address, cfa), (pc, at) in zip(frames, expected):
        if int(address, 16) != pc and not (has_run_on and int(number) == 0):
            sys.exit("frame %s: %s, and gdb's is 0x%x" % (number, address, pc))
        if cfa is not None and at and int(cfa, 16) != at:
            sys.exit("frame %s: cfa %s, and gdb's is 0x%x" % (number, cfa, at))
    if len(frames) > len(expected):
        sys.exit("%d frames, and gdb's are %d" % (len(frames), len(expected)))
    print("%d frames are gdb's" % len(frames))
    return len(frames)


try:
    path = gdb.convenience_variable("written").string()
    gdb.execute("set backtrace past-main on")
    gdb.execute("set breakpoint pending on")
    gdb.execute("break printed")
    gdb.execute("run > %s 2>&1" % path)
    has_crashed = int(gdb.parse_and_eval("$_siginfo.si_signo")) == signal.SIGSEGV
    expected = levels(gdb.newest_frame() if has_crashed else gdb.newest_frame().older())
    if has_crashed:
        gdb.execute("continue")
    if compare(path, expected, not has_crashed) < int(gdb.convenience_variable("least")):
        sys.exit("too few frames")
    gdb.execute("kill")
except (SystemExit, gdb.error) as why:
    print(why)
    gdb.execute("quit 1")
