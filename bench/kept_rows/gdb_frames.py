"""In gdb: compares the frames that a program has found (own.h) with gdb's, each time that it calls own_stopped.

    gdb -q -batch -x gdb_frames.py --args PROGRAM CALLS 0
"""

import gdb

for setting in ("pagination off", "confirm off", "backtrace past-main on", "backtrace past-entry on", "backtrace limit 1000"):
    gdb.execute("set " + setting)
gdb.execute("handle SIGUSR1 SIGUSR2 nostop noprint pass", to_string=True)
gdb.execute("break own_stopped", to_string=True)
gdb.execute("run", to_string=True)
stops = frames = wrong = 0
while gdb.selected_inferior().pid:
    count = int(gdb.parse_and_eval("*(unsigned long *)&own_count"))
    address = int(gdb.parse_and_eval("(unsigned long)&own_found"))
    found = memoryview(gdb.selected_inferior().read_memory(address, 8 * count)).cast("B").cast("Q").tolist()
    want, frame = [], gdb.newest_frame().older()
    while frame:
        if frame.type() not in (gdb.INLINE_FRAME, gdb.TAILCALL_FRAME):  # frames that aren't on the stack
            want.append(frame.pc())
        frame = frame.older()
    stops += 1
    frames += len(want)
    # gdb's first frame is own_compare, after its call of own_stopped.
    if want[1:] != found[1:]:
        wrong += 1
        if wrong <= 3:
            print("gdb:  ", [hex(a) for a in want[1:]])
            print("found:", [hex(a) for a in found[1:]])
    gdb.execute("continue", to_string=True)
print(f"gdb: {stops} stops, {frames} frames, {wrong} wrong")
gdb.execute(f"quit {int(wrong != 0)}")
