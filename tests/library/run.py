#!/usr/bin/env python3
"""Makes the calls of the files FILE, or of all files *.cases in this folder, over the C library
LIBRARY (build/libdwcheck.so.2.0.0), and compares what they give. Prints a line `ok FILE:LINE WHAT` or
`FAILED FILE:LINE WHAT: IT GAVE` for each case. The status is 1 if a case failed.

    tests/library/run.py LIBRARY [FILE]..

A line `CALL WORDS: ANSWER` is a case. The lines of a paragraph are made one after the other with the
same process, state and settings; the next paragraph begins anew. Lines that begin with `#` are
comments. A line that ends with a backslash goes on in the next one.

    NAME = BYTES           the bytes of a section, for this file from here on; those of the file
                           `parts` are known everywhere
    big, addr4, aarch64    settings: the byte order, the address size, the instructions of .eh_frame
    leave_out              a setting: bad records of .eh_frame are left out
    eh ADDRESS             sections are .eh_frame, at this address as linked
    text ADDRESS, data ADDRESS   what pointers relative to text and to data count from
    reg N VALUE, mem ADDRESS BYTES, keep N.., sp N   the state, as in state files
    cfa VALUE, frame_base VALUE, object VALUE   the context of expressions

BYTES are hex digits, names, `u32(NUMBER)` and the like (little-endian, of 8, 32 or 64 bits), and what
is repeated: `{ BYTES for i in 0..9 }`. NAME[8] is a name's first 8 bytes, NAME[8=ff] NAME with another
byte at offset 8. Numbers may be sums, differences and products, also with i.

    check FRAME LISTS      both sections are `accepted`, or the first fault: frame 9 NoSuchCie 28
    contents FRAME         how many CIEs, FDEs, rows and expressions it has, or its fault
    left_out FRAME [N]     how many records are left out, and the first N, each with its offset and its fault
    records FRAME          its records, each with its offset and the bounds of its program, and the fault
    record FRAME OFFSET    the record there
    prefixes FRAME N M     the fault of the first record that can't be read, of the first N up to M bytes
    cuts FRAME OFFSET LOW FIELDS..   `each field` if a record is truncated at each of its fields when its
                           body ends there: LOW is the offset in the record of its length's lowest byte,
                           FIELDS where the length and each field end
    add FRAME [load=N] [first=N last=N] [cookie=N] [room=N]   the id of the module, or why it isn't added
    add_both FRAME EH_FRAME [load=N] [first=N last=N] [cookie=N] [room=N] [eh_room=N]   the same with both sections
    least_room FRAME N     the least room, of those below N, with which a module is added
    remove ID, close       whether there was such a module
    share, use_shared      `share` makes a second process, to which `use_shared` turns
    modules                the ids of the modules that can be removed, which removes them
    row ADDRESS            the row of an address, as `dwcheck row` writes its CFA and its rules, or none
    rows ADDRESS..         where the row of each address begins and ends, or -
    place ADDRESS          the id, cookie and load address of its module, and its return address register
    module ADDRESS         the id, cookie, load address and range of the module that answers for it
    signal ADDRESS..       whether each address is in a signal frame
    spans ADDRESS COUNT    the rows of the addresses from there on: where each begins and ends, its return
                           address register, and the offset of its CFA; how many follow that differ by the
                           same four numbers
    caller ADDRESS         the CFA, the registers and the return address of a frame's caller
    abi KEPT [SP]          whether an ABI is accepted; KEPT is 6,7 or 0..127 or 0*128 or -
    walk ADDRESS LIMIT     the frames and why they end
    evaluate KIND EXPR     what an expression comes to, or its fault; KIND is cfa, register or location
    expressions FRAME LISTS   the expressions of two sections, each with its operations and depth
    locations LISTS LIST BASE ADDRESS   the offsets of the expressions that apply
    changes FRAME LISTS    `consistent` if each prefix of the one that isn't empty, and each change of one
                           byte, is refused inside the section, or accepted with rows or lists that agree
"""
import argparse
import os
import re
import sys
from pathlib import Path

from notation import Bytes, lines_of

HERE = Path(__file__).resolve().parent


def case_of(line):
    """The call, its words and the answer, if the line is a case."""
    found = re.fullmatch(r"([a-z_]+)((?: [^:]*)?): (.*)", line)
    return (found[1], found[2].split(), found[3]) if found else None


def run_file(file, names, session_of):
    """Runs the cases of a file. Returns how many failed."""
    known, session, failed = Bytes(names), session_of(), 0
    for number, line in lines_of(file):
        if not line:
            session = session_of()
        elif line.startswith("#"):
            pass
        elif definition := re.fullmatch(r"([A-Z][A-Z0-9_]*) = (.*)", line):
            known.define(*definition.groups())
        elif case := case_of(line):
            failed += run_case(f"{file.name}:{number}", session, known, *case)
        else:
            session.setting(*line.split(), known=known)
    return failed


def run_case(place, session, known, call, words, answer):
    """Makes a call, and prints whether it gives the answer. Returns how many failed."""
    what = " ".join([call, *words])
    try:
        found = getattr(session, f"call_{call}")(known, *words)
    except Exception as error:  # the case fails, and the others are still run
        found = f"{type(error).__name__}: {error}"
    if found == answer:
        print("ok", place, what)
        return 0
    print("FAILED", place, f"{what}: it gave {found}", flush=True)
    return 1


def parts():
    """The bytes that the file `parts` names."""
    known = Bytes({})
    for _, line in lines_of(HERE / "parts"):
        if line and not line.startswith("#"):
            known.define(*line.split(" = "))
    return known.names


def main():
    parser = argparse.ArgumentParser(description=__doc__, formatter_class=argparse.RawDescriptionHelpFormatter)
    parser.add_argument("library", metavar="LIBRARY")
    parser.add_argument("files", metavar="FILE", nargs="*", type=Path)
    words = parser.parse_args()
    os.environ["DWCHECK_LIBRARY"] = str(Path(words.library).resolve())
    sys.path.insert(0, str(HERE.parent.parent / "python"))
    from session import Session  # it loads the library
    names = parts()
    failed = sum(run_file(file, names, Session) for file in words.files or sorted(HERE.glob("*.cases")))
    return 1 if failed else 0


if __name__ == "__main__":
    sys.exit(main())
