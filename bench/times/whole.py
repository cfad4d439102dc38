#!/usr/bin/env python3
"""Times `dwcheck check` on a large frame section and a large section of location lists, made from
sections of real programs; and in turn with it, readelf on the frame section alone.

    bench/times/whole.py DWCHECK FRAME_BYTES LISTS_BYTES SECTION ..        some seconds

Each SECTION is raw and little-endian, with addresses of 8 bytes: .debug_loclists if its name ends
with .lists, else .debug_frame. The large frame section has at most FRAME_BYTES, and the large
section of lists at most LISTS_BYTES. They are made of copies of the SECTIONs, until no further copy
fits. In each copy of a frame section, the FDEs have different addresses.
"""
import os
import resource
import struct
import subprocess
import sys
import tempfile
import time

RUNS = 7


def records(section):
    """The offset and the bytes of each CIE and FDE of a frame section."""
    at = 0
    while at < len(section):
        length = 4 + struct.unpack_from("<I", section, at)[0]
        yield at, section[at:at + length]
        at += length


def moved(section, offset, distance):
    """A copy of a frame section, to be put at `offset` of a larger one. The FDEs' CIE_pointers grow
    by `offset`, and their initial locations by `distance`."""
    parts = []
    for _, record in records(section):
        pointer, start = struct.unpack_from("<IQ", record, 4)
        if pointer != 0xFFFFFFFF:
            record = record[:4] + struct.pack("<IQ", pointer + offset, start + distance) + record[16:]
        parts.append(record)
    return b"".join(parts)


def chosen(sections, size):
    """The sections in turn, again and again, without those that don't fit into what is left of
    `size` bytes. It ends when none of them fits."""
    left, place = size, 0
    while any(len(section) <= left for section in sections):
        section = sections[place % len(sections)]
        if len(section) <= left:
            yield section
            left -= len(section)
        place += 1


def frames_of(sections, size):
    made = b""
    for copy, section in enumerate(chosen(sections, size)):
        made += moved(section, len(made), copy << 32)
    return made


def lists_of(sections, size):
    return b"".join(chosen(sections, size))


def seconds_of(words):
    start = time.monotonic()
    subprocess.run(words, stdout=subprocess.DEVNULL, stderr=subprocess.DEVNULL, check=True)
    return time.monotonic() - start


def megabytes_of(words):
    """Runs a command, and returns its peak memory in MB. What is measured is the peak of all child
    processes so far, so no child that needs more memory may run before."""
    subprocess.run(words, stdout=subprocess.DEVNULL, check=True)
    return resource.getrusage(resource.RUSAGE_CHILDREN).ru_maxrss / 1024


def main():
    if len(sys.argv) < 5:
        raise SystemExit(__doc__)
    program, paths = sys.argv[1], sys.argv[4:]
    contents = {path: open(path, "rb").read() for path in paths}
    frames = frames_of([content for path, content in contents.items() if not path.endswith(".lists")], int(sys.argv[2]))
    lists = lists_of([content for path, content in contents.items() if path.endswith(".lists")], int(sys.argv[3]))
    with tempfile.TemporaryDirectory() as folder:
        names = [os.path.join(folder, name) for name in ("frame", "lists", "empty.o", "whole.o")]
        for name, content in zip(names, (frames, lists)):
            with open(name, "wb") as file:
                file.write(content)
        check = [program, "check", *names[:2]]
        memory = megabytes_of(check)
        report = subprocess.run(check, stdout=subprocess.PIPE, check=True).stdout
        subprocess.run(["as", "-o", names[2], "/dev/null"], check=True)
        subprocess.run(["objcopy", "--add-section", f".debug_frame={names[0]}", *names[2:]], check=True)
        readelf = ["readelf", "--debug-dump=frames-interp", names[3]]
        both = [(seconds_of(check), seconds_of(readelf)) for _ in range(RUNS)]
    files = len(frames) + len(lists)
    print(f"{len(frames):,} bytes of frames, {len(lists):,} of lists, {report.count(10):,} lines of report")
    print(report.split(b"\nexpr")[0].decode())
    print(f"memory {memory:.1f} MB, {memory * 1048576 / files:.2f} times the files")
    for place, name in enumerate(("dwcheck check", "readelf")):
        times = sorted(run[place] for run in both)
        print(f"{name}: {times[0]:.3f} s at least, {times[len(times) // 2]:.3f} s in the middle of {RUNS}")


if __name__ == "__main__":
    main()
