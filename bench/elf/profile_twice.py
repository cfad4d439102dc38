#!/usr/bin/env python3
"""Writes a recording of perf that has everything twice, to see how time and memory grow.

    bench/elf/profile_twice.py RECORDING OUT [--processes]

The second copy of each record comes after the first ones, as much later as the recording is long. With
--processes its processes and threads have other numbers, so that there are twice as many; without, the
same processes have twice the samples. The recording must be a file of `perf record` with one kind of
samples, not compressed. perf reads what is written as it reads the original.
"""
import argparse
import struct

IP, TID, TIME, ADDR, ID, CPU, STREAM_ID, IDENTIFIER = (1 << bit for bit in (0, 1, 2, 3, 6, 7, 9, 16))
MMAP, COMM, EXIT, FORK, SAMPLE, MMAP2, USER = 1, 3, 4, 7, 9, 10, 64
OF_KERNEL = 0xFFFFFFFF
# How much higher the numbers of the second copy's processes are.
PIDS = 1 << 22


class Copier:
    def __init__(self, parts, later, pids):
        self.later, self.pids = later, pids
        before = [part for part in (IDENTIFIER, IP, TID) if parts & part]
        self.sample_tid = 8 + 8 * (len(before) - 1)
        self.sample_time = self.sample_tid + 8
        after = [part for part in (TID, TIME, ID, STREAM_ID, CPU, IDENTIFIER) if parts & part]
        self.end = 8 * len(after)

    def move_time(self, record, at):
        (time,) = struct.unpack_from("<Q", record, at)
        if time not in (0, (1 << 64) - 1):
            struct.pack_into("<Q", record, at, time + self.later)

    def move_pids(self, record, at, count):
        for place in range(at, at + 4 * count, 4):
            (pid,) = struct.unpack_from("<I", record, place)
            if pid not in (0, OF_KERNEL):
                struct.pack_into("<I", record, place, pid + self.pids)

    def copy(self, record):
        """The second copy of a record. None if it is needed only once."""
        kind, _, size = struct.unpack_from("<IHH", record)
        if kind == SAMPLE:
            self.move_pids(record, self.sample_tid, 2)
            self.move_time(record, self.sample_time)
            return record
        if kind >= USER:
            return record
        if kind in (MMAP, MMAP2, COMM):
            self.move_pids(record, 8, 2)
        elif kind in (EXIT, FORK):
            self.move_pids(record, 8, 4)
            self.move_time(record, 24)
        self.move_pids(record, size - self.end, 2)
        self.move_time(record, size - self.end + 8)
        return record


def main():
    parser = argparse.ArgumentParser(description=__doc__.split("\n\n", maxsplit=1)[0])
    parser.add_argument("recording")
    parser.add_argument("out")
    parser.add_argument("--processes", action="store_true")
    words = parser.parse_args()
    with open(words.recording, "rb") as file:
        whole = file.read()
    attributes, begin, size = (struct.unpack_from("<Q", whole, at)[0] for at in (24, 40, 48))
    (parts,) = struct.unpack_from("<Q", whole, attributes + 24)
    records, at = [], begin
    while at < begin + size:
        (length,) = struct.unpack_from("<H", whole, at + 6)
        records.append((at, length))
        at += length
    one = Copier(parts, 0, 0)
    times = [struct.unpack_from("<Q", whole, at + one.sample_time)[0] for at, _ in records if whole[at] == SAMPLE]
    copier = Copier(parts, max(times) - min(times) + 1_000_000, PIDS if words.processes else 0)
    second = b"".join(copier.copy(bytearray(whole[at:at + length])) for at, length in records)
    header = bytearray(whole[:begin])
    struct.pack_into("<Q", header, 48, size + len(second))
    # Each feature has the offset of its bytes.
    rest = bytearray(whole[begin + size:])
    features = sum(bin(word).count("1") for word in struct.unpack_from("<4Q", whole, 72))
    for place in range(0, 16 * features, 16):
        (offset,) = struct.unpack_from("<Q", rest, place)
        struct.pack_into("<Q", rest, place, offset + len(second))
    with open(words.out, "wb") as out:
        out.write(header + whole[begin:begin + size] + second + rest)


if __name__ == "__main__":
    main()
