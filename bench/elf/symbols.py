#!/usr/bin/env python3
"""Has LLDB unwind by symbol files of dwcheck-elf, while the programs are gone.

    bench/elf/symbols.py DWCHECK_ELF [--dump DUMP PROGRAM]..

Programs that crash are compiled with several sets of flags, and LLDB runs each and writes a minidump. LLDB prints the
frames, first with the program in its place; then the program is put aside, and LLDB gets the symbol file alone. The
frames have to be the same: their addresses, and the names and lines of those in the program. Where they differ, gdb runs
the program and decides: if it finds the frames by the symbol file, LLDB is wrong with the program. `dwcheck-elf stack
--symbols` has to find these frames, too. With --dump, the minidump of another program is judged as well, such as one for
aarch64; its program has to be where the dump names it. The last line counts the frames.

This needs lldb-19, gdb, gcc and g++. LLDB reads no registers of i386 in rows (it takes $esp for another one).
"""
import argparse
import os
import re
import struct
import subprocess
import tempfile

C = """
#include <stdlib.h>
#include <string.h>
static inline __attribute__((always_inline)) int inner(volatile int *p) { if (*p > 1) *(volatile int *)8 = 1; return *p; }
__attribute__((noinline)) int leaf(int n) { volatile int kept[40]; kept[0] = n; return inner(kept) + kept[1]; }
__attribute__((noinline)) int grows(int n) { volatile char *p = __builtin_alloca(n * 32 + 16); p[0] = n; return leaf(n) + p[0]; }
__attribute__((noinline)) int saves(int a, int b, int c, int d, int e, int f, int g) {
    int sum = grows(a); for (int i = 0; i < b; i++) sum += c * d + e * f + g * i + leaf(0); return sum;
}
static int order(const void *x, const void *y) { return saves(3, 4, 5, 6, *(int *)x, *(int *)y, 9); }
__attribute__((noinline)) int sorts(int n) { int all[] = {n, 2, 3}; qsort(all, 3, sizeof *all, order); return all[0]; }
__attribute__((noinline)) int deep(int n) { return n ? deep(n - 1) + 1 : sorts(7); }
int main(int argc, char **argv) { return deep(argc + 4) + 1; }
"""

CXX = """
#include <stdexcept>
#include <string>
#include <vector>
namespace space {
template <typename T> struct tree {
    std::vector<T> all;
    __attribute__((noinline)) T leaf(const std::string &name) { if (name.size() > 2) __builtin_trap(); return all[0]; }
    __attribute__((noinline)) T operator()(int n) { std::string name(n + 2, 'x'); return leaf(name) + n; }
};
}
struct base { virtual int called(int n) = 0; virtual ~base() {} };
struct derived : base { int called(int n) override { space::tree<int> one{{1, 2}}; return one(n); } };
__attribute__((noinline)) int catches(base *one, int n) { try { return one->called(n) + 1; } catch (const std::exception &) { return 1; } }
int main(int argc, char **argv) { derived one; return catches(&one, argc) + 1; }
"""

FLAGS = ["-O0", "-O1", "-O2", "-O3 -fno-omit-frame-pointer", "-Os", "-O2 -fcf-protection=full", "-O2 -mno-red-zone -fno-plt",
         "-O2 -fno-pie -no-pie", "-O2 -ffunction-sections -Wl,--gc-sections", "-O2 -Wl,-z,noseparate-code", "-O2 -m64 -mavx2 -mstackrealign"]


def widen(dump, program):
    """Gives the module of a program its whole size. LLDB writes the size of the first segment alone, and then takes
    addresses after it to be in no module, once the program is gone."""
    text = subprocess.run(["readelf", "-lW", program], capture_output=True, text=True).stdout
    loads = [line.split() for line in text.splitlines() if line.split()[:1] == ["LOAD"]]
    size = max(int(load[2], 16) + int(load[5], 16) for load in loads) - min(int(load[2], 16) for load in loads)
    data = bytearray(open(dump, "rb").read())
    count, directory = struct.unpack_from("<II", data, 8)
    streams = [struct.unpack_from("<III", data, directory + 12 * place) for place in range(count)]
    at = next(offset for kind, _, offset in streams if kind == 4)
    for place in range(struct.unpack_from("<I", data, at)[0]):
        entry = at + 4 + 108 * place
        name, = struct.unpack_from("<I", data, entry + 20)
        length, = struct.unpack_from("<I", data, name)
        if data[name + 4:name + 4 + length].decode("utf-16-le").endswith("/" + os.path.basename(program)):
            struct.pack_into("<I", data, entry + 8, size)
    open(dump, "wb").write(data)


def run(words, folder):
    return subprocess.run(words, cwd=folder, capture_output=True, text=True, timeout=300)


def frames(text):
    """The address of each frame that LLDB prints, and its name and line."""
    shown = "\n".join(line for line in text.splitlines() if "[artificial]" not in line)
    found = re.findall(r"frame #\d+: 0x([0-9a-f]+)(?: ([^`]+)`(.*))?", shown)
    return [(int(address, 16), module or "", place or "") for address, module, place in found]


def plain(place):
    """What LLDB prints of a frame, without the values of parameters, columns and options."""
    place = re.sub(r"\s\[(opt|inlined|artificial)\]|:\d+(?=$| )", lambda match: "" if "[" in match[0] else match[0], place)
    # Symbols have what the compiler adds for parts and copies of a function, and debug information doesn't.
    name = re.sub(r"\.(cold|part|isra|constprop)\b[.\d]*", "", re.split(r"[(\[]| at | \+ ", place)[0].strip())
    line = re.search(r" at ([^ :]+:\d+)", place)
    return name, line[1] if line else ""


def real(found):
    """The addresses of frames, but for functions into which others are inlined: LLDB makes these up."""
    outer = [place > 0 and "[inlined]" in found[place - 1][2] for place in range(len(found))]
    return [address for (address, _, _), is_outer in zip(found, outer) if not is_outer]


class Judge:
    def __init__(self, tool, folder):
        self.tool, self.folder = tool, folder
        self.same = self.wrong = self.different = 0

    def lldb(self, dump, more):
        search = "settings set target.exec-search-paths /lib/x86_64-linux-gnu /usr/lib/x86_64-linux-gnu"
        words = ["lldb-19", "-b", "-o", search, "-o", f"target create --core {dump}", *more, "-o", "bt all"]
        return frames(run(words, self.folder).stdout)

    def by_gdb(self, program):
        """The addresses of the frames that gdb shows when it runs the program until it crashes, but for functions into
        which others are inlined."""
        text = run(["gdb", "-q", "-batch", "-ex", "set startup-with-shell off", "-ex", "set backtrace past-main on",
                    "-ex", "set backtrace past-entry on", "-ex", "run", "-ex", "bt", program], self.folder).stdout
        return [int(address, 16) for address in re.findall(r"^#\d+ +0x([0-9a-f]+) in ", text, re.M)]

    def judge(self, name, dump, program):
        """Compares the frames with the program and without it."""
        before = self.lldb(dump, [])
        written = run([self.tool, "symbols", "-o", "store", program], self.folder)
        symbols = os.path.join(self.folder, written.stdout.split(".sym: ")[0] + ".sym")
        os.rename(program, program + ".away")
        try:
            shown = os.path.basename(program)
            after = self.lldb(dump, ["-o", f"target symbols add -s {shown} {symbols}"])
            ours = run([self.tool, "stack", "--no-inline", "--symbols", "store", dump], self.folder).stdout
        finally:
            os.rename(program + ".away", program)
        own = [frame for frame in before if frame[1] == os.path.basename(program)]
        expected = [(address, *plain(place)) if module == os.path.basename(program) else address for address, module, place in before]
        found = [(address, *plain(place)) if module == os.path.basename(program) else address for address, module, place in after]
        addresses = [int(address, 16) for address in re.findall(r"^#\d+ 0x([0-9a-f]+)", ours, re.M)]
        is_same = len(own) > 1 and expected == found
        is_lldb_wrong = not is_same and self.by_gdb(program) == real(after)
        is_same = is_same or is_lldb_wrong
        is_ours = all(address in addresses for address in real(after))
        self.same += len(after) if is_same and is_ours else 0
        self.wrong += 1 if is_lldb_wrong and is_ours else 0
        self.different += 0 if is_same and is_ours else 1
        if not is_same or not is_ours:
            print(f"{name}: LLDB {'agrees' if is_same else 'differs'}, dwcheck-elf {'agrees' if is_ours else 'differs'}")
            print("   with:   ", [(hex(a), *plain(p)) for a, m, p in before])
            print("   without:", [(hex(a), *plain(p)) for a, m, p in after])
            print(ours, written.stderr)
        else:
            wrong = f"; they are gdb's, and LLDB finds {len(before)} others with the program" if is_lldb_wrong else ""
            print(f"{name}: {len(after)} frames, {len(own)} in the program{wrong}", flush=True)


def main():
    arguments = argparse.ArgumentParser(description=__doc__, formatter_class=argparse.RawDescriptionHelpFormatter)
    arguments.add_argument("tool")
    arguments.add_argument("--dump", nargs=2, action="append", default=[])
    arguments = arguments.parse_args()
    with tempfile.TemporaryDirectory() as folder:
        judge = Judge(os.path.abspath(arguments.tool), folder)
        for language, compiler, source in ("c", "gcc", C), ("cc", "g++", CXX):
            for number, flags in enumerate(FLAGS):
                program = os.path.join(folder, f"{language}{number}")
                with open(f"{program}.{language}", "w", encoding="utf-8") as file:
                    file.write(source)
                run([compiler, "-g", *flags.split(), f"{program}.{language}", "-o", program], folder)
                save = f"process save-core --plugin-name=minidump --style=stack {program}.dmp"
                run(["lldb-19", "-b", "-o", "run", "-k", save, "-k", "kill", "--", program], folder)
                widen(f"{program}.dmp", program)
                judge.judge(f"{compiler} {flags}", f"{program}.dmp", program)
        for dump, program in arguments.dump:
            judge.judge(dump, os.path.abspath(dump), os.path.abspath(program))
        print(f"frames {judge.same} stacks that gdb has and LLDB with the program hasn't {judge.wrong} stacks that differ {judge.different}")
    raise SystemExit(judge.different > 0)


if __name__ == "__main__":
    main()
