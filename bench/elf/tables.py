#!/usr/bin/env python3
"""Has dwcheck-elf compare the tables of programs that have two or three, in which compilers and assemblers say the same.

    bench/elf/tables.py DWCHECK_ELF FOLDER.. [--sframe AS LD]..

Each file of C in each FOLDER, such as the unpacked sources of Debian's packages zlib and lua5.4, is compiled with its
rows in both `.eh_frame` and `.debug_frame`: by gcc for x86-64, i386, aarch64 and armhf, whose assembler is asked for both,
and by clang for x86-64. A file that a compiler doesn't take is passed over. All objects of a compiler are linked to a
library, too. With --sframe, this assembler and linker, for x86-64 or aarch64, make objects and a library with SFrame; they
may be programs of another release of binutils. A line for each says what `compare` counts, with the findings before it.
The status is 1 if something is found: of libraries with SFrame, ld 2.44 and 2.47.50 have a wrong row for `.plt.got`
(docs/findings/ld-plt-got.md). This needs gcc and clang, and for other machines their gcc.
"""
import argparse
import pathlib
import re
import subprocess
import sys
import tempfile

BOTH = '__asm__(".cfi_sections .eh_frame, .debug_frame");\n'
# The words of each compiler, and the compiler that links.
COMPILERS = {
    "gcc -O2": "gcc",
    "gcc -O0": "gcc",
    "gcc -m32 -O2": "gcc -m32",
    "aarch64-linux-gnu-gcc -O2": "aarch64-linux-gnu-gcc",
    "arm-linux-gnueabihf-gcc -O2": "arm-linux-gnueabihf-gcc",
    "clang -O2 -fforce-dwarf-frame": "gcc",
}
ALWAYS = ["-g", "-w", "-fPIC", "-funwind-tables", "-fasynchronous-unwind-tables"]


def run(words, folder="."):
    """Whether a command succeeds, and what it prints."""
    ran = subprocess.run(words, cwd=folder, capture_output=True, text=True, timeout=300, check=False)
    return ran.returncode == 0, ran.stdout


def objects(compiler, sources, folder):
    """Compiles what a compiler takes."""
    include = [] if compiler.startswith("clang") else ["-include", folder.parent / "both.h"]
    made = []
    for number, source in enumerate(sources):
        made.append(folder / f"{number}-{source.stem}.o")
        if not run([*compiler.split(), *ALWAYS, *include, "-I", source.parent, "-c", source, "-o", made[-1]])[0]:
            made.pop()
    return made


def with_sframe(assembler, linker, sources, folder):
    """Assembles what gcc takes, and links it."""
    machine = "aarch64-linux-gnu-gcc" if run([assembler, "--version"])[1].find("aarch64") > 0 else "gcc"
    made = []
    for number, source in enumerate(sources):
        text, made_one = folder / "a.s", folder / f"{number}-{source.stem}.o"
        is_compiled = run([machine, "-O2", "-w", "-fPIC", "-I", source.parent, "-S", source, "-o", text])[0]
        if is_compiled and run([assembler, "--gsframe", text, "-o", made_one])[0]:
            made.append(made_one)
    (folder / "a.s").unlink(missing_ok=True)
    run([linker, "-shared", "-z", "muldefs", *made, "-o", folder / "all.so"])


def compare(tool, what, folder):
    """Compares the tables of all files in a folder, and prints what is counted. Returns how many findings there are."""
    _, out = run([tool, "compare", "."], folder)
    lines = out.splitlines()
    print(*[line for line in lines if ": different " in line], sep="\n", end="\n" if ": different " in out else "")
    total = re.search(r"^files (\d+) single (\d+) unread (\d+) findings (\d+) .* bytes (\d+)", out, re.M)
    files, single, unread, findings, size = map(int, total.groups()) if total else (0, 0, 1, 0, 0)
    print(f"{what}: files {files} without two tables {single} unread {unread} findings {findings} bytes {size}", flush=True)
    return findings + unread


def main():
    words = argparse.ArgumentParser(description=__doc__, formatter_class=argparse.RawDescriptionHelpFormatter)
    words.add_argument("program")
    words.add_argument("folders", nargs="+", type=pathlib.Path)
    words.add_argument("--sframe", nargs=2, action="append", default=[], metavar=("AS", "LD"))
    words = words.parse_args()
    tool = str(pathlib.Path(words.program).resolve())
    sources = [source for folder in words.folders for source in sorted(folder.resolve().glob("**/*.c"))]
    found = 0
    with tempfile.TemporaryDirectory() as name:
        (pathlib.Path(name) / "both.h").write_text(BOTH)
        for number, (compiler, linker) in enumerate(COMPILERS.items()):
            folder = pathlib.Path(name) / str(number)
            folder.mkdir()
            made = objects(compiler, sources, folder)
            run([*linker.split(), "-shared", "-Wl,-z,muldefs", *made, "-o", folder / "all.so"])
            found += compare(tool, compiler, folder)
        for number, (assembler, linker) in enumerate(words.sframe):
            folder = pathlib.Path(name) / f"sframe{number}"
            folder.mkdir()
            with_sframe(assembler, linker, sources, folder)
            found += compare(tool, f"{assembler} --gsframe", folder)
    return 1 if found else 0


if __name__ == "__main__":
    sys.exit(main())
