#!/usr/bin/env python3
"""Runs the program DWCHECK for each case of the files FILE, or of all files *.cases in this folder,
and compares its standard output, its status and its standard error with what the case says. Prints
a line `ok FILE:LINE WHAT` or `FAILED FILE:LINE WHAT` for each case, and after the latter a diff.
The status is 1 if a case failed. All cases take some ten seconds.

A paragraph is a case: a sentence that says what holds, the command line, its files, and what the
command prints. Lines that begin with `# ` are comments, and a line that ends with a backslash goes
on in the next one.

    The second row of a function begins after its push.
    $ dwcheck row --hex f 0x1001
    f: {FUNCTION}
    row 0x0000000000001001..0x0000000000001004 cfa=r7+16 r6=[c-16] r16=[c-8]

A file that isn't given doesn't exist. In a file `/` stands for a newline, `-` alone for an empty
file. In files and words \\t, \\r and \\xff are as in Python. What is printed goes to standard output,
and the status is 0, or 1 for `refused ..`. But for these lines there is no standard output:

    dwcheck: ..         all of standard error; the status is 2 for `bad argument` and `state line N`,
                        otherwise 3
    stderr has: TEXT    TEXT is somewhere in standard error; the status is 2

A paragraph with several command lines is a case for each of them. After a line such as
`f | s: outcome` each line is a case: the contents of the files f and s, and what the command prints,
in which `/` stands for the end of a line. Files that all these cases have are given before; in them
{x} stands for what each line has for x, if x isn't itself a file of the command. After
`e: outcome | outcome` each line says what each of the two commands prints.

    A sum of two literals, with addresses of eight and of four bytes.
    $ dwcheck eval location --hex e
    $ dwcheck eval --addr4 location --hex e
    e: outcome | outcome
    32 33 22: address 0x0000000000000005/steps 3 depth 2 | address 0x00000005/steps 3 depth 2

In braces there is a name of the file `parts`, or one of these:

    {32 x 9300}                           32 times 9300
    {keep #/ for # in 0..126}             the text with each number from 0 to 126 in place of #
    {07## for ## in 0..127}               the same with two hex digits
    {28#### for #### in 3996..0 by -4}    with two bytes in little-endian order, in steps of -4
    {record {BODY}}                       BODY's length as a number of four bytes, and BODY
    {FUNCTION, cut to 23}                 the first 23 bytes of FUNCTION
    {FUNCTION, cut to 4..23}              in a line of several: a case for each of these lengths
    {FUNCTION, byte 9 changed to 7a}      FUNCTION with another byte at offset 9
"""
import argparse
import difflib
import os
import re
import shlex
import subprocess
import sys
import tempfile
from concurrent.futures import ThreadPoolExecutor
from pathlib import Path
from typing import NamedTuple

HERE = Path(__file__).resolve().parent
TABLE = re.compile(r"(\S+(?: \| \S+)*): outcome((?: \| outcome)*)")
SECONDS = 60


class Case(NamedTuple):
    """A run of the program, and what it must print."""
    place: str
    what: str
    words: list
    files: dict
    outcome: str

    def __str__(self):
        return f"{self.place} {self.what} ({shlex.join(self.words)})"


def digits(text):
    """Hex text without spaces."""
    return text.replace(" ", "")


def counted(text, mark, first, last, step):
    """The text for each number, which takes the place of the mark."""
    step = int(step or 1)
    numbers = range(int(first), int(last) + step // abs(step), step)
    return "".join(text.replace(mark, str(n) if mark == "#" else n.to_bytes(len(mark) // 2, "little").hex())
                   for n in numbers)


def changed(text, at, byte):
    """Hex text with another byte at the offset."""
    found = re.fullmatch(rf"(\w{{{2 * int(at)}}})\w\w(\w*)", digits(text))
    return found[1] + byte + found[2]


# What can be in braces, and the function that gives the text for it.
DIRECTIVES = [
    (r"(.*), cut to (\d+)", lambda text, length: digits(text)[:2 * int(length)]),
    (r"(.*), byte (\d+) changed to (\w\w)", changed),
    (r"record (.*)", lambda body: (len(digits(body)) // 2).to_bytes(4, "little").hex() + " " + body),
    (r"(.*) for (#+) in (\d+)\.\.(\d+)(?: by (-?\d+))?", counted),
    (r"(\d+) x (.*)", lambda count, text: int(count) * text),
]


def meaning(inner, parts):
    """What braces with this text in them stand for."""
    if inner in parts:
        return parts[inner]
    for pattern, text_for in DIRECTIVES:
        if found := re.fullmatch(pattern, inner):
            return text_for(parts.get(found[1], found[1]), *found.groups()[1:])
    raise ValueError(f"{{{inner}}} has no meaning")


def expanded(text, parts):
    """The text with what its braces stand for, the innermost first."""
    while found := re.search(r"\{([^{}]*)\}", text):
        text = text[:found.start()] + meaning(found[1], parts) + text[found.end():]
    return text


def with_lines(text, parts):
    """What the text stands for, with a newline for each `/`."""
    return expanded(text, parts).replace("/", "\n")


def bytes_of(text):
    """The bytes of a text, with one for each escape such as \\xff."""
    return text.encode("ascii").decode("unicode_escape").encode("latin-1")


def content_of(text, parts):
    """The bytes of the file that the text stands for."""
    return b"" if text == "-" else bytes_of(with_lines(text, parts))


def names_in(command):
    """What can be the name of a file in a command line: a word, or what comes after a `=` in it."""
    words = shlex.split(command)[1:]
    return {word[at:] for word in words for at in range(len(word)) if at == 0 or word[at - 1] == "="}


def lines_of(path):
    """The lines of a file but for comments, each with its number. Lines that go on are joined."""
    number = 1
    for line in re.split(r"(?<!\\)\n", path.read_text(encoding="ascii")):
        if not line.startswith("# "):
            yield number, line.replace("\\\n", "")
        number += line.count("\n") + 1


def read_parts(path):
    """The texts of the file `parts`, by their names."""
    parts = {}
    for _, line in lines_of(path):
        if line:
            name, text = line.split(" = ", 1)
            parts[name] = expanded(text, parts)
    return parts


def each_length(line):
    """The line, or if it cuts a file to several lengths, a line for each of them."""
    bounds = re.search(r", cut to (\d+)\.\.(\d+)\}", line)
    if not bounds:
        return [line]
    return [line.replace(bounds[0], f", cut to {n}}}") for n in range(int(bounds[1]), int(bounds[2]) + 1)]


def table_cases(place, what, commands, shared, header, line, parts):
    """The cases of a line of a table: its columns, and what each command prints."""
    contents, outcome = line.split(": ", 1)
    columns = ["" if text == "-" else text for text in contents.split(" | ")]
    columns = dict(zip(header[1].split(" | "), columns, strict=True))
    outcomes = outcome.split(" | ") if header[2] else len(commands) * [outcome]
    for command, printed in zip(commands, outcomes, strict=True):
        texts = shared | {name: text for name, text in columns.items() if name in names_in(command)}
        files = {name: content_of(text, parts | columns) for name, text in texts.items()}
        yield Case(place, f"{what} {contents[:60]}", shlex.split(command), files, with_lines(printed, parts))


def paragraph_cases(path, lines, parts):
    """The cases of a paragraph, whose lines come with their numbers."""
    first = [line.startswith("$ ") for _, line in lines].index(True)
    what = " ".join(line for _, line in lines[:first])
    commands = [(number, line[2:]) for number, line in lines if line.startswith("$ ")]
    rest = lines[first + len(commands):]
    names = set().union(*(names_in(command) for _, command in commands))
    shared = {}
    while rest and not TABLE.fullmatch(rest[0][1]) and rest[0][1].split(": ")[0] in names:
        name, shared[name] = rest.pop(0)[1].split(": ", 1)
    if rest and (header := TABLE.fullmatch(rest[0][1])):
        for number, whole in rest[1:]:
            for line in each_length(whole):
                yield from table_cases(f"{path.name}:{number}", what, [it for _, it in commands], shared, header, line, parts)
        return
    files = {name: content_of(text, parts) for name, text in shared.items()}
    for number, command in commands:
        printed = with_lines("\n".join(line for _, line in rest), parts)
        yield Case(f"{path.name}:{number}", what, shlex.split(command), files, printed)


def cases_of(path, parts):
    """The cases of a file."""
    paragraph = []
    for number, line in [*lines_of(path), (0, "")]:
        if line:
            paragraph.append((number, line))
        elif paragraph:
            try:
                yield from paragraph_cases(path, paragraph, parts)
            except (ValueError, TypeError) as error:
                sys.exit(f"{path}:{paragraph[0][0]}: not a case: {error}")
            paragraph = []


def wanted(outcome):
    """The standard output, the status and the standard error that a case wants."""
    if outcome.startswith("dwcheck: "):
        return "", 2 if re.match("dwcheck: (bad argument|state line)", outcome) else 3, outcome + "\n"
    if outcome.startswith("stderr has: "):
        return "", 2, outcome
    return outcome + "\n" if outcome else "", 1 if outcome.startswith("refused ") else 0, ""


def found(program, case):
    """The standard output, the status and the standard error of a case's run."""
    with tempfile.TemporaryDirectory() as folder:
        for name, content in case.files.items():
            Path(folder, name).write_bytes(content)
        words = [bytes_of(word) for word in case.words]
        try:
            ran = subprocess.run(words, executable=program, cwd=folder, stdin=subprocess.DEVNULL, capture_output=True,
                                 encoding="utf-8", errors="replace", timeout=SECONDS, check=False)
        except subprocess.TimeoutExpired:
            return "", f"missing: it ran for {SECONDS} s", ""
    has = case.outcome.startswith("stderr has: ") and case.outcome.removeprefix("stderr has: ") in ran.stderr
    return ran.stdout, ran.returncode, case.outcome if has else ran.stderr


def verdict(program, case):
    """The lines to print for a case. The first says whether it passed."""
    ends = wanted(case.outcome), found(program, case)
    if ends[0] == ends[1]:
        return [f"ok {case}"]
    texts = [[*output.split("\n"), f"status {status}", *error.split("\n")] for output, status, error in ends]
    return [f"FAILED {case}", *("    " + line for line in difflib.unified_diff(*texts, "wanted", "found", lineterm=""))]


def main():
    """Runs the cases, and returns the status."""
    parser = argparse.ArgumentParser(description=__doc__, formatter_class=argparse.RawDescriptionHelpFormatter)
    parser.add_argument("program", metavar="DWCHECK", type=Path)
    parser.add_argument("files", metavar="FILE", type=Path, nargs="*")
    arguments = parser.parse_args()
    program = arguments.program.resolve(strict=True)
    parts = read_parts(HERE / "parts")
    cases = [case for path in arguments.files or sorted(HERE.glob("*.cases")) for case in cases_of(path, parts)]
    with ThreadPoolExecutor(os.cpu_count()) as pool:
        verdicts = list(pool.map(lambda case: verdict(program, case), cases))
    print(*(line for lines in verdicts for line in lines), sep="\n")
    return int(any(lines[0].startswith("FAILED") for lines in verdicts))


if __name__ == "__main__":
    sys.exit(main())
