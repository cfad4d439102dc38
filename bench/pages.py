#!/usr/bin/env python3
"""Runs each command that the documentation shows, and compares its output with what the page shows.

    bench/pages.py DWCHECK [--elf DWCHECK_ELF] [--slow] [--write] [PAGE]..

A PAGE is a Markdown file. If none is given, all pages with sessions are taken from the top of the
repository, docs/, man/, rust/dwcheck-elf/ and tools/. A session is an indented block with lines
that begin with `$ `, which are commands; a command that ends with a backslash continues in the next
line. All sessions of a page run in one shell, in a folder that is empty at first. DWCHECK and
DWCHECK_ELF are on the PATH as dwcheck and dwcheck-elf, and $REPO is the path of this repository.
All differences are shown, and if there are any, the exit status is 1. Without --slow this takes
less than a minute.

    $ cat FILE          if FILE doesn't exist yet, it is first written with what the page shows
    ...                 this line stands for any number of lines of output
    <!-- needs: W.. --> sessions from here to the next heading are left out if one of the programs W
                        isn't installed
    <!-- slow -->       sessions from here to the next heading run in the repository, and only with
                        --slow, because they take a minute or more
    ```c                a block that begins with `#include <dwcheck.h>` is compiled, not run

Sessions with dwcheck-elf are left out without --elf. So are sessions in which perf records if the
machine forbids that, and those in which gdb runs a program if the machine forbids ptrace; a line
`note: the machine ..` then says so. Addresses of stacks and libraries, and counts that perf gives,
differ from run to run; they aren't compared (see VARYING). --write replaces the output in the pages
by what the commands wrote, where it differs. Read the changes before you commit them.

The output depends on compilers. The pages show the output on Debian 12 with these packages: gcc
binutils gdb linux-perf.
"""
import argparse
import functools
import os
import re
import shutil
import subprocess
import sys
import tempfile

TOP = os.path.dirname(os.path.dirname(os.path.abspath(__file__)))
INDENT = "    "
ELF = "dwcheck-elf"
# The path that the pages show instead of the path of the folder in which sessions run.
SHOWN_FOLDER = "/home/user/session"
# Words that differ from run to run, in this order: addresses of stacks and libraries of x86-64
# programs; stack addresses of Go programs; addresses of aarch64 and of arm programs under qemu;
# numbers of threads; and counts that depend on what perf recorded.
VARYING = re.compile(r"0x(0*7f[0-9a-f]{9,10}|0*c000[0-9a-f]{6}|0*5502[0-9a-f]{6}|3[ef][0-9a-f]{6})\b"
                     r"|(?<=thread )[0-9]+|\b[0-9]+(?= (?:samples|frames|of which perf|stop not))")


class Command:
    """A command, the output that the page shows for it, and the lines of the page where that
    output begins and ends."""

    def __init__(self, text, begin):
        self.text, self.begin, self.wanted = text, begin, []

    @property
    def end(self):
        return self.begin + len(self.wanted)


class Session:
    """A session: the commands of one block, the heading above the block, the programs that the
    commands need, and whether the page marks it as slow."""

    def __init__(self, heading, needs, is_slow):
        self.heading, self.needs, self.is_slow, self.commands = heading, needs, is_slow, []

    def all_needs(self):
        """The programs that the session needs: those that the page lists, and dwcheck-elf and gdb if
        a command begins with it."""
        used = [word for word in (ELF, "gdb") if any(command.text.startswith(word + " ") for command in self.commands)]
        return self.needs + used

    def why_not(self, is_slow):
        """Why the session isn't run, or nothing if it is."""
        if missing := [it for it in self.all_needs() if shutil.which(it) is None]:
            return "no " + " ".join(missing)
        if forbidden := [it for it in self.all_needs() if is_forbidden(it)]:
            return "the machine forbids what these programs do: " + " ".join(forbidden)
        return "slow" if self.is_slow and not is_slow else ""


def sessions(lines):
    """The sessions in the lines of a page. A session's block ends before the next line that is
    neither indented nor empty."""
    heading, needs, is_slow, session, goes_on = "", [], False, None, False
    for number, line in enumerate(lines):
        if not line.startswith(INDENT):
            if line.strip():
                session = None
            if line.startswith("#"):
                heading, needs, is_slow = line.strip("# "), [], False
            elif line.startswith("<!-- needs: "):
                needs = line[len("<!-- needs: "):].removesuffix(" -->").split()
            elif line == "<!-- slow -->":
                is_slow = True
            continue
        text = line[len(INDENT):]
        if goes_on:
            session.commands[-1].text += "\n" + text
            session.commands[-1].begin = number + 1
        elif text.startswith("$ "):
            if session is None:
                session = Session(heading, needs, is_slow)
                yield session
            session.commands.append(Command(text[2:], number + 1))
        elif session is not None:
            session.commands[-1].wanted.append(text)
        goes_on = session is not None and text.endswith("\\") and not session.commands[-1].wanted


class Shell:
    """A shell process that runs one command after another."""

    MARK = "end of the command"

    def __init__(self, folder, environment):
        self.folder = folder
        streams = {"stdin": subprocess.PIPE, "stdout": subprocess.PIPE, "stderr": subprocess.STDOUT}
        self.process = subprocess.Popen(["bash"], cwd=folder, env=environment, text=True, errors="replace", **streams)

    def run(self, text):
        """Runs a command, and returns the lines that it writes."""
        self.process.stdin.write(f"{{ {text}\n}} < /dev/null\nprintf '\\n{self.MARK}\\n'\n")
        self.process.stdin.flush()
        written = []
        for line in self.process.stdout:
            if line == self.MARK + "\n":
                break
            written.append(line.rstrip("\n").replace(self.folder, SHOWN_FOLDER))
        # If the command's last line is complete, the line break before the mark makes an empty
        # line, which is removed. Otherwise it ends the command's last line.
        if written and not written[-1]:
            written.pop()
        return written

    def close(self):
        self.process.stdin.close()
        self.process.wait()


def comparable(line):
    return VARYING.sub("VARYING", line.rstrip())


def matches(wanted, written):
    """Whether a command wrote the lines that the page shows. There, a line `...` stands for any
    number of lines."""
    if "..." not in wanted:
        return [*map(comparable, wanted)] == [*map(comparable, written)]
    before = wanted.index("...")
    after = wanted[before + 1:]
    if not matches(wanted[:before], written[:before]):
        return False
    return any(matches(after, written[begin:]) for begin in range(before, len(written) + 1))


def trimmed(lines):
    """The lines without empty lines at the end."""
    while lines and not lines[-1].strip():
        lines = lines[:-1]
    return lines


@functools.cache
def is_forbidden(program):
    """Whether the machine forbids what this program does in sessions. perf records, which the kernel
    may refuse. gdb runs other programs, which needs ptrace."""
    if program == "perf":
        words = ["perf", "record", "-q", "-e", "cpu-clock:u", "-o", "/dev/null", "true"]
        return subprocess.run(words, capture_output=True, check=False).returncode != 0
    if program == "gdb":
        words = ["gdb", "-q", "-batch", "-ex", "set startup-with-shell off", "-ex", "starti", "/bin/true"]
        return "Program stopped" not in subprocess.run(words, capture_output=True, text=True, check=False).stdout
    return False


def run_command(shell, command):
    """Runs a command, and returns the lines that it writes. If the command is `cat FILE` and FILE
    doesn't exist, it is first created with the lines that the page shows."""
    name = re.fullmatch(r"cat ([\w.-]+)( +#.*)?", command.text)
    if name and not os.path.exists(os.path.join(shell.folder, name[1])):
        with open(os.path.join(shell.folder, name[1]), "w", encoding="utf-8") as file:
            file.write("\n".join(trimmed(command.wanted)) + "\n")
    return shell.run(command.text)


def c_blocks(lines):
    """For each block of C that begins with `#include <dwcheck.h>`: the number of the line where it
    begins, and its text."""
    text = "\n".join(lines)
    for found in re.finditer(r"^```c\n(#include <dwcheck.h>\n.*?)^```$", text, re.MULTILINE | re.DOTALL):
        yield text[:found.start()].count("\n") + 1, found[1]


def complaints(block):
    """The lines of the compiler's messages for a block of C."""
    words = ["cc", "-fsyntax-only", "-Wall", "-Wextra", "-I", os.path.join(TOP, "c", "include"), "-x", "c", "-"]
    return subprocess.run(words, input=block, text=True, capture_output=True, check=False).stderr.splitlines()


class Page:
    """A page, and what was found when its sessions were run: the commands whose output differs, the
    sessions that were left out, and the blocks of C that don't compile."""

    def __init__(self, path):
        self.path, self.name = path, os.path.relpath(path, TOP)
        with open(path, encoding="utf-8") as file:
            self.lines = file.read().split("\n")
        self.sessions = list(sessions(self.lines))
        self.blocks = list(c_blocks(self.lines))
        self.count, self.differing, self.left_out, self.refused = 0, [], [], []

    def run(self, environment, is_slow):
        """Runs the sessions of the page, except those that need a program that isn't there, and
        slow ones unless `is_slow`. Compiles the blocks of C."""
        with tempfile.TemporaryDirectory(prefix="pages-") as folder:
            shell, slow_shell = Shell(folder, environment), Shell(TOP, environment)
            for session in self.sessions:
                if why := session.why_not(is_slow):
                    self.left_out.append((session.heading, why))
                    continue
                for command in session.commands:
                    written = run_command(slow_shell if session.is_slow else shell, command)
                    self.count += 1
                    if not matches(trimmed(command.wanted), trimmed(written)):
                        self.differing.append((command, written))
            shell.close()
            slow_shell.close()
        self.refused = [(line, said) for line, block in self.blocks for said in complaints(block)]

    def show(self):
        """Prints the differences, the number of commands, and what was left out."""
        for command, written in self.differing:
            print(f"{self.name}:{command.begin}: $ {command.text}")
            print("".join(f"  page     {line}\n" for line in trimmed(command.wanted)), end="")
            print("".join(f"  written  {line}\n" for line in trimmed(written)), end="")
        for line, said in self.refused:
            print(f"{self.name}:{line}: {said}")
        print(f"{self.name}: {self.count} commands, {len(self.differing)} differ")
        for heading, why in dict.fromkeys(self.left_out):
            if why.startswith("the machine"):
                print(f"note: {why}; {self.name} is left out at: {heading}")
            else:
                print(f"{self.name}: left out: {heading}: {why}")

    def write(self):
        """Replaces the output in the page by what the commands wrote, where it differs."""
        for command, written in reversed(self.differing):
            empty = command.wanted[len(trimmed(command.wanted)):]
            self.lines[command.begin:command.end] = [(INDENT + line).rstrip() for line in trimmed(written)] + empty
        with open(self.path, "w", encoding="utf-8") as file:
            file.write("\n".join(self.lines))


def all_pages():
    folders = [TOP, os.path.join(TOP, "docs"), os.path.join(TOP, "man"), os.path.join(TOP, "rust", "dwcheck-elf"),
               os.path.join(TOP, "tools")]
    for folder in folders:
        for name in sorted(os.listdir(folder)) if os.path.isdir(folder) else []:
            if name.endswith(".md"):
                yield os.path.join(folder, name)


def main():
    parser = argparse.ArgumentParser(description=__doc__, formatter_class=argparse.RawDescriptionHelpFormatter)
    parser.add_argument("dwcheck")
    parser.add_argument("pages", nargs="*")
    parser.add_argument("--elf")
    parser.add_argument("--slow", action="store_true")
    parser.add_argument("--write", action="store_true")
    words = parser.parse_intermixed_args()
    with tempfile.TemporaryDirectory(prefix="pages-bin-") as programs:
        os.symlink(os.path.realpath(words.dwcheck), os.path.join(programs, "dwcheck"))
        if words.elf:
            os.symlink(os.path.realpath(words.elf), os.path.join(programs, ELF))
        os.environ["PATH"] = programs + os.pathsep + os.environ["PATH"]
        environment = os.environ | {"REPO": TOP, "LC_ALL": "C", "GO111MODULE": "off", "DEBUGINFOD_URLS": ""}
        pages = [page for page in map(Page, words.pages or all_pages()) if page.sessions or page.blocks]
        for page in pages:
            page.run(environment, words.slow)
            page.show()
            if words.write and page.differing:
                page.write()
    return any(page.differing or page.refused for page in pages)


if __name__ == "__main__":
    sys.exit(main())
