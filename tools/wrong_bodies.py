#!/usr/bin/env python3
"""Checks that the prover refuses each wrong body of a function in crates/*/wrong-bodies.

    tools/wrong_bodies.py [--proved FILE] [--libraries FOLDER] [--right] [CRATE]..

A file NAME.edit has lines `file: src/X.rt`, `old: TEXT` and `new: TEXT`: TEXT is one line that is
once in the file. The wrong bodies of a crate are put into one copy of it, each in a function of its
own, and one check of these functions must refuse each of them: because of what that very function
has to meet, and not only because of a function that it calls. Two edits of one function take two
checks. `rt ci` proves all other functions, so here the check takes their contracts as they are. Prints
`ok CRATE/NAME: FUNCTION: WHY` or `FAILED CRATE/NAME: ..` for each edit, and ends with status 1 if one
failed.

With --right, each function keeps its right body, and none may be refused: so a refusal of the wrong
body is one of that body. To be run when this script changes.

The libraries that a crate uses are those that `rt ci` built, in crates/*/out, or in FOLDER/*/out.
With --proved, a crate is tried once that file names all of them, a line for each crate; a line `end`
says that no other will come. What was refused is kept in the folder ~/.cache/dwcheck, by a checksum of all that the check read.
"""
import argparse
import hashlib
import os
import pathlib
import re
import shutil
import subprocess
import sys
import tempfile
import time
from concurrent.futures import ThreadPoolExecutor
from dataclasses import dataclass, field

TOP = pathlib.Path(__file__).resolve().parent.parent
CRATES = TOP / "crates"
PARTS = ("src", "specs", "proofs")
# The proof of a function that isn't changed is left out: a check with --allow-holes takes its contract
# as it is.
LEFT_OUT = """-- Left out.
use Rattle.{crate}.proofs.{path}.Statement.{{statement}}

pub {name}_spec : {{M : Type 1}} → statement M
{name}_spec = ?
"""
# The first line of a function.
HEAD = re.compile(r'( *)(?:pub(?:\([a-z]+\))? )?(?:const |unsafe |extern "C" )*fn (\w+)')
KEPT = pathlib.Path(os.environ.get("XDG_CACHE_HOME") or pathlib.Path.home() / ".cache") / "dwcheck" / "wrong-bodies"
# How many seconds of a processor a check may take. The clock says nothing: proofs come first, so on two processors a
# check may wait for an hour.
LIMIT = 3600


class BadEdit(Exception):
    """What is wrong with an edit."""


@dataclass(frozen=True)
class Function:
    """A function: its file, which lines it has there with its comment, and its name."""

    file: str
    lines: range
    name: str


@dataclass
class Edit:
    """A wrong body: what it replaces by what in which file, and the functions that it changes."""

    path: pathlib.Path
    pairs: list
    functions: list = field(default_factory=list)

    @property
    def name(self):
        return f"{self.path.parent.parent.name}/{self.path.stem}"


@dataclass
class Crate:
    """A line of crates.txt."""

    name: str
    is_static: bool
    uses: list
    edits: list = field(default_factory=list)


def crates():
    """All crates by name, in the order of crates.txt."""
    found = {}
    for line in (TOP / "crates.txt").read_text(encoding="utf-8").splitlines():
        if parts := re.fullmatch(r"(\w+)( staticlib)?:(.*)", line):
            found[parts[1]] = Crate(parts[1], bool(parts[2]), parts[3].split())
    return found


def below(name, every):
    """The crates of this repository that a crate uses, also through others."""
    direct = [it for it in every[name].uses if it in every]
    return sorted({it for one in direct for it in [one, *below(one, every)]})


def read_edit(path):
    """An edit, with the function that it changes."""
    pairs, file, old = [], "", ""
    for line in path.read_text(encoding="utf-8").splitlines():
        key, _, text = line.partition(": ")
        if key == "file":
            file = text
        elif key == "old":
            old = text
        elif key == "new" or line == "new:":
            pairs.append((file, old, text))
    if not pairs:
        raise BadEdit(f"{path.name} has no lines `old:` and `new:`")
    return Edit(path, pairs, functions_of(path, pairs))


def functions_of(path, pairs):
    """The functions that an edit changes, the one of its last line first: that is what it is about."""
    texts, found = {}, []
    for file, old, new in pairs:
        text = texts.get(file) or (path.parent.parent / file).read_text(encoding="utf-8")
        if text.count(old) != 1:
            raise BadEdit(f"{path.name}: its text is in {file} {text.count(old)} times")
        begin, end, name = function_around(text.splitlines(), text[:text.index(old)].count("\n"))
        found.insert(0, Function(file, range(begin + 1, end + 2), name))
        texts[file] = text.replace(old, new)
    return list(dict.fromkeys(found))


def function_around(lines, at):
    """The first and the last line of the function that has a line, with its comment and attributes, and
    its name."""
    for begin in range(at, -1, -1):
        if head := HEAD.match(lines[begin]):
            ends = (number for number in range(begin, len(lines)) if re.match(head[1] + r"}", lines[number]))
            end = next(ends, len(lines) - 1)
            if end >= at:
                while lines[begin - 1].lstrip().startswith(("#", "//")):
                    begin -= 1
                return begin, end, head[2]
    raise BadEdit("its text is in no function")


def batches(edits):
    """The edits in groups, in which no two change one function."""
    groups = []
    for edit in edits:
        taken = lambda group: any(set(it.functions) & set(edit.functions) for it in group)
        group = next((it for it in groups if not taken(it)), None)
        if group is None:
            groups.append(group := [])
        group.append(edit)
    return groups


def copy_with(crate, edits, folder):
    """Copies a crate to a folder, with these wrong bodies in it."""
    for part in PARTS:
        if (CRATES / crate.name / part).is_dir():
            shutil.copytree(CRATES / crate.name / part, folder / part)
    for edit in edits:
        for file, old, new in edit.pairs:
            text = (folder / file).read_text(encoding="utf-8")
            if text.count(old) != 1:
                raise BadEdit(f"{edit.name}: its text is in {file} {text.count(old)} times beside the other edits")
            (folder / file).write_text(text.replace(old, new), encoding="utf-8")


def kit():
    """The folder of the kit."""
    page = subprocess.run(["rt", "doc"], capture_output=True, text=True, check=True).stdout.strip()
    return pathlib.Path(page).parent


def words(crate, every, libraries, only):
    """The command that checks functions of a crate, over the libraries that were built. It passes over
    proofs that are left out."""
    of_kit = kit()
    found = [f"{of_kit}/bin/rattle", "check", "--crate-name", crate.name, "src/lib.rt"]
    for name in [*crate.uses, "std"]:
        place = f"{libraries}/{name}/out/rlib" if name in every else f"{of_kit}/rlibs"
        found += ["--extern", f"{name}={place}/{name}.rlib"]
    for name in below(crate.name, every):
        found += ["-L", f"dependency={libraries}/{name}/out/rlib"]
    found += ["-L", f"dependency={of_kit}/rlibs", "--antt-project", f"{of_kit}/rattle/logic/antt-project.json",
              "--logic-built", f"{of_kit}/logic_built", "--jobs", "1", "--allow-holes"]
    if crate.is_static:
        found += ["--crate-type", "staticlib"]
    for name in only:
        found += ["--only", name]
    return found


def module_of(file):
    """The names of the modules of a file, the outermost first."""
    return file[len("src/"):-len(".rt")].split("/")


def owner_of(lines, at):
    """The type in whose `impl` a function is that begins at a line; "" if it is in none, and None if the
    function is that of a trait."""
    if not lines[at].startswith(" "):
        return ""
    head = next((line for line in reversed(lines[:at]) if line.startswith(("impl", "pub trait", "trait"))), "")
    own = re.fullmatch(r"impl(?:<[^{]*?>)? (\w+)(?:<.*>)? {", head)
    return own[1] if own and " for " not in head else None


def path_of(crate, function):
    """The path of a function as a check prints it, or the end of this path if it is a type's; if the
    function is that of a trait, the path of its module, which stands for all functions in it."""
    module = "::".join([crate.name, *module_of(function.file)])
    lines = (CRATES / crate.name / function.file).read_text(encoding="utf-8").splitlines()
    owner = owner_of(lines, next(at for at in function.lines if HEAD.match(lines[at - 1])) - 1)
    return module if owner is None else f"{owner or module}::{function.name}"


def calls_itself(lines, at, owner):
    """Whether the function that begins at a line, of this type if any, calls itself. Its proof is that
    of a cycle of calls."""
    _, end, name = function_around(lines, at)
    before = rf"(?:self\.|Self::|\b{owner}::)" if owner else r"(?<![\w.:])"
    return any(re.search(rf"{before}{name}\(", line) for line in lines[at + 1:end + 1])


def plain_functions(crate):
    """The functions of a crate that aren't those of a trait and don't call themselves: the file, the
    number of the first line, and the names of the modules, the type and the function."""
    for path in sorted((CRATES / crate.name / "src").rglob("*.rt")):
        lines = path.read_text(encoding="utf-8").splitlines()
        file = path.relative_to(CRATES / crate.name).as_posix()
        modules = [] if file == "src/lib.rt" else module_of(file)
        for at, line in enumerate(lines):
            head = HEAD.match(line)
            owner = owner_of(lines, at) if head and len(head[1]) in (0, 4) else None
            if owner is not None and not calls_itself(lines, at, owner):
                yield file, at + 1, [*modules, *([owner] if owner else []), head[2]]


def leave_out(crate, functions, folder):
    """Leaves out the proofs of all functions but these, in a copy of a crate."""
    for file, number, names in plain_functions(crate):
        place = folder.joinpath("proofs", *names)
        changes = any(file == it.file and number in it.lines for it in functions)
        # A proof that is written as a whole is cheap to check.
        if not changes and not (place / "Proof.antt").is_file():
            shutil.rmtree(place, ignore_errors=True)
            place.mkdir(parents=True)
            text = LEFT_OUT.format(crate=crate.name, path=".".join(names), name=names[-1])
            (place / "Proof.antt").write_text(text, encoding="utf-8")


def why_refused(function, said):
    """Why the check refused a function itself: what it doesn't meet. None if it didn't refuse it."""
    for line in said:
        note = re.match(r"(?:note: )?(?:\./)?(src/\S+?):(\d+):\d+: (.*)", line)
        if note and note[1] == function.file and int(note[2]) in function.lines and "not proved" in note[3]:
            return note[3]
    module = function.file[len("src/"):-len(".rt")]
    for line in said:
        # (the proofs of a type's method are in the module of the type)
        if re.match(rf"(?:\./)?proofs/(?:{module}/(?:\w+/)?|\S+/[A-Z]\w*/)\+?{function.name}/\S+: error", line):
            return line
    return None


def line_of(edit, said):
    """The line to print for an edit, by what the check said."""
    for function in edit.functions:
        if why := why_refused(function, said):
            return f"ok {edit.name}: {function.name}: {why[:200]}"
    name = edit.functions[0].name
    found = next((line for line in said if re.match(rf"fn \S*\b{name}: ", line)), " | ".join(said[-3:]))
    return f"FAILED {edit.name}: the check doesn't refuse {name}: {found[:400]}"


def line_of_right(edit, said):
    """The line to print for the right bodies of the functions that an edit changes."""
    names = ", ".join(function.name for function in edit.functions)
    refused = next((why for function in edit.functions if (why := why_refused(function, said))), None)
    if refused or not said or not re.match(r"only=\d+ holes=\d+$", said[-1]):
        return f"FAILED {edit.name}: the right body of {names}: {(refused or ' | '.join(said[-3:]))[:400]}"
    return f"ok {edit.name}: {names}: not refused with its right body"


def keep_log(crate, text):
    """Writes what a check said to build/wrong-bodies, to be read where an edit wasn't refused."""
    logs = TOP / "build" / "wrong-bodies"
    logs.mkdir(parents=True, exist_ok=True)
    (logs / f"{crate.name}.log").write_text(text, encoding="utf-8")


def refusals(crate, every, given, edits):
    """Tries edits of different functions of a crate. Returns a line for each."""
    functions = [function for edit in edits for function in edit.functions]
    with tempfile.TemporaryDirectory(prefix="dwcheck-wrong-") as room:
        folder = pathlib.Path(room)
        try:
            copy_with(crate, [] if given.right else edits, folder)
        except BadEdit as error:
            return [f"FAILED {edit.name}: {error}" for edit in edits]
        leave_out(crate, functions, folder)
        only = sorted({path_of(crate, function) for function in functions})
        ran = subprocess.run(["prlimit", f"--cpu={LIMIT}", "--", *words(crate, every, given.libraries, only)], cwd=folder,
                             stdin=subprocess.DEVNULL, stdout=subprocess.PIPE, stderr=subprocess.STDOUT, text=True,
                             errors="replace", check=False)
    line = line_of_right if given.right else line_of
    lines = [line(edit, ran.stdout.splitlines()) for edit in edits]
    if any(line.startswith("FAILED") for line in lines):
        keep_log(crate, ran.stdout)
    return lines


def checksum(crate, every, edits):
    """A checksum of all that a try of these edits reads."""
    found = hashlib.sha256(pathlib.Path(__file__).read_bytes())
    found.update(subprocess.run(["rt", "version"], capture_output=True, check=True).stdout)
    folders = [CRATES / name / part for name in [crate.name, *below(crate.name, every)] for part in PARTS]
    files = sorted(it for folder in folders if folder.is_dir() for it in folder.rglob("*") if it.is_file())
    for path in [TOP / "crates.txt", *files, *[edit.path for edit in edits]]:
        found.update(f"{path.relative_to(TOP)}\n".encode())
        found.update(path.read_bytes())
    return found.hexdigest()


def tried(crate, every, given, edits):
    """Tries edits, unless the same try was kept. Keeps it if all were refused."""
    if given.right:
        return refusals(crate, every, given, edits)
    kept = KEPT / checksum(crate, every, edits)
    if kept.is_file():
        return kept.read_text(encoding="utf-8").splitlines()
    lines = refusals(crate, every, given, edits)
    if all(line.startswith("ok ") for line in lines):
        KEPT.mkdir(parents=True, exist_ok=True)
        new = kept.with_suffix(f".{os.getpid()}")
        new.write_text("\n".join(lines) + "\n", encoding="utf-8")
        os.replace(new, kept)
    return lines


def come(names, proved):
    """Waits until a file names all these crates. Returns false if it never will."""
    while proved:
        found = set(proved.read_text(encoding="utf-8").split())
        if set(names) <= found or "end" in found:
            return set(names) <= found
        time.sleep(2)
    return True


def say(line):
    """Prints a line in one piece: print by itself writes its end apart, and crates are tried side by side."""
    print(f"{line}\n", end="", flush=True)


def try_crate(crate, every, given):
    """Prints a line for each edit of a crate. Returns whether all were refused."""
    try:
        edits = [read_edit(path) for path in crate.edits]
    except (BadEdit, OSError) as error:
        say(f"FAILED {crate.name}: {error}")
        return False
    if not come(below(crate.name, every), given.proved):
        say(f"FAILED {crate.name}: the libraries that it uses aren't proved")
        return False
    is_well = True
    for group in batches(edits):
        for line in tried(crate, every, given, group):
            say(line)
            is_well = is_well and line.startswith("ok ")
    return is_well


def lanes():
    """How many checks run side by side: one on each processor, and 3 GB of memory for each."""
    gigabytes = os.sysconf("SC_PAGE_SIZE") * os.sysconf("SC_PHYS_PAGES") / 1e9
    return max(1, min(len(os.sched_getaffinity(0)), int(gigabytes / 3)))


def main():
    parser = argparse.ArgumentParser(description=__doc__, formatter_class=argparse.RawDescriptionHelpFormatter)
    parser.add_argument("crates", nargs="*", metavar="CRATE")
    parser.add_argument("--proved", type=pathlib.Path, metavar="FILE")
    parser.add_argument("--libraries", type=pathlib.Path, metavar="FOLDER", default=CRATES)
    parser.add_argument("--right", action="store_true")
    given = parser.parse_args()
    every = crates()
    for crate in every.values():
        crate.edits = sorted((CRATES / crate.name / "wrong-bodies").glob("*.edit"))
    wanted = [it for it in every.values() if it.edits and (not given.crates or it.name in given.crates)]
    with ThreadPoolExecutor(lanes()) as pool:
        ended = pool.map(lambda crate: try_crate(crate, every, given), wanted)
        return 0 if all(list(ended)) else 1


if __name__ == "__main__":
    sys.exit(main())
