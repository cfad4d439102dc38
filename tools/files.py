#!/usr/bin/env python3
"""Prints what each file of the crates holds: the first sentence of its head.

    tools/files.py             src/ and specs/ of all crates, the lowest first
    tools/files.py CRATE..     src/, specs/ and proofs/ of these crates
    tools/files.py --write     writes docs/FILES.md, and the types in docs/DEFINITIONS.md
    tools/files.py --check     prints `ok heads of files` if each file begins with a sentence, else the others; and
                               `ok` with the name of each of the two pages, if --write would change nothing in it
"""
import argparse
import pathlib
import re
import sys
import textwrap

TOP = pathlib.Path(__file__).resolve().parent.parent
ENDINGS = {"src": ".rt", "specs": ".antt", "proofs": ".antt"}
ROOTS = ("lib", "main", "Lib")
FILES, DEFINITIONS = TOP / "docs/FILES.md", TOP / "docs/DEFINITIONS.md"
# What declares a type, by the ending of the file. In specs/ it is a record or a list of cases.
TYPES = {".rs": r"^(?:pub(?:\(.*?\))? )?(?:struct|enum|trait|union) (\w+)", ".antt": r"^pub (?:record|data) (\w+)"}
TYPES[".rt"] = TYPES[".rs"]
# The crates in Rust, the lowest first, each with its parts. What isn't below one of the parts comes before them.
RUST = {"dwcheck-types": (), "dwcheck-sys": (), "dwcheck": (), "dwcheck-zstd": (), "dwcheck-lz4": (), "dwcheck-minidump": (), "dwcheck-symbols": (), "dwcheck-debuginfod": (), "dwcheck-store": (), "dwcheck-package": (),
        "dwcheck-lint": (),
        "dwcheck-elf": ("src/elf", "src/cfi", "src/debug", "src/check", "src/process"),
        "dwcheck-profile": (), "dwcheck-trace": (), "dwcheck-command": ()}
INTRODUCTION = """# Files

`tools/files.py --write` makes this page of the heads of files: what each file of code holds, and
the types that it declares. [DEFINITIONS](DEFINITIONS.md) has the files of definitions, and
[MAP](MAP.md) says what the crates are to each other.

The file of a method is the one that declares its type, or one that has "methods of" that type, and
is named after what the method is about. In names of functions, `of_thing` makes a value of a thing;
`thing_of` and `thing_at` give the thing of something else, or at an address or an offset;
`read_thing` and `parse_thing` take bytes and text; `write_thing` writes to an output; `is_thing`
and `has_thing` answer yes or no; and `.._by_..` says by what means. Names of tests are sentences
that say what holds."""


def first_sentence(file):
    """The first sentence of the comment with which a file begins, or nothing."""
    lines = []
    for line in file.read_text(encoding="utf-8").splitlines():
        comment = re.match(r"(?://!?|--) ?(?!----)(.*)", line)
        if comment is None or not comment[1]:
            break
        lines.append(comment[1])
    text = " ".join(lines)
    ends = re.search(r"\.(?= |$)(?! [a-z])", text)
    return text[:ends.end()] if ends else ""


def types(file):
    """The types that a file declares."""
    return re.findall(TYPES[file.suffix], file.read_text(encoding="utf-8"), re.MULTILINE)


def types_elsewhere(file):
    """The types that other files declare and whose methods this file has."""
    methods = re.findall(r"^impl(?:<[^{]*?>)? (\w+)(?![^{\n]* for )", file.read_text(encoding="utf-8"), re.MULTILINE)
    return sorted(set(methods) - set(types(file)))


def crates():
    """The names of the crates of Rattle, in their order."""
    lines = (TOP / "crates.txt").read_text(encoding="utf-8").splitlines()
    return [re.match(r"\w+", line)[0] for line in lines if not line.startswith("#")]


def order(file):
    """By which files are sorted: a file comes before the folder that is named after it."""
    return file.with_suffix("").parts


def files(crate, folder):
    """The files of one folder of a crate, but for the proof of each function: its name says what it is."""
    all_files = sorted((TOP / "crates" / crate / folder).rglob("*" + ENDINGS[folder]), key=order)
    return [file for file in all_files if folder != "proofs" or file.stem not in ("Answers", "Invariants")]


def root(crate):
    """The file that says what a crate is."""
    return next(file for file in files(crate, "src") if file.stem in ROOTS)


def show(crate, folders):
    """Prints a line for the crate, and one for each of its files."""
    print(f"{crate}: {first_sentence(root(crate))}")
    for folder in folders:
        for file in files(crate, folder):
            if file.stem not in ROOTS:
                name = file.relative_to(TOP / "crates" / crate).with_suffix("").as_posix()
                print(f"    {name}: {first_sentence(file)}")
    print()


# ---- the pages ----


def table(folder, all_files):
    """A table of files: what each holds, and its types."""
    lines = ["| File | Holds | Types |", "|---|---|---|"]
    for file in all_files:
        names = [f"`{name}`" for name in types(file)] + [f"methods of `{name}`" for name in types_elsewhere(file)]
        cells = [f"`{file.relative_to(folder).as_posix()}`", first_sentence(file).replace("|", "\\|"), ", ".join(names)]
        lines.append(f"| {' | '.join(cells)} |".replace("|  |", "| |"))
    return "\n".join(lines)


def rust_files(name):
    """The files of a crate in Rust."""
    return sorted((file for file in (TOP / "rust" / name).rglob("*.rs") if "target" not in file.parts), key=order)


def rust_tables(name):
    """What the page has of a crate in Rust: a table for each of its parts."""
    crate, left = TOP / "rust" / name, rust_files(name)
    yield f"## rust/{name}"
    for part in (*RUST[name], None):
        inside = [file for file in left if part is None or crate / part in file.parents]
        left = [file for file in left if file not in inside]
        if part:
            yield f"### rust/{name}/{part}"
        elif RUST[name]:
            yield f"### the rest of rust/{name}"
        yield table(crate / (part or ""), inside)


def contents():
    """Links to the parts of docs/FILES.md. GitHub's anchors have no slashes and no dots."""
    rust = [f"[{name}](#rust{name})" for name in RUST]
    rattle = [f"[{name}](#crates{name}src)" for name in crates()]
    for title, links in (("Rust", rust), ("The proved crates", rattle)):
        yield "\n".join(textwrap.wrap(f"{title}: {', '.join(links)}.", 100, break_long_words=False, break_on_hyphens=False))


def files_page():
    """docs/FILES.md."""
    yield INTRODUCTION
    yield from contents()
    for name in RUST:
        yield from rust_tables(name)
    for name in crates():
        yield f"## crates/{name}/src"
        yield table(TOP / "crates" / name / "src", files(name, "src"))


def definition_files(name):
    """The files of definitions of a crate, by their names on the page."""
    specs = TOP / "crates" / name / "specs"
    return {file.relative_to(specs).with_suffix("").as_posix(): file for file in files(name, "specs") if file.stem != "Lib"}


def definitions_page():
    """The lines of docs/DEFINITIONS.md, in which only the types of each file are made."""
    name = None
    for line in DEFINITIONS.read_text(encoding="utf-8").splitlines():
        if head := re.fullmatch(r"## (\w+)", line):
            name = head[1]
        row = re.fullmatch(r"\| `(\S+)` \| ([^|]+) \|(?:[^|]*\|)?", line)
        file = row and name and definition_files(name).get(row[1])
        if file:
            line = f"| `{row[1]}` | {row[2]} | {', '.join(f'`{one}`' for one in types(file))} |".replace("|  |", "| |")
        yield line


def missing_definitions(text):
    """The files of definitions that the page doesn't have once, in their order."""
    parts = dict(re.findall(r"^## (\w+)\n(.*?)(?=^## |\Z)", text, re.MULTILINE | re.DOTALL))
    for name in crates():
        rows = re.findall(r"^\| `(\S+)` \|", parts.get(name, ""), re.MULTILINE)
        expected = sorted(definition_files(name))
        if rows != expected:
            yield f"{name}: {' '.join(sorted(set(rows) ^ set(expected))) or 'not in order'}"


def pages():
    """The two pages, with their texts."""
    return {FILES: "\n\n".join(files_page()) + "\n", DEFINITIONS: "\n".join(definitions_page()) + "\n"}


def check_pages():
    """Whether the two pages are up to date."""
    is_well = True
    for page, text in pages().items():
        name = page.relative_to(TOP)
        wrong = list(missing_definitions(text)) if page == DEFINITIONS else []
        if not page.exists() or page.read_text(encoding="utf-8") != text:
            wrong.append("tools/files.py --write changes it")
        print(*[f"FAILED {name}: {what}" for what in wrong] or [f"ok {name}"], sep="\n")
        is_well = is_well and not wrong
    return is_well


# ---- the heads ----


def check(names):
    """Whether each file of these crates begins with a sentence."""
    all_files = [file for name in names for folder in ENDINGS for file in files(name, folder)]
    all_files += [file for name in RUST for file in rust_files(name)]
    headless = [file for file in all_files if file.stem != "Lib" and not first_sentence(file)]
    for file in headless:
        print(f"FAILED {file.relative_to(TOP)} has no head of one sentence")
    if not headless:
        print("ok heads of files")
    return not headless


def main():
    parser = argparse.ArgumentParser(description=__doc__, formatter_class=argparse.RawDescriptionHelpFormatter)
    parser.add_argument("crates", nargs="*", metavar="CRATE")
    parser.add_argument("--write", action="store_true")
    parser.add_argument("--check", action="store_true")
    words = parser.parse_args()
    for name in set(words.crates) - set(crates()):
        parser.error(f"there is no crate {name}")
    if words.check:
        return 0 if check(words.crates or crates()) & check_pages() else 1
    if words.write:
        for page, text in pages().items():
            page.write_text(text, encoding="utf-8")
        return 0
    for crate in words.crates or crates():
        show(crate, ENDINGS if words.crates else ("src", "specs"))
    return 0


if __name__ == "__main__":
    sys.exit(main())
