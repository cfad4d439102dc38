#!/usr/bin/env python3
"""Prints a manual page: what man/ has in Markdown, as troff.

    tools/man.py PAGE       prints a page, such as dwcheck-elf.1, which is made from man/dwcheck-elf.1.md
    tools/man.py --check    prints `ok manual pages` if each page can be made, names each command and each
                            option of its program, and names no option that doesn't exist; else what is wrong

The files in man/ have only what no other file says. These lines stand for the rest:

    <!-- include FILE#HEADING -->    the text below a heading of a page, up to the next heading
    <!-- commands FILE -->           the commands of a program, and what each of them does
    <!-- options FILE -->            the arguments and the options of each command
    <!-- header FILE -->             the comments and the declarations of a header of C

This is known of Markdown: headings, paragraphs, bullets, indented code, tables, `code`, **bold**, *emphasis*,
and links, of which only the text is shown. A table becomes a list: its first column is what is explained.
"""
import argparse
import re
import sys

from man_sources import TOP, commands_in, list_commands, list_header, list_options, options_in, read

SECTIONS = {"1": "User commands", "3": "Library functions"}
# Options that clap adds, and those of other programs that the pages name.
OTHER_OPTIONS = {"--help", "--version", "--call-graph", "--debugger", "--threads", "--dump-section", "--remove-section",
                 "--perf-prof", "--perf-basic-prof", "--perf-prof-unwinding-info", "--cflags", "--libs"}


# ---- the page in Markdown ----


def include(place):
    """The text below a heading, up to the next one."""
    name, heading = place.split("#", 1)
    found = re.search(rf"^#+ {re.escape(heading)}\n(.*?)(?=^#+ |\Z)", read(name), re.MULTILINE | re.DOTALL)
    if not found:
        raise ValueError(f"{name} has no heading {heading}")
    yield found[1]


DIRECTIVES = {"include": include, "commands": list_commands, "options": list_options, "header": list_header}


def markdown_of(page):
    """The whole page in Markdown."""
    def replaced(found):
        return "\n\n".join(DIRECTIVES[found[1]](found[2]))
    text = re.sub(rf"^<!-- ({'|'.join(DIRECTIVES)}) (.+) -->$", replaced, read(f"man/{page}.md"), flags=re.MULTILINE)
    if other := re.search(r"<!--.*", text):
        raise ValueError(f"man/{page}.md has a line that stands for nothing: {other[0]}")
    return text


# ---- troff ----


def escaped(text):
    """Text without what troff takes for its own."""
    return text.replace("\\", r"\e").replace("~", r"\(ti").replace("^", r"\(ha")


def literal(text):
    """Text that is shown as it is, so that it can be copied."""
    return escaped(text).replace("-", r"\-").replace("'", r"\(aq").replace("`", r"\(ga")


def code(text):
    """Code in bold. Words in capitals stand for something else, but not after a hyphen, as in `nm -C`."""
    return r"\fB" + re.sub(r"(?<![A-Z0-9_])(?<! \\-)[A-Z]+\b", r"\\fI\g<0>\\fB", literal(text))


def protected(line):
    """A line that troff doesn't take for a request."""
    return r"\&" + line if line[:1] in (".", "'") else line


def inline(text):
    """A paragraph as one line. A link in parentheses, which leads to more, is left out."""
    text = re.sub(r" \(\[[^]]+\]\([^)]*\)\)", "", " ".join(text.split()))
    text = re.sub(r"\[([^]]+)\]\([^)]*\)", r"\1", text)
    font, line = "R", ""
    for part in re.split(r"(`[^`]+`|\*\*|\*\w[^*]*\w\*|(?<![\w-])--[a-z][\w-]*)", text):
        if part == "**":
            font = "R" if font == "B" else "B"
            line += rf"\f{font}"
        elif re.fullmatch(r"\*\w.*", part):
            line += rf"\fI{escaped(part.strip('*'))}\f{font}"
        elif part.startswith(("`", "--")):
            line += code(part.strip("`")) + rf"\f{font}"
        else:
            line += escaped(part)
    return protected(line)


def heading(block):
    """The request for a section, or for a part of one."""
    level, text = block.split(" ", 1)
    return f'.SH "{text.upper()}"' if level == "##" else f'.SS "{literal(text)}"'


def table(block):
    """A list of what the first column has. If there are more columns than two, their headings are shown."""
    heads, _, *rows = ([cell.strip() for cell in line.strip()[1:-1].split("|")] for line in block.splitlines())
    for tag, *cells in rows:
        texts = cells if len(heads) == 2 else [f"{head}: {cell}" for head, cell in zip(heads[1:], cells) if cell]
        # A row without a first cell is about what the row above it is about.
        yield f".TP\n{inline(tag)}" if tag else ".IP"
        yield "\n.br\n".join(map(inline, texts))


def bullets(block):
    """The items of a list."""
    for item in re.split(r"^- ", block, flags=re.MULTILINE)[1:]:
        yield f".IP \\(bu 2\n{inline(item)}"


def example(block):
    """Lines that aren't filled."""
    lines = (protected(literal(line[4:])) for line in block.splitlines())
    return "\n".join([".PP", ".RS 4", ".EX", *lines, ".EE", ".RE"])


def troff_of_block(block):
    """A block as troff, by how it begins."""
    if block.startswith("#"):
        return heading(block)
    if block.startswith("|"):
        return "\n".join(table(block))
    if block.startswith("- "):
        return "\n".join(bullets(block))
    if block.startswith("    "):
        return example(block)
    return f".PP\n{inline(block)}"


def troff_of(page):
    """The page as troff. Sessions are left out: their lines are long, and what they show differs from machine
    to machine."""
    title, *blocks = (block.rstrip() for block in re.split(r"\n(?:\s*\n)+", markdown_of(page)) if block.strip())
    name, section = re.fullmatch(r"# (.+)\((\d)\)|.*", title).groups()
    if name is None:
        raise ValueError(f"man/{page}.md doesn't begin with a name and a section")
    version = re.search(r"^version := (.*)", read("Makefile"), re.MULTILINE)[1]
    head = [rf'.\" Made by tools/man.py from man/{page}.md and from what that names.',
            f'.TH {name.upper()} {section} "" "dwcheck {version}" "{SECTIONS[section]}"', ".nr HY 0", ".nh", ".ad l"]
    return "\n".join([*head, *(troff_of_block(block) for block in blocks if not block.startswith("    $ "))]) + "\n"


# ---- the check ----


def uses(text, program, names):
    """Each command that is named, with what is after it: in code, or after the name of the program."""
    command = rf"({'|'.join(names)})\b"
    yield from re.findall(rf"`(?:{program} )?{command}([^`]*)`", text)
    yield from re.findall(rf"^    .*?\b{program} {command}(.*)$", text, re.MULTILINE)


def wrong_with(page):
    """What is wrong with the options and commands that a page names."""
    text, program = markdown_of(page), page.partition(".")[0]
    named = options_in(text) - OTHER_OPTIONS
    described = re.search(r"^<!-- (?:options|commands) (.+) -->$", read(f"man/{page}.md"), re.MULTILINE)
    commands = {command.name: command for command in commands_in(described[1])} if described else {}
    known = set().union(*(command.options for command in commands.values()))
    yield from (f"{option} isn't named" for option in sorted(known - named))
    yield from (f"there is no {option}" for option in sorted(named - known))
    for name, command in commands.items():
        used = [words for it, words in uses(text, program, commands) if it == name]
        if not used:
            yield f"{name} isn't named"
        yield from (f"{name} has no {option}" for words in used
                    for option in sorted(options_in(words) - command.options - OTHER_OPTIONS))


def is_right(pages):
    """Whether nothing is wrong with the pages. Prints what is."""
    wrong = []
    for page in pages:
        try:
            troff_of(page)
            wrong += [f"FAILED {page}: {what}" for what in wrong_with(page)]
        except (OSError, ValueError) as error:
            wrong.append(f"FAILED {page} can't be made: {error}")
    print("\n".join(wrong) or "ok manual pages")
    return not wrong


def main():
    parser = argparse.ArgumentParser(description=__doc__, formatter_class=argparse.RawDescriptionHelpFormatter)
    parser.add_argument("page", nargs="?", metavar="PAGE")
    parser.add_argument("--check", action="store_true")
    words = parser.parse_args()
    pages = sorted(path.name.removesuffix(".md") for path in (TOP / "man").glob("*.md"))
    if words.check:
        return 0 if is_right(pages) else 1
    if words.page not in pages:
        parser.error(f"PAGE is one of {' '.join(pages)}")
    print(troff_of(words.page), end="")
    return 0


if __name__ == "__main__":
    sys.exit(main())
