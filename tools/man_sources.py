"""What source files say of programs and libraries, in Markdown, for tools/man.py.

The commands of a program and their options are read from the source text that describes them to clap:
doc comments and attributes (arguments.rs of dwcheck-command), or a list of outlines (command_line.rt of dwcheck).
The calls of a library are read from its header.
"""
import pathlib
import re
import textwrap
from dataclasses import dataclass, field

TOP = pathlib.Path(__file__).resolve().parent.parent


def read(name):
    """The text of a file of this repository."""
    return (TOP / name).read_text(encoding="utf-8")


def options_in(text):
    """The long options that a text names."""
    return set(re.findall(r"(?<![\w-])--[a-z][\w-]*", text))


@dataclass
class Command:
    """A command of a program: what it does, its words, and what is said of each argument and option."""

    name: str
    about: str
    words: str = ""
    rows: list = field(default_factory=list)

    @property
    def options(self):
        """The long options that it takes."""
        return set().union(*(options_in(tag) for tag, _ in self.rows))


@dataclass
class Member:
    """A field of a struct or a variant of an enum: its name, its type, and the lines above it."""

    name: str
    type: str
    head: list

    @property
    def doc(self):
        """The doc comment, as one line."""
        return " ".join(line.removeprefix("///").strip() for line in self.head if line.startswith("///"))

    @property
    def attributes(self):
        """The attributes, as one line."""
        return " ".join(line for line in self.head if not line.startswith("//"))

    @property
    def kebab(self):
        """The name as clap shows it."""
        return re.sub(r"(?<=[a-z])(?=[A-Z])", "-", self.name).replace("_", "-").lower()

    def has(self, word):
        """Whether a word is in the attributes, such as `long`."""
        return re.search(rf"\b{word}\b", self.attributes) is not None

    def attribute(self, name):
        """What follows `name = ` in the attributes, or nothing."""
        found = re.search(rf'\b{name} = (?:"([^"]*)"|([\w:]+))', self.attributes)
        return found and (found[1] or found[2])

    def tag(self):
        """The argument or the option, as it is written on the command line."""
        value = self.attribute("value_name") or self.name.upper()
        if not self.has("long"):
            is_list = self.type == "Vec<PathBuf>" and not self.has("value_name")
            return f"`{value.removesuffix('S')}..`" if is_list else f"`{value}`"
        option = f"`--{self.kebab}`" if self.type == "bool" else f"`--{self.kebab} {value}`"
        return f"`-{self.name[0]}`, {option}" if self.has("short") else option

    def default(self):
        """What clap takes if it isn't given: a text; a number, a variant, or a constant of a file of the crate."""
        text = self.attribute("default_value_t")
        if text is None:
            return self.attribute("default_value")
        *path, name = text.split("::")
        if path and name.isupper():
            file = f"rust/{path[0].replace('_', '-')}/src/{path[1] if path[1:] else 'lib'}.rs"
            found = re.search(rf"const {name}: \w+ = (\w+);", read(file))
            if not found:
                raise ValueError(f"{file} has no number {name}")
            name = found[1]
        return name.replace("_", "") if name[0].isdigit() else Member(name, "", []).kebab

    def text(self):
        """What is said of it."""
        default = self.default()
        return f"{self.doc}. Default: `{default}`." if default else f"{self.doc}."


def members(body):
    """The members of a struct or an enum."""
    head = []
    for line in body.splitlines():
        if found := re.fullmatch(r"    (?:pub )?(\w+)(?:\((\w+)\)|: (.+))?,", line):
            yield Member(found[1], found[2] or found[3] or "", head)
            head = []
        elif line.startswith("    pub "):
            raise ValueError(f"a member takes more than its line: {line.strip()}")
        else:
            head.append(line.strip())


def derived_commands(text):
    """The commands that structs and enums describe."""
    types = {name: list(members(body)) for name, body in
             re.findall(r"^pub (?:struct|enum) (\w+) \{\n(.*?)^\}", text, re.MULTILINE | re.DOTALL)}

    def flat(name):
        for member in types[name]:
            yield from flat(member.type) if member.has("flatten") else [member]

    def rows(name):
        for member in sorted(flat(name), key=lambda member: member.has("long")):
            yield member.tag(), member.text()
            for choice in types.get(member.type, []):
                yield f"`--{member.kebab} {choice.kebab}`", f"{choice.doc}."

    def commands(enumeration, words=""):
        for it in types[enumeration]:
            below = [member.type for member in flat(it.type) if member.has("subcommand")]
            if below:
                yield from commands(below[0], f"{words}{it.kebab} ")
            else:
                yield Command(words + it.kebab, it.doc, rows=list(rows(it.type)))

    return list(commands("Command"))


# The options that the fields `has_..` of an outline stand for.
TAKEN = {"state": "state", "load": "load", "modules": "module"}


def outlined_commands(text):
    """The commands that a list of outlines describes. All of them take the same flags."""
    constants = dict(re.findall(r'const (\w+): &str =\s*"([^"\\]*)";', text))
    flags = [constants[name] for name in re.findall(r"clap_flag\(alloc, ([A-Z]\w*),", text)]
    commands = []
    for outline in re.findall(r"^    Outline \{(.*?)^    \}", text, re.MULTILINE | re.DOTALL):
        name, about = re.search(r'name: (\w+),\s*about: "(.*?)"', outline).groups()
        words = " ".join(constants[word] for word in re.findall(r"\(([A-Z_]+), ", outline))
        taken = [TAKEN[name] for name in re.findall(r"has_(\w+): true", outline)]
        rows = [(f"`--{option}`", "") for option in flags + taken]
        commands.append(Command(constants[name], about, words, rows))
    return commands


def commands_in(name):
    """The commands that a file describes, with those of its modules."""
    if not name.endswith(".rs"):
        return outlined_commands(read(name))
    modules = sorted((TOP / name).with_suffix("").glob("*.rs"))
    return derived_commands("\n".join([read(name), *(read(module) for module in modules)]))


def table_of(pairs):
    """A table of two columns."""
    return "\n".join(["| | |", "|---|---|", *(f"| {tag} | {text} |" for tag, text in pairs)])


def list_commands(name):
    """The commands, and what each of them does."""
    yield table_of((f"`{command.name} {command.words}`", command.about) for command in commands_in(name))


def list_options(name):
    """The arguments and options of each command."""
    for command in commands_in(name):
        yield from (f"### {command.name}", f"{command.about}.", table_of(command.rows))


def list_header(name):
    """A header of C: its comments as text, and its declarations, without what is for C++ alone."""
    only_cpp = r"^#ifdef __cplusplus\n(?:.*\n)*?#(?:else|endif).*\n"
    left_out = r"^#(?:if|else|end|include).*\n|^#define \w+\n"
    text = re.sub(f"{only_cpp}|{left_out}", "", read(name), flags=re.MULTILINE)
    for comment, code in re.findall(r"^/\* (.*?) \*/$(.*?)(?=^/\*|\Z)", text, re.MULTILINE | re.DOTALL):
        if comment.startswith("----"):
            yield "### " + comment.strip("- ")
        else:
            yield re.sub(r"^   ", "", comment, flags=re.MULTILINE).replace("\n- ", "\n\n- ")
        kinds = r"^(?:#define [^\n]*|enum \{.*?\};[^\n]*|typedef struct.*?\} \w+;|\w[^;]*;)"
        yield from map(declaration, re.findall(kinds, code, re.MULTILINE | re.DOTALL))


def declaration(text):
    """A declaration of C: code, or a table of the values of an enumeration if these have comments."""
    values = re.findall(r"^    (?:/\* (.*?) \*/\s+)?(\w+) = \d+,?(?: +/\* (.*?) \*/)?$", text, re.MULTILINE | re.DOTALL)
    if values:
        return table_of((f"`{name}`", " ".join((before + after).split())) for before, name, after in values)
    if text.startswith("#"):
        return f"    {text}"
    lines = text.splitlines() if "{" in text else [" ".join(text.split())]
    # A line is broken only between arguments, fields or values.
    joined = [re.sub(r"(?<!\w[,;])(?<!\{) ", "\0", line) for line in lines]
    wrapped = (textwrap.wrap(line, 68, subsequent_indent=" " * 8, break_long_words=False) for line in joined)
    return "\n".join("    " + part.replace("\0", " ") for parts in wrapped for part in parts)
