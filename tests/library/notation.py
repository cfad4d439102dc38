"""The notation of the cases: bytes, numbers, and lines that go on in the next one. run.py describes it."""
import re

TOKEN = re.compile(r"(?P<open>\{)|for i in (?P<first>\d+)\.\.(?P<last>\d+) \}|u(?P<bits>8|32|64)\((?P<number>[^\s]+)\)"
                   r"|(?P<name>[A-Z][A-Z0-9_]*)(?:\[(?P<at>\d+)(?:=(?P<byte>[0-9a-f]{2}))?\])?|(?P<hex>[0-9a-f]+)|-")


def number_of(text, i=0):
    """The number that a sum or product of numbers is."""
    if not re.fullmatch(r"[-+*()0-9xa-fi]+", text):
        raise SystemExit(f"{text} is no number")
    return eval(text, {"__builtins__": {}}, {"i": i})  # only digits, i and operators


class Bytes:
    """The bytes that names and texts stand for."""

    def __init__(self, names):
        self.names = dict(names)

    def define(self, name, text):
        self.names[name] = self.of(text)

    def of(self, text, i=0):
        """The bytes of a text."""
        found, at = b"", 0
        while at < len(text):
            if text[at] == " ":
                at += 1
                continue
            token = TOKEN.match(text, at)
            if token is None:
                raise SystemExit(f"no bytes: {text[at:]}")
            if token["open"]:
                inner, at = self.repeated(text, token.end())
                found += inner
                continue
            found += self.of_token(token, i)
            at = token.end()
        return found

    def of_token(self, token, i):
        if token["bits"]:
            size = int(token["bits"]) // 8
            return (number_of(token["number"], i) % 256 ** size).to_bytes(size, "little")
        if token["hex"]:
            return bytes.fromhex(token["hex"])
        if not token["name"]:
            return b""
        whole = self.names[token["name"]]
        if token["at"] is None:
            return whole
        at = int(token["at"])
        return whole[:at] + (bytes.fromhex(token["byte"]) + whole[at + 1:] if token["byte"] else b"")

    def repeated(self, text, at):
        """The bytes of what is between braces, for each number, and the place after it."""
        depth, end = 1, at
        while depth:
            end += 1
            depth += {"{": 1, "}": -1}.get(text[end], 0)
        inner, first, last = re.fullmatch(r"(.*) for i in (\d+)\.\.(\d+) ", text[at:end]).groups()
        return b"".join(self.of(inner, i) for i in range(int(first), int(last) + 1)), end + 1


def lines_of(file):
    """The lines of a file with their numbers; lines that go on are joined."""
    joined, first = "", None
    for number, line in enumerate(file.read_text(encoding="ascii").splitlines(), 1):
        first = first or number
        if line.endswith("\\"):
            joined += line[:-1]
            continue
        yield first, (joined + line).strip()
        joined, first = "", None
