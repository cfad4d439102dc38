"""Compares values that by_gdb.py and by_lldb.py read with those of `vars --json`."""
import os
import re
import sys

sys.path.insert(0, os.path.dirname(os.path.dirname(os.path.abspath(__file__))))
import variables  # noqa: E402

CODECS = {1: "utf-8", 2: "utf-16-le", 4: "utf-32-le"}
ESCAPES = {"n": "\n", "r": "\r", "t": "\t", "0": "\0"}
ELEMENTS = 200


def unescaped(text):
    """The characters of a text that vars escaped."""
    def one(found):
        word = found[1]
        if word.startswith("u{"):
            return chr(int(word[2:-1], 16))
        return chr(int(word[1:], 16)) if word[0] in "xU" and len(word) > 1 else ESCAPES.get(word, word)
    return re.sub(r"\\(u\{[0-9a-f]+\}|x[0-9a-f]{2}|U[0-9a-f]{8}|.)", one, text, flags=re.S)


def same_text(theirs, ours):
    if not isinstance(ours, dict) or "text" not in ours:
        return False
    own = ours["text"]
    if "escaped" in theirs:
        return unescaped(own).removesuffix("..") == unescaped(theirs["escaped"]).removesuffix("..")
    held = bytes.fromhex(theirs["text"])
    if theirs["width"] == 1:
        # A byte that isn't UTF-8 is escaped as \\xNN.
        own = unescaped(own).encode("utf-8", "replace") if held.isascii() else None
        return own is None or own.removesuffix(b"..") == held.removesuffix(b"..")
    return unescaped(own).removesuffix("..") == held.decode(CODECS[theirs["width"]], "replace").removesuffix("..")


def same_owner(theirs, ours):
    if "uses" in theirs:
        if not isinstance(ours, dict) or (ours.get("use_count"), ours.get("weak_count")) != (theirs["uses"], theirs["weak"]):
            return False
        ours = ours["pointer"]
    if isinstance(ours, str):
        return ours.split(" ")[0] == theirs["owner"]
    return isinstance(ours, dict) and ours.get("address") == theirs["owner"] and (
        "value" not in ours or ours["value"] is None or same(theirs.get("value", "?"), ours["value"]))


def same_map(theirs, ours):
    if not isinstance(ours, list) or not all(isinstance(one, dict) and "key" in one for one in ours):
        return False
    left = list(ours)
    for key, value in theirs:
        found = next((one for one in left if same(key, one["key"]) and same(value, one["value"])), None)
        if found is None:
            return False
        left.remove(found)
    return not left


def same(theirs, ours):
    """Whether both say the same, as far as the debugger has a value."""
    if theirs is None or theirs == "?" or is_plain(theirs, ours):
        return True
    if ours is None:
        # Of a variable in pieces, gdb shows 0 for those that aren't there.
        return theirs in ("0", "0x0", "false")
    if not isinstance(theirs, dict):
        return variables.same(theirs, ours)
    if "text" in theirs or "escaped" in theirs:
        return same_text(theirs, ours)
    if "list" in theirs:
        if isinstance(ours, str) and ours.startswith('"'):
            return True
        read = theirs["list"]
        if read and read[-1] == "inaccessible":  # rust-gdb ends at the first element that it can't read
            read, ours = read[:-1], ours[:len(read) - 1] if isinstance(ours, list) else ours
        return isinstance(ours, list) and len(ours) == len(read) and all(map(same, read, ours))
    if "map" in theirs:
        return same_map(theirs["map"], ours)
    if "owner" in theirs:
        return same_owner(theirs, ours)
    if "choice" in theirs:
        if not isinstance(ours, dict) or len(ours) != 1:
            return False
        name, value = next(iter(ours.items()))
        return same(theirs["value"], value) and (not isinstance(theirs["choice"], str) or theirs["choice"] == name)
    return isinstance(ours, dict) and all(name not in ours or same(value, ours[name])
                                          for name, value in theirs["members"].items())


def is_plain(theirs, ours):
    """Whether vars shows the members of what the debugger knows as a container."""
    holds = isinstance(theirs, dict) and not {"members", "choice"} & set(theirs)
    return holds and isinstance(ours, dict) and not {"address", "pointer"} & set(ours)


def is_unfinished(theirs):
    """Whether a debugger couldn't read something of a container."""
    if isinstance(theirs, dict):
        return any(is_unfinished(value) for value in theirs.values())
    if isinstance(theirs, (list, tuple)):
        return any(map(is_unfinished, theirs))
    return theirs is None


def classify(theirs, one):
    """The line in which a variable is counted."""
    ours = one["value"]
    if theirs is None:
        return "neither" if ours is None else "only dwcheck-elf"
    if ours is None:
        return "not evaluated: " + re.sub(r"0x[0-9a-f]+", "..", str(one["missing"]))
    if isinstance(ours, dict) and "points_to" in ours or isinstance(ours, str) and ours.startswith("points to "):
        return "implicit pointer"
    if is_plain(theirs, ours):
        return "plain structure"
    if same(theirs, ours):
        holds = isinstance(theirs, dict) and "members" not in theirs
        return ("equal, but not all is read" if is_unfinished(theirs) else "equal contents") if holds else "equal"
    return "DIFFERENT"
