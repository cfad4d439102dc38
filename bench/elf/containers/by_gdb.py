"""Runs in gdb, for bench/elf/containers.py: stops a program at instructions, and says what its variables hold.

Values are read by gdb's pretty-printers of libstdc++, Rust and Go. A value is a text for a number or a pointer, or an
object with one of these keys, as judge.py compares them:

    text      the bytes of a text as hex digits, and `width`, the bytes of a character
    list      the elements of a row, a set or an optional value
    map       pairs of keys and values
    owner     an address, with the `value` there, and `uses` and `weak` if owners are counted
    choice    the name of what is there of several, or its index, with its `value`
    members   the members of a structure
"""
import itertools
import os
import re
import signal
import subprocess
import sys

import gdb

sys.path.insert(0, os.path.dirname(os.path.dirname(os.path.abspath(__file__))))
import variables  # noqa: E402

# How deep values are read, and how many elements of a container. The most bytes of a mapping in a state file.
DEPTH, ELEMENTS, MAPPING = 8, 200, 8 << 20
# How long gdb may take for a variable.
SECONDS = 3
STRUCTURES = (gdb.TYPE_CODE_STRUCT, gdb.TYPE_CODE_UNION)
# What vars shows as the structures that they are.
PLAIN = re.compile(r"(std::(\w+::)*weak_ptr<|alloc::(rc|sync)::Weak<|map\[|std::(\w+::)*pair<)")


def value_of(value, depth):
    """The same. "?" if that isn't compared."""
    kind = value.type.strip_typedefs()
    if depth == 0 or PLAIN.match(kind.name or ""):
        return "?"
    if kind.code in (gdb.TYPE_CODE_REF, gdb.TYPE_CODE_RVALUE_REF):
        target = value.referenced_value()
        return {"owner": hex(int(target.address)), "value": part(target, depth)}
    if value.is_optimized_out:
        return None
    if kind.code == gdb.TYPE_CODE_PTR and (value.type.name or "").startswith("alloc::boxed::Box<"):
        return {"owner": hex(int(value)), "value": part(value.dereference(), depth - 1)}
    if kind.code == gdb.TYPE_CODE_PTR:
        return hex(int(value))
    printer = gdb.default_visualizer(value)
    if printer is not None:
        return by_printer(value, printer, depth - 1)
    if kind.code in STRUCTURES and re.match(r"std::(\w+::)*array<", kind.name or ""):
        return part(value["_M_elems"], depth)
    if kind.code in STRUCTURES and (kind.name or "").startswith("alloc::boxed::Box<["):
        return {"list": [part(value["data_ptr"][place], depth - 1) for place in range(min(int(value["length"]), ELEMENTS))]}
    if kind.code in STRUCTURES:
        fields = [field for field in kind.fields() if hasattr(field, "bitpos") and field.name]
        return {"members": {field.name.split("::")[-1]: "?" if field.is_base_class else part(value[field], depth - 1)
                            for field in fields}}
    if kind.code == gdb.TYPE_CODE_ARRAY:
        low, high = kind.range()
        return {"list": [part(value[place], depth - 1) for place in range(low, min(high, low + ELEMENTS - 1) + 1)]}
    return variables.plain(value)


def whole(value):
    """What a variable holds. "?" if gdb takes too long: some of its pretty-printers go round in memory that isn't what
    they take it for."""
    signal.alarm(SECONDS)
    try:
        return part(value, DEPTH)
    except TimeoutError:
        return "?"
    finally:
        signal.alarm(0)


def too_long(*_):
    raise TimeoutError


def part(value, depth):
    """What a variable, a member or an element holds. None if gdb can't read it."""
    try:
        return value_of(value, depth)
    except (gdb.error, RuntimeError, OverflowError):
        return None


def by_printer(value, printer, depth):
    """What a pretty-printer says."""
    name = type(printer).__name__
    hint = printer.display_hint() if hasattr(printer, "display_hint") else None
    if hint == "string":
        return text_of(printer.to_string())
    if not hasattr(printer, "children"):
        return "?"  # an iterator
    parts = list(itertools.islice(printer.children(), 2 * ELEMENTS if hint == "map" else ELEMENTS))
    values = [part(value, depth) if isinstance(value, gdb.Value) else str(value) for _, value in parts]
    if name == "UniquePointerPrinter":
        # Of elements, the number isn't known.
        return owner_of(parts[0][1], depth) if "[]" not in printer.to_string() else {"owner": hex(int(parts[0][1]))}
    if name == "SharedPointerPrinter":
        shown = printer.to_string().replace("expired", "use count 0")
        counts = re.search(r"use count (\d+), weak count (\d+)", shown)
        found = owner_of(parts[0][1], depth)
        return dict(found, uses=int(counts[1]), weak=int(counts[2])) if counts else found
    if name == "StdRcProvider":
        return {"owner": hex(int(parts[0][1].address)), "value": values[0], "uses": int(parts[1][1]), "weak": int(parts[2][1])}
    if name == "StdVariantPrinter":
        return {"choice": int(re.search(r"index (\d+)", printer.to_string())[1]), "value": values[0]}
    if name == "EnumProvider":
        return {"choice": parts[0][0], "value": values[0]}
    if name == "StdPairPrinter":
        return "?"
    if hint == "map":
        return {"map": list(zip(values[::2], values[1::2]))}
    return {"list": values}


def owner_of(pointer, depth):
    """A pointer of C++ that owns what it leads to, with that."""
    if int(pointer) == 0 or pointer.type.strip_typedefs().target().code == gdb.TYPE_CODE_VOID:
        return {"owner": hex(int(pointer))}
    return {"owner": hex(int(pointer)), "value": part(pointer.dereference(), depth)}


def text_of(shown):
    """The bytes of a text that a pretty-printer gives."""
    if isinstance(shown, str):
        return {"text": shown.encode("utf-8", "surrogateescape").hex(), "width": 1}
    if not hasattr(shown, "length"):
        return "?"
    width = shown.value()[0].type.sizeof if shown.type.strip_typedefs().code == gdb.TYPE_CODE_ARRAY else \
        shown.type.strip_typedefs().target().sizeof
    length = min(shown.length, ELEMENTS)
    held = bytes(gdb.selected_inferior().read_memory(shown.address, length * width)) if length else b""
    return {"text": held.hex(), "width": width}


def writable():
    """The parts of memory in which variables and what they hold may be."""
    for line in open("/proc/%d/maps" % gdb.selected_inferior().pid):
        words = line.split()
        begin, end = (int(word, 16) for word in words[0].split("-"))
        if "w" in words[1] and end - begin <= MAPPING and not line.endswith("[stack]\n"):
            yield begin, end


def stop(asked, load, number):
    """What gdb and vars say where the program is, or for another debugger a core file."""
    frames = variables.frames_there()
    address = frames[0].pc()
    if asked["cores"]:
        path = os.path.join(asked["folder"], "core%d" % number)
        gdb.execute("gcore " + path, to_string=True)
        line = ["vars", "--json", "--depth", "16", "--core", path]
    else:
        path = os.path.join(asked["folder"], "state")
        variables.write_state(path, frames[0], list(writable()))
        line = ["vars", "--json", "--depth", "16", "--load", hex(load), "--state", path, asked["program"], hex(address)]
    ran = subprocess.run([asked["dwcheck_elf"]] + line, capture_output=True, text=True)
    theirs = [one for place, each in enumerate(reversed(frames)) for one in variables.variables(each, place, whole)]
    return {"address": address, "core": path, "variables": theirs, "ours": ran.stdout, "error": ran.stderr}


signal.signal(signal.SIGALRM, too_long)
variables.in_gdb(stop)
