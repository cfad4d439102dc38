"""Runs in LLDB, for bench/elf/containers.py: says what the variables in core files hold, by LLDB's formatters for
libc++. The variable LLDB_FILES names the program and the core files, as a list of JSON, and LLDB_OUTPUT the file that gets a
line of JSON for each core file: a list of the functions at the first frame, the innermost first, each with its
variables. by_gdb.py says what values are."""
import json
import os
import re

import lldb

DEPTH, ELEMENTS = 8, 200
ROWS = ("vector", "set", "multiset", "unordered_set", "unordered_multiset", "list", "deque", "tuple")
MAPS = ("map", "multimap", "unordered_map", "unordered_multimap")
BASIC = (lldb.eBasicTypeFloat, lldb.eBasicTypeDouble, lldb.eBasicTypeBool)


def name_of(kind):
    """The name of a class of libc++ without its namespaces and its parameters."""
    name = kind.GetUnqualifiedType().GetCanonicalType().GetName() or ""
    found = re.match(r"(?:const )?std::(?:__1::)?(\w+)<", name)
    return found[1] if found else None


def value_of(value, depth=DEPTH):
    kind = value.GetType().GetCanonicalType()
    if depth == 0:
        return "?"
    if value.GetError().Fail():
        return None
    if kind.IsReferenceType():
        target = value.Dereference()
        return {"owner": hex(value.GetValueAsUnsigned()), "value": value_of(target, depth)}
    if kind.IsPointerType():
        return hex(value.GetValueAsUnsigned())
    name = name_of(kind)
    if name is not None:
        return of_class(value, name, depth - 1)
    if kind.IsArrayType():
        return {"list": [value_of(child, depth - 1) for child in children(value)]}
    if kind.GetTypeClass() & (lldb.eTypeClassStruct | lldb.eTypeClassClass):
        return {"members": {child.GetName(): value_of(child, depth - 1) for child in children(value)}}
    if kind.GetBasicType() in BASIC:
        return value.GetValue()
    return str(value.GetValueAsSigned() if "unsigned" not in kind.GetName() else value.GetValueAsUnsigned())


def children(value):
    return [value.GetChildAtIndex(place) for place in range(min(value.GetNumChildren(), ELEMENTS))]


def of_class(value, name, depth):
    if name in ("basic_string", "basic_string_view"):
        found = re.match(r'[uUL]?"(.*)"$', value.GetSummary() or "", re.S)
        return {"escaped": found[1]} if found else "?"
    if name in ROWS:
        return {"list": [value_of(child, depth) for child in children(value)]}
    if name in MAPS:
        return {"map": [pair_of(child, depth) for child in children(value)]}
    if name == "array":
        return value_of(value.GetChildMemberWithName("__elems_"), depth)
    if name == "optional":
        return {"list": [value_of(child, depth) for child in children(value)]}
    if name == "variant":
        found = value.GetChildAtIndex(0)
        return {"choice": 0, "value": value_of(found, depth)} if value.GetNumChildren() == 1 else "?"
    if name in ("unique_ptr", "shared_ptr"):
        return owner_of(value, name, depth)
    return "?"


def pair_of(value, depth):
    inner = value.GetNonSyntheticValue().GetChildMemberWithName("__cc")
    value = inner if inner.IsValid() else value
    return [value_of(value.GetChildMemberWithName(name), depth) for name in ("first", "second")]


def owner_of(value, name, depth):
    pointer = value.GetNonSyntheticValue().GetChildMemberWithName("__ptr_")
    if name == "unique_ptr":
        # LLDB 14 shows 0 if the deleter isn't empty: the first of a pair is in the first base.
        pointer = pointer.GetChildAtIndex(0).GetChildMemberWithName("__value_")
    address = pointer.GetValueAsUnsigned()
    kind = value.GetType().GetCanonicalType().GetTemplateArgumentType(0)
    found = {"owner": hex(address), "value": value_of(pointer.Dereference(), depth) if address else "?"}
    counts = re.search(r"strong=(\d+) weak=(\d+)", value.GetSummary() or "")
    if counts:
        # LLDB counts all owners together as one more that is weak.
        return dict(found, uses=int(counts[1]), weak=int(counts[2]) - 1)
    return found if address and not kind.IsArrayType() else {"owner": hex(address)}


def functions(thread):
    """The functions at the first frame: those that are inlined there, and the one that has them."""
    found = []
    for frame in thread:
        shown = frame.GetVariables(True, True, False, True)
        found.append([[one.GetName(), value_of(one)] for one in shown])
        if not frame.IsInlined():
            return found
    return found


def main():
    debugger = lldb.SBDebugger.Create()
    debugger.SetAsync(False)
    program, *cores = json.loads(os.environ["LLDB_FILES"])
    target = debugger.CreateTarget(program)
    with open(os.environ["LLDB_OUTPUT"], "w") as output:
        for path in cores:
            process = target.LoadCore(path)
            output.write(json.dumps(functions(process.GetSelectedThread())) + "\n")
            process.Destroy()


main()
