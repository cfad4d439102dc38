#!/usr/bin/env python3
"""Runs parts of the test suites of bash, Python and SQLite with and without `dwcheck-elf trace`.

    bench/elf/trace_suites.py DWCHECK_ELF bash FOLDER [NAME..]      FOLDER has bash's source
    bench/elf/trace_suites.py DWCHECK_ELF python FOLDER [NAME..]    FOLDER has the whole package `test`
    bench/elf/trace_suites.py DWCHECK_ELF sqlite FOLDER [NAME..]    FOLDER has sqlite's source

Each test is run twice without tracing, and once with it. What it writes and its status have to be the same, but
for times and addresses; a test that differs by itself is left out. bash's tests are scripts. Of Python, each
module's tests are run by unittest. Of SQLite's tests, the SQL is run by the program sqlite3. Without names, some
are taken. The status is 1 if a test differs, or if something is found.
"""
import argparse
import json
import os
import re
import subprocess
import sys
import tempfile
import time

USUAL = {
    "bash": """alias appendop arith arith-for array assoc braces builtins case comsub cond cprint dstack errors exp
               extglob func getopts glob heredoc herestr ifs invert jobs mapfile more-exp new-exp nquote posix2 posixpat
               printf procsub quote read redir rhs-exp set-e shopt strip test tilde trap type varenv vredir""".split(),
    "python": """test_json test_re test_dict test_list test_exceptions test_generators test_decimal test_struct test_zlib
                 test_itertools test_signal test_subprocess test_threading test_sqlite3 test_ctypes test_faulthandler
                 test_with test_coroutines test_dis test_argparse""".split(),
    "sqlite": """select1 select2 select3 join join2 where insert update delete index trigger1 trigger2 view expr func
                 aggerror subquery window1 with1 json101 fts3aa rtree collate1 cast date""".split(),
}

RECHO = r"""
#include <stdio.h>
int main(int count, char **words) {
    for (int i = 1; i < count; i++) {
        printf("argv[%d] = <", i);
        for (unsigned char *c = (unsigned char *)words[i]; *c; c++)
            if (*c < 32) printf("^%c", *c + 64); else if (*c == 127) printf("^?"); else putchar(*c);
        puts(">");
    }
}
"""

ZECHO = r"""
#include <stdio.h>
int main(int count, char **words) {
    for (int i = 1; i < count; i++) printf("%s%s", words[i], i + 1 < count ? " " : "\n");
}
"""

# What differs from one run to the next.
CHANGING = [(re.compile(rb"in [0-9.]+s"), b"in TIME"), (re.compile(rb"\d\d:\d\d:\d\d"), b"TIME"), (re.compile(rb"0x[0-9a-f]{6,}"), b"ADDRESS"),
            (re.compile(rb"/tmp/[\w./@-]+"), b"TEMPORARY")]


def sql_of(path):
    """The SQL of the tests in a file of sqlite's, without what Tcl would put into it."""
    with open(path, errors="replace") as file:
        text = file.read()
    blocks = re.findall(r"execsql(?:_test)?[^{\n]*\{([^{}]*)\}", text)
    return "".join(block.strip().rstrip(";") + ";\n" for block in blocks if not re.search(r"[$\[\\]", block))


def command(suite, folder, name, work):
    """The command line of a test, and the folder in which it is run. None if there is no such test."""
    if suite == "bash":
        tests = os.path.join(folder, "tests")
        found = os.path.exists(os.path.join(tests, name + ".tests"))
        return (["bash", f"./{name}.tests"], tests) if found else None
    if suite == "python":
        return ["/usr/bin/python3", "-m", "unittest", "-v", "test." + name], work
    path = os.path.join(folder, "test", name + ".test")
    if not os.path.exists(path):
        return None
    script = os.path.join(work, name + ".sql")
    with open(script, "w") as file:
        file.write(sql_of(path))
    return ["sqlite3", "-batch", ":memory:", ".read " + script], work


def environment_of(suite, folder, work):
    environment = dict(os.environ, PATH=f"{work}:/usr/bin:/bin", LC_ALL="C.UTF-8", THIS_SH="/bin/bash", TERM="dumb")
    if suite == "python":
        environment.update(PYTHONPATH=folder, PYTHONHASHSEED="0", PYTHONDONTWRITEBYTECODE="1")
    return environment


def run(words, folder, environment, limit):
    begin = time.monotonic()
    try:
        done = subprocess.run(words, cwd=folder, env=environment, stdin=subprocess.DEVNULL, stdout=subprocess.PIPE,
                              stderr=subprocess.STDOUT, timeout=limit, check=False)
        text, status = done.stdout, done.returncode
    except subprocess.TimeoutExpired:
        text, status = b"", "no end"
    for pattern, name in CHANGING:
        text = pattern.sub(name, text)
    return (text, status), time.monotonic() - begin


def findings_of(path):
    with open(path) as file:
        objects = [json.loads(line) for line in file]
    os.remove(path)
    steps = sum(one["totals"]["steps"] for one in objects if "totals" in one)
    return [one for one in objects if "kind" in one], steps


def main():
    parser = argparse.ArgumentParser(description=__doc__.splitlines()[0])
    parser.add_argument("elf")
    parser.add_argument("suite", choices=sorted(USUAL))
    parser.add_argument("folder")
    parser.add_argument("names", nargs="*")
    parser.add_argument("--limit", type=float, default=300, help="seconds for a test")
    parser.add_argument("--options", default="", help="options of trace")
    options = parser.parse_args()
    elf, folder, bad, same = os.path.abspath(options.elf), os.path.abspath(options.folder), 0, 0
    with tempfile.TemporaryDirectory() as work:
        for name, text in (("recho", RECHO), ("zecho", ZECHO)):
            subprocess.run(["gcc", "-w", "-x", "c", "-", "-o", os.path.join(work, name)], input=text, text=True, check=True)
        environment = environment_of(options.suite, folder, work)
        for name in options.names or USUAL[options.suite]:
            made = command(options.suite, folder, name, work)
            if made is None:
                print(f"{name}: there is no such test")
                continue
            words, place = made
            (own, own_time), (again, _) = (run(words, place, environment, options.limit) for _ in range(2))
            if own != again:
                print(f"{name}: differs by itself", flush=True)
                continue
            log = os.path.join(work, "trace.json")
            prefix = [elf, "trace", *options.options.split(), "--json", "--output", log, "--"]
            traced, traced_time = run(prefix + words, place, environment, options.limit)
            findings, steps = findings_of(log) if os.path.exists(log) else ([], 0)
            is_same = own == traced
            bad += not is_same or bool(findings)
            same += is_same
            print(f"{name}: {'same' if is_same else 'DIFFERS'}, status {own[1]}, {own_time:.1f} {traced_time:.1f} s, "
                  f"steps {steps}, findings {len(findings)}", flush=True)
            if not is_same:
                differing = [(one, other) for one, other in zip(own[0].splitlines(), traced[0].splitlines()) if one != other]
                print("   ", traced[1], differing[:3])
            for one in findings:
                print("   ", os.path.basename(one["file"]), one.get("function"), one["kind"], one["severity"])
    print(f"{same} the same, {bad} bad")
    return bad > 0


if __name__ == "__main__":
    sys.exit(main())
