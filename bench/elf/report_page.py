#!/usr/bin/env python3
"""Opens the page of `dwcheck-elf report` in chromium, without a network, and uses it.

    bench/elf/report_page.py DWCHECK_ELF [--screenshot FILE]

The page compares two builds of a program in C, one of which has a function without an FDE and one whose FDE is
refused. The first view has to list the function whose rows differ, and a click has to show its rows side by side.
A search by name and by address has to find a function, and a click has to show its rows beside its instructions, which
have to be those of objdump. The map has to show the code without rows, and the refused record its bytes. Needs
gcc, objdump and chromium. The last line is `ok`, or the exit status is 1.
"""
import argparse
import os
import re
import subprocess
import sys
import tempfile

from browser import finish, use

# Functions that both builds have; `changed` has other rows in the new one.
SOURCE = """
int outside(int);
int same(int x) { return outside(x) + 1; }
#ifdef NEW
int changed(int x) { return outside(x) + outside(x + 1); }
#else
int changed(int x) { return outside(x); }
#endif
int moved(int x) { return same(x) * changed(x); }
"""

# `bare` has no FDE, and that of `broken` restores a state that it didn't remember.
ASSEMBLY = """
    .type bare, @function
bare: .fill 40, 1, 0x50
    ret
    .size bare, . - bare
    .type broken, @function
broken: .cfi_startproc
    push %rbp
    .cfi_escape 0x0b
    ret
    .cfi_endproc
    .size broken, . - broken
"""

# What is done with the page. `said` collects what is seen.
ACTIONS = """
const texts = selector => [...document.querySelectorAll(selector)].map(one => one.textContent);
const show = name => document.querySelector(`nav [data-view=${name}]`).click();
const search = text => { at("search").value = text; at("search").dispatchEvent(new Event("input")); };
said.title = document.title;
said.changed = texts("#changed a");
document.querySelector("#changed a").click();
said.sides = texts("#sides tbody tr.differs").length;
at("program").value = "1";
at("program").dispatchEvent(new Event("change"));
said.sections = texts("main table")[0];
const canvas = [...document.querySelectorAll("canvas")].find(one => program().head.code[one.dataset.code][0] === ".text");
const [, first, last] = program().head.code[canvas.dataset.code];
const gap = program().gaps.find(one => one[3] === "bare");
const part = Number(value(gap[0]) - value(first) + 8n) / Number(value(last) - value(first));
const scale = window.devicePixelRatio || 1;
const pixel = x => [...canvas.getContext("2d").getImageData(x * canvas.clientWidth * scale, 20 * scale, 1, 1).data].slice(0, 3);
said.gap = pixel(part);
const area = canvas.getBoundingClientRect();
canvas.dispatchEvent(new MouseEvent("mousemove", { clientX: area.left + area.width * part, clientY: area.top + 20, bubbles: true }));
said.tip = at("tip").textContent;
canvas.dispatchEvent(new MouseEvent("mouseleave"));
said.gaps = texts("#gaps tbody td:last-child");
show("refused");
said.refused = texts(".refusal")[0];
said.mark = texts("mark");
const begin = program().functions.find(one => one[3] === "moved")[0];
search("0x" + (value(begin) + 3n).toString(16));
said.byAddress = texts("#list li");
search("change");
said.byName = texts("#list li");
document.querySelector("#list li").click();
said.rows = [...document.querySelectorAll("#rows tbody tr")].map(row => [row.cells[0].textContent, row.cells[2].textContent, row.classList.contains("row") ? [...row.cells].slice(3).map(cell => cell.textContent) : null]);
said.heads = texts("#rows th");
"""


def run(folder, line):
    return subprocess.run(line, shell=True, cwd=folder, check=True, capture_output=True, text=True).stdout


def build(folder):
    """Compiles the two programs, `old` and `new`."""
    for name, text in (("a.c", SOURCE), ("b.s", ASSEMBLY)):
        with open(os.path.join(folder, name), "w") as file:
            file.write(text)
    run(folder, "gcc -O1 -shared -fPIC a.c -o old && gcc -O1 -shared -fPIC -DNEW a.c b.s -o new")


def by_objdump(folder, function):
    """The addresses and the mnemonics of a function's instructions."""
    text = run(folder, f"objdump -d --no-show-raw-insn --disassemble={function} new")
    return [("0x" + address, words.split()[0]) for address, words in re.findall(r"^ +([0-9a-f]+):\t(.+)", text, re.M)]


def holds(said, folder):
    """What should be so, and whether it is."""
    rows = [row for row in said["rows"] if row[2] is not None]
    lines = [(address, text.split()[0]) for address, text, _ in said["rows"]]
    return {
        "title": said["title"] == "Unwind tables of old and new",
        "functions that differ": said["changed"] == ["changed"],
        "rows side by side": said["sides"] > 0,
        "sections": ".eh_frame" in said["sections"] and "refused" in said["sections"],
        "the map": said["gap"] == [0xD2, 0x48, 0x2B],
        "the tip": said["tip"].endswith("no FDE  bare"),
        "gaps": "bare" in said["gaps"] and "broken" in said["gaps"],
        "what is refused": "(broken)" in said["refused"] and "push %rbp" in said["refused"],
        "the byte at fault": len(said["mark"]) == 1 and said["mark"][0] == "0b",
        "a search by address": len(said["byAddress"]) == 1 and said["byAddress"][0].endswith("moved"),
        "a search by name": len(said["byName"]) == 1 and said["byName"][0].endswith("changed"),
        "rows": rows[0][2][:2] == ["rsp+8", "[CFA-8]"] and rows[1][2][0] == "rsp+16" and len(rows) > 3,
        "columns": said["heads"][3:5] == ["CFA", "Return address"] and "rbx" in said["heads"],
        "instructions": lines == by_objdump(folder, "changed"),
    }


def main():
    parser = argparse.ArgumentParser(description=__doc__.split("\n\n", maxsplit=1)[0])
    parser.add_argument("program")
    parser.add_argument("--screenshot")
    words = parser.parse_args()
    with tempfile.TemporaryDirectory() as folder:
        build(folder)
        program = os.path.abspath(words.program)
        page = os.path.join(folder, "page.html")
        ran = subprocess.run([program, "report", "--compare", "old", "new", "-o", page], cwd=folder)
        if ran.returncode != 1:
            sys.exit(f"the status is {ran.returncode}, not 1: the new program has a refused FDE")
        said = use(page, ACTIONS, "1300,760", words.screenshot)
        finish(said, holds(said, folder))


if __name__ == "__main__":
    main()
