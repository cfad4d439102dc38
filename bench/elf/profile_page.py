#!/usr/bin/env python3
"""Opens the page of `dwcheck-elf profile --format html` in chromium, without a network, and uses it.

    bench/elf/profile_page.py DWCHECK_ELF [--screenshot FILE]

The page is that of a recording of spin.c (rust/dwcheck-command/tests/recordings). A click on a function has
to give it the whole width and to name its callers, and a click on one of these has to zoom to it; a search has
to mark what it names, `inverted` has to put what ran at the top, and a time range has to leave out the samples
before and after it. The address that the page has then is opened again, and has to show the same. Of two
recordings that are compared, what only the old one has has to be blue.
Needs chromium. The last line is `ok`, or the exit status is 1.
"""
import argparse
import os
import subprocess
import tempfile

from browser import finish, use

TOP = os.path.dirname(os.path.dirname(os.path.dirname(os.path.abspath(__file__))))
RECORDINGS = os.path.join(TOP, "rust/dwcheck-command/tests/recordings")

# What is done with the page. `said` collects what is seen.
ACTIONS = """
const names = () => boxes.map(box => label(box[3]));
const boxOf = name => boxes.find(box => label(box[3]) === name);
const click = name => {
  const [x, y, wide] = boxOf(name), area = at("stacks").getBoundingClientRect();
  const where = { clientX: area.left + x + wide / 2, clientY: area.top + y + 5, bubbles: true };
  at("stacks").dispatchEvent(new MouseEvent("mousemove", where));
  said.tip = at("tip").textContent;
  at("stacks").dispatchEvent(new MouseEvent("click", where));
};
const set = (id, value, kind) => { at(id).value = value; at(id).dispatchEvent(new Event(kind)); };
const pixel = name => {
  const [x, y] = boxOf(name), scale = window.devicePixelRatio || 1;
  return [...at("stacks").getContext("2d").getImageData((x + 1) * scale, (y + 2) * scale, 1, 1).data].slice(0, 3);
};
said.first = names();
said.title = document.title;
const whole = shown.total[0];
click("twice");
said.zoomed = boxOf("twice")[2] === at("stacks").clientWidth;
said.beside = at("beside").textContent;
[...at("beside").querySelectorAll("button")].find(button => button.textContent.startsWith("middle ")).click();
said.caller = label(view.focus);
set("search", "leaf", "input");
said.found = at("found").textContent;
said.marked = pixel("leaf"); said.plain = pixel("twice");
at("inverted").checked = true;
at("inverted").dispatchEvent(new Event("change"));
said.inverted = names().slice(0, 3);
at("inverted").checked = false;
at("inverted").dispatchEvent(new Event("change"));
const times = at("times").getBoundingClientRect();
const mouse = (kind, part) => new MouseEvent(kind, { clientX: times.left + times.width * part, bubbles: true });
at("times").dispatchEvent(mouse("mousedown", 0.5));
window.dispatchEvent(mouse("mouseup", 1));
said.part = shown.total[0] / whole;
set("search", "/(/", "input");
said.unfinished = at("found").textContent;
window.dispatchEvent(new KeyboardEvent("keydown", { key: "Escape" }));
said.escaped = at("search").value === "" && at("found").textContent === "";
window.dispatchEvent(new KeyboardEvent("keydown", { key: "f", ctrlKey: true }));
said.focused = document.activeElement === at("search");
at("reset").click();
said.reset = shown.total[0] === whole && at("search").value === "";
"""


# Zooms and searches; and what can be seen of that, also in a page that is opened by its address.
LINK = """
boxes.filter(box => label(box[3]) === "middle").forEach(box => { view.focus = box[3]; });
at("search").value = "leaf"; at("search").dispatchEvent(new Event("input"));
"""
SEEN = """
said.seen = [label(view.focus), at("found").textContent, boxes.map(box => label(box[3]))];
said.hash = window.location.hash;
"""
COMPARED = """
at("side").value = "old"; at("side").dispatchEvent(new Event("change"));
const [x, y] = boxes.find(box => label(box[3]) === "middle"), scale = window.devicePixelRatio || 1;
said.pixel = [...at("stacks").getContext("2d").getImageData((x + 99) * scale, (y + 2) * scale, 1, 1).data];
said.tip = described(boxes.find(box => label(box[3]) === "middle")[3]);
"""


def main():
    parser = argparse.ArgumentParser(description=__doc__.split("\n\n", maxsplit=1)[0])
    parser.add_argument("program")
    parser.add_argument("--screenshot")
    words = parser.parse_args()
    with tempfile.TemporaryDirectory() as folder:
        page = os.path.join(folder, "page.html")
        recording = os.path.join(RECORDINGS, "dwarf.perf")
        command = [words.program, "profile", "-q", "--root", RECORDINGS, "--format", "html", "-o", page, recording]
        subprocess.run(command, check=True)
        said = use(page, ACTIONS, "1100,420", words.screenshot)
        first = use(page, LINK + SEEN, "1100,420")
        again = use(page, SEEN, "1100,420", address=first["hash"])
        other = os.path.join(RECORDINGS, "chain.perf")
        subprocess.run(command[:-1] + ["--compare", recording, other], check=True)
        compared = use(page, COMPARED, "1100,420")
    finish(said, {
        "functions": said["first"] == ["all", "_start", "main", "middle", "twice", "leaf"],
        "title": said["title"].endswith("./spin"),
        "a click zooms": said["zoomed"],
        "callers and callees": said["beside"].replace("  ", " ") == "twice called by: middle 100.00% calls: leaf 100.00%",
        "a click on a caller": said["caller"] == "middle",
        "the tip": said["tip"].startswith("twice\n/home/user/session/spin, inlined\n"),
        "a search finds": said["found"] == "found in 100.00%",
        "a search marks": said["marked"] == [0xd9, 0x4f, 0xc6] and said["plain"] != said["marked"],
        "inverted": said["inverted"] == ["all", "leaf", "twice"],
        "a time range": 0.3 < said["part"] < 0.7,
        "an unfinished pattern": said["unfinished"] == "not a pattern",
        "Escape": said["escaped"],
        "Ctrl-F": said["focused"],
        "show all": said["reset"],
        "a link": first == again and first["seen"][:2] == ["middle", "found in 100.00%"],
        "less is blue": compared["pixel"][2] > compared["pixel"][0] + 50,
        "two recordings": "100.00% before, 0.00% now (-100.00)" in compared["tip"],
    })


if __name__ == "__main__":
    main()
