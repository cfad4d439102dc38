#!/usr/bin/env python3
"""Prints the tables of docs/SURVEY.md: how many sections, FDEs and rows the ELF files on a machine
have, by architecture, and which sections dwcheck-elf refuses.

    bench/elf/survey.py DWCHECK_ELF PATH ..        for example: build/dwcheck-elf --store machine.store /usr

What stands in a store isn't done again, so that the tables can be made once more of what was found.

For docs/SURVEY.md, the libraries of other architectures were installed from Debian's packages:
    apt-get install $(apt-cache search --names-only '^(libstdc\\+\\+6|libgfortran5|libc6(\\.1)?)-.*-cross$' | cut -d' ' -f1)
"""
import json
import subprocess
import sys
from collections import Counter, defaultdict

MACHINES = {
    2: "sparc", 3: "i386", 4: "m68k", 8: "mips", 15: "hppa", 18: "sparc (v8+)", 20: "powerpc", 21: "powerpc64", 22: "s390",
    40: "arm", 42: "sh4", 43: "sparc64", 62: "x86-64", 183: "aarch64", 190: "CUDA", 195: "arc", 224: "amdgpu", 243: "riscv",
    247: "bpf", 0x9026: "alpha",
}


def main():
    program, paths = sys.argv[1], sys.argv[2:]
    ran = subprocess.run([program, "survey", "--compare", "--all", "--json", *paths], stdout=subprocess.PIPE)
    machines = defaultdict(Counter)
    refused = []
    for line in ran.stdout.decode().splitlines():
        one = json.loads(line)
        if "totals" in one:
            totals = one["totals"]
            continue
        counts = machines[MACHINES.get(one.get("machine"), str(one.get("machine")))]
        counts["files"] += 1
        counts["unread"] += "error" in one
        if "error" in one:
            refused.append((one["file"], "", one["error"]))
        for section in one.get("sections", []):
            if "error" in section:
                refused.append((one["file"], section["section"], section["error"]))
                continue
            counts[section["section"]] += 1
            counts["accepted" if section["accepted"] else "refused"] += 1
            counts["fdes"] += section.get("fdes", 0)
            counts["rows"] += section.get("rows", 0)
            # The text of each Overlap fault names a different FDE. It is left out, so that a
            # section's overlaps are counted together.
            told = [(fault["fault"], fault["fault"] != "Overlap" and fault["what"]) for fault in section.get("faults", [])]
            for (fault, what), count in Counter(told).items():
                times = f", {count:,} times" if count > 1 else ""
                refused.append((one["file"], section["section"], fault + (f": {what}" if what else "") + times))
    names = [".eh_frame", ".debug_frame", ".debug_loclists"]
    print("| Architecture | Files | " + " | ".join(f"`{name}`" for name in names) + " | Accepted | Refused | FDEs | Rows |")
    print("|---" * 9 + "|")
    for machine, counts in sorted(machines.items()):
        numbers = [counts[name] for name in ["files", *names, "accepted", "refused", "fdes", "rows"]]
        print(f"| {machine} | " + " | ".join(f"{number:,}" for number in numbers) + " |")
    print("\n| File | Section | Fault |\n|---|---|---|")
    for file, section, fault in refused:
        print(f"| `{file}` | {section and f'`{section}`'} | {fault} |")
    print("\n" + ", ".join(f"{name} {count:,}" for name, count in totals.items()))
    print(f"status {ran.returncode}")


if __name__ == "__main__":
    main()
