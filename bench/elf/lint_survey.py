#!/usr/bin/env python3
"""Prints the tables of docs/SURVEY.md about `dwcheck-elf lint`: what was found, by kind and by file.

    dwcheck-elf lint --json /usr > findings; bench/elf/lint_survey.py findings

Private findings are left out.
"""
import json
import os
import sys
from collections import Counter, defaultdict

MOST_FILES = 15


def told(counts):
    return ", ".join(f"{count:,} {kind}" for kind, count in counts.most_common())


def main():
    files, kinds = {}, defaultdict(Counter)
    with open(sys.argv[1]) as lines:
        for line in lines:
            one = json.loads(line)
            if "kind" in one and one["kind"] != "private":
                kinds[one["file"]][one["kind"]] += 1
            elif "coverage" in one:
                files[one["file"]] = one["coverage"]
    total = sum(kinds.values(), Counter())
    print("| Kind | Findings | Files |\n|---|---|---|")
    for kind, count in total.most_common():
        print(f"| `{kind}` | {count:,} | {sum(kind in counts for counts in kinds.values())} |")
    print("\n| File | Instructions | Findings |\n|---|---|---|")
    for file, counts in sorted(kinds.items(), key=lambda item: -sum(item[1].values()))[:MOST_FILES]:
        print(f"| {os.path.basename(file)} | {files[file]['instructions']:,} | {told(counts)} |")
    instructions, judged = (sum(one[key] for one in files.values()) for key in ("instructions", "judged"))
    print(f"\n{len(files):,} files, {instructions:,} instructions, {100 * judged / max(instructions, 1):.3f} % judged, "
          f"{sum(total.values()):,} findings in {len(kinds)} files")


if __name__ == "__main__":
    main()
