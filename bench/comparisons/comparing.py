"""Shared by the scripts compare_*.py: makes random cases, compares what dwcheck writes for each
with what it must write, and counts the cases by kind.

A script calls compare(usage, make, case_of). `usage` is its usage text. make(seed) returns a maker,
which makes random sections, expressions and so on. case_of(maker) returns the maker's next case.
"""
import collections
import subprocess
import sys
import tempfile

# A case. `files` has the contents of its files by name, `runs` the runs of dwcheck on these files,
# and `kinds` the names under which the case is counted.
Case = collections.namedtuple("Case", "files runs kinds")
# A run of dwcheck. `wanted` is the output that dwcheck must write, and `said` is printed if the
# output differs. `words` has dwcheck's arguments except --big and --addr4, which check() adds. An
# argument that is a key of `files` is replaced by the path of that file.
Run = collections.namedtuple("Run", "said words wanted")


def refusal(text):
    """If a text says that the input is refused, "refused" and the name of the fault; otherwise
    None."""
    return " ".join(text.split()[:3:2]) if text.startswith("refused") else None


def written(program, words):
    """What the program writes to standard output, and then to standard error."""
    run = subprocess.run([program, *words], capture_output=True, text=True, check=False)
    return run.stdout + run.stderr


def check(program, maker, case, folder):
    for name, content in case.files.items():
        with open(f"{folder}/{name}", "wb") as file:
            file.write(content)
    flags = ["--big"] * maker.big + ["--addr4"] * (maker.size == 4)
    for run in case.runs:
        command, *words = [f"{folder}/{word}" if word in case.files else word for word in run.words]
        text = written(program, [command, *flags, *words])
        if text != run.wanted:
            raise SystemExit(f"{run.said}\nwanted {run.wanted}\nwritten {text}")


def compare(usage, make, case_of):
    if len(sys.argv) not in (3, 4):
        raise SystemExit(usage)
    program, count, seed = sys.argv[1], int(sys.argv[2]), int(sys.argv[3]) if len(sys.argv) == 4 else 0
    maker, counts = make(seed), collections.Counter()
    with tempfile.TemporaryDirectory() as folder:
        for _ in range(count):
            maker.start()
            case = case_of(maker)
            check(program, maker, case, folder)
            counts.update(case.kinds)
    for kind in sorted(counts):
        print(f"{counts[kind]:8} {kind}")
