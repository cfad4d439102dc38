#!/usr/bin/env python3
"""Runs programs with and without `dwcheck-elf trace`, and compares what they write and how they end.

    bench/elf/trace.py DWCHECK_ELF [--rate] [--only WORD] [--seconds N]

The programs are some fifty of a Debian 12 machine, in several languages; those that aren't installed are
left out. Each is run in a folder of its own. A line for each has the time without and with tracing, how
many instructions were stepped and how many addresses were judged, and what was found; at the end are the
totals, and each function with a finding once. If a program behaves in another way when it is traced, the
exit status is 1.

With --rate, only the rate of stepping is measured: `trace --all` beside a loop that does nothing else,
which is compiled from the text below, both with the same program.
"""
import argparse
import collections
import json
import os
import shutil
import subprocess
import sys
import tempfile
import time

BARE = r"""
#include <stdio.h>
#include <sys/ptrace.h>
#include <sys/wait.h>
#include <time.h>
#include <unistd.h>
int main(int count, char **words) {
    pid_t child = fork();
    if (child == 0) { ptrace(PTRACE_TRACEME, 0, 0, 0); execvp(words[1], words + 1); _exit(127); }
    int status;
    long steps = 0;
    struct timespec begin, end;
    waitpid(child, &status, 0);
    clock_gettime(CLOCK_MONOTONIC, &begin);
    while (!WIFEXITED(status) && !WIFSIGNALED(status)) {
        ptrace(PTRACE_SINGLESTEP, child, 0, 0);
        waitpid(child, &status, 0);
        steps++;
    }
    clock_gettime(CLOCK_MONOTONIC, &end);
    double seconds = end.tv_sec - begin.tv_sec + (end.tv_nsec - begin.tv_nsec) / 1e9;
    fprintf(stderr, "%ld %.6f\n", steps, seconds);
}
"""

C = r"""
#include <stdio.h>
#include <stdlib.h>
#include <string.h>
struct node { int key; struct node *left, *right; };
static struct node *put(struct node *n, int key) {
    if (!n) { n = calloc(1, sizeof *n); n->key = key; return n; }
    if (key < n->key) n->left = put(n->left, key); else n->right = put(n->right, key);
    return n;
}
static long sum(struct node *n) { return n ? n->key + sum(n->left) + sum(n->right) : 0; }
int main(void) {
    struct node *root = NULL;
    for (int i = 0; i < 300; i++) root = put(root, i * 7919 % 1009);
    char text[100];
    snprintf(text, sizeof text, "%.30g %ld", 1 / 3., sum(root));
    puts(text);
    return strlen(text) % 7;
}
"""

CXX = r"""
#include <iostream>
#include <map>
#include <regex>
#include <sstream>
#include <stdexcept>
int main() {
    std::map<std::string, int> words;
    std::istringstream text("the cat and the dog and the bird");
    for (std::string word; text >> word;) words[word]++;
    for (auto &[word, n] : words) std::cout << word << ' ' << n << '\n';
    std::cout << std::regex_match("abc123", std::regex("[a-z]+[0-9]+")) << '\n';
    try { std::stoi("x"); } catch (const std::invalid_argument &e) { std::cout << e.what() << '\n'; }
}
"""

GO = r"""
package main

import ("fmt"; "sort"; "strings")

func main() {
	words := strings.Fields("the cat and the dog and the bird")
	sort.Strings(words)
	done := make(chan int)
	for i := 0; i < 4; i++ { go func(n int) { done <- n * n }(i) }
	sum := 0
	for i := 0; i < 4; i++ { sum += <-done }
	fmt.Println(words, sum)
}
"""

RUST = r"""
use std::collections::BTreeMap;
fn main() {
    let mut words = BTreeMap::new();
    for word in "the cat and the dog and the bird".split(' ') { *words.entry(word).or_insert(0) += 1; }
    let caught = std::panic::catch_unwind(|| { if words.len() > 3 { panic!("many") } });
    println!("{:?} {}", words, caught.is_err());
    let sums: Vec<u64> = (0..4).map(|n| std::thread::spawn(move || (0..n).sum())).map(|t| t.join().unwrap()).collect();
    println!("{:?}", sums);
}
"""

# What is made before the programs run: a command line, and the program that it needs.
MADE = [
    ("gcc", "gcc -O2 c.c -o c-program && gcc -O0 c.c -o c-program-O0 && gcc -O2 -static c.c -o c-static"),
    ("clang", "clang -O2 c.c -o c-clang"),
    ("g++", "g++ -O2 -std=c++17 cxx.cc -o cxx-program"),
    ("clang++", "clang++ -O2 -std=c++17 cxx.cc -o cxx-clang"),
    ("go", "HOME=$PWD GOCACHE=$PWD/.cache go build -o go-program go.go"),
    ("rustc", "rustc -O rust.rs -o rust-program 2> /dev/null"),
]

# The command lines. What they write has to be the same each time.
LINES = """
ls -l /usr/lib/os-release
ls -R /usr/share/doc/bash
cat c.c
sort -r c.c
sort -n -k2 c.c
uniq -c c.c
wc c.c cxx.cc
grep -n int c.c
grep -E -o '[a-z]+ \\*' c.c
sed 's/int/long/g; $d' c.c
awk '{ n += NF } END { print n, NR }' c.c
tr a-z A-Z < c.c
cut -c1-10 c.c
head -5 c.c
tail -5 c.c
od -x c.c
md5sum c.c cxx.cc
sha256sum c.c
sha512sum c.c
base64 c.c
date -u -d @0
expr 6 '*' 7
seq -s, 1 50
factor 123456789012
printf '%s %d\\n' word 5
find . -maxdepth 1 -name '*.c'
diff c.c cxx.cc
cmp c.c cxx.cc
tar cf - c.c
gzip -c c.c
gzip -c c.c | zcat
xz -c c.c
bzip2 -c c.c
zstd -c c.c
file c.c
bash -c 'for i in 1 2 3; do echo $((i * i)) | cat; done; f() { local x=$1; echo ${x^^}; }; f word'
bash -c 'x=$(echo a b c | wc -w); [[ $x == 3 ]] && exit 5'
dash -c 'i=0; while [ $i -lt 20 ]; do i=$((i + 1)); done; echo $i'
perl -e 'my %h; $h{$_}++ for split / /, "a b a"; print join(",", map { "$_=$h{$_}" } sort keys %h), "\\n"; eval { die "x" }; print $@'
python3 -S -c 'print(sum(i * i for i in range(100)), sorted({"b": 1, "a": 2}))'
python3 -c 'import json, re; print(json.dumps({"a": [1, 2.5]}), re.sub("a+", "b", "caat"))'
sqlite3 :memory: 'create table t(a, b); insert into t values (1, 2), (3, 4); select sum(a * b), count(*) from t;'
git --version
git hash-object c.c
openssl dgst -sha256 c.c
openssl version
curl --version
gcc -S -O1 c.c -o -
g++ -fsyntax-only -std=c++17 cxx.cc
as --version
ld --version
objdump -d c-program
readelf -S c-program
nm c-program
strings c-program
clang -S -O1 c.c -o -
make -s --version
bc --version
jq -n '[1, 2] | add'
gdb --version
./c-program
./c-program-O0
./c-static
./c-clang
./cxx-program
./cxx-clang
./go-program
./rust-program
node -e 'console.log([3, 1, 2].sort().join())'
ruby -e 'puts [3, 1, 2].sort.join(",")'
lua5.4 -e 'print(pcall(error, "x"))'
tclsh /dev/null
ocaml -version
guile --version
ghc --version
java -version
""".strip().replace("\\\\", "\\").splitlines()


def run(line, folder, environment=None):
    begin = time.monotonic()
    done = subprocess.run(["bash", "-c", line], cwd=folder, stdin=subprocess.DEVNULL, capture_output=True, timeout=900,
                          env=environment)
    return done, time.monotonic() - begin


def made(folder):
    for name, text in (("c.c", C), ("cxx.cc", CXX), ("go.go", GO), ("rust.rs", RUST)):
        with open(os.path.join(folder, name), "w") as file:
            file.write(text)
    for needed, line in MADE:
        if shutil.which(needed):
            run(line, folder)


def is_there(line, folder):
    name = line.split()[0]
    return os.path.exists(os.path.join(folder, name)) if name.startswith("./") else shutil.which(name) is not None


def traced_line(elf, line, options):
    """The command line with its first program traced."""
    return f"exec 3>&1; {elf} trace {options} --json --output trace.json -- {line}"


def results(folder):
    path = os.path.join(folder, "trace.json")
    if not os.path.exists(path):
        return [], {}, {}
    with open(path) as file:
        objects = [json.loads(line) for line in file]
    os.remove(path)
    findings = [one for one in objects if "kind" in one]
    coverage = [one["coverage"] for one in objects if "coverage" in one]
    totals = next((one["totals"] for one in objects if "totals" in one), {})
    judged = sum(one["judged"] for one in coverage)
    return findings, {"judged": judged, "instructions": sum(one["instructions"] for one in coverage)}, totals


def compare(elf, folder, options):
    functions = collections.Counter()
    totals = collections.Counter()
    different = 0
    lines = [line for line in LINES if is_there(line, folder)]
    for line in lines:
        if options.only and options.only not in line:
            continue
        own, own_time = run(line, folder)
        traced, traced_time = run(traced_line(elf, line, options.options), folder)
        findings, seen, counts = results(folder)
        alike = (own.stdout, own.stderr, own.returncode) == (traced.stdout, traced.stderr, traced.returncode)
        different += not alike
        for one in findings:
            function = one.get("function", hex(one["address"])).split("+0x")[0]
            functions[(os.path.basename(one["file"]), function, one["kind"], one["severity"])] += 1
        totals.update({"programs": 1, "seconds": traced_time, "judged": seen.get("judged", 0)})
        totals.update({name: counts.get(name, 0) for name in ("steps", "compared", "windows")})
        print(f"{'same' if alike else 'DIFFERS'} {own_time:.2f} {traced_time:.2f} s, steps {counts.get('steps', 0)}, "
              f"judged {seen.get('judged', 0)}, findings {len(findings)}: {line[:70]}", flush=True)
        if not alike:
            print(own.returncode, traced.returncode, own.stderr[-300:], traced.stderr[-300:])
    print(dict(totals))
    for (name, function, kind, severity), count in sorted(functions.items()):
        print(f"{name} {function}: {kind}, {severity}, in {count} programs")
    return different


def rate(elf, folder):
    """The rates of a bare loop and of trace --all, in turn, three times."""
    with open(os.path.join(folder, "bare.c"), "w") as file:
        file.write(BARE)
    run("gcc -O2 bare.c -o bare", folder)
    for _ in range(3):
        bare, _ = run("./bare ./c-program", folder)
        steps, seconds = bare.stderr.split()
        run(traced_line(elf, "./c-program", "--all"), folder)
        _, _, counts = results(folder)
        own = counts["steps"] / counts["seconds"]
        loop = float(steps) / float(seconds)
        print(f"bare loop {loop:.0f} steps/s, trace --all {own:.0f} steps/s, {own / loop:.0%}")


def main():
    parser = argparse.ArgumentParser(description=__doc__.splitlines()[0])
    parser.add_argument("elf")
    parser.add_argument("--rate", action="store_true")
    parser.add_argument("--only")
    parser.add_argument("--options", default="")
    options = parser.parse_args()
    elf = os.path.abspath(options.elf)
    with tempfile.TemporaryDirectory() as folder:
        made(folder)
        if options.rate:
            return rate(elf, folder)
        return compare(elf, folder, options) > 0


if __name__ == "__main__":
    sys.exit(main())
