#!/usr/bin/env python3
"""Has dwcheck-elf fetch what a core file needs from servers of debuginfod on this machine, good and bad ones.

    bench/elf/debuginfod.py DWCHECK_ELF

A program that crashes is compiled, stripped, and taken away; Debian's debuginfod serves it and its debug information.
`stack` has to print the frames that it prints with the program. Then debuginfod-find has to find what dwcheck-elf has
fetched while no server runs, and dwcheck-elf what debuginfod-find has fetched. Other servers are silent, slow, down, or
send another file, endless bytes or redirects to nowhere: `stack` has to end within one time-out for each, say so, and
use nothing of what came. `lint` has to name the functions of stripped libraries by what a server sends, and to ask for
nothing if it finds nothing; with a store, too. With --no-debuginfod, and without DEBUGINFOD_URLS, no server is asked.
This needs gcc, gdb, elfutils, debuginfod and binutils.
"""
import http.server
import os
import pathlib
import re
import shutil
import signal
import socket
import subprocess
import sys
import tempfile
import threading
import time

SOURCE = """
#include <stdlib.h>
static inline __attribute__((always_inline)) int inner(volatile int *p) { if (*p > 1) abort(); return *p; }
__attribute__((noinline)) int outer(int n) { volatile int kept = n; return inner(&kept) + 1; }
int main(int argc, char **argv) { return outer(argc + 2) + 1; }
"""
# A local function whose push has no row, and one that is right.
WRONG = """.text
.type wrong, @function
wrong: .cfi_startproc
 push %rax
 mov %rdi, %rax
 pop %rcx
 ret
 .cfi_endproc
.size wrong, .-wrong
"""
RIGHT = WRONG.replace("wrong", "right").replace(" push %rax\n", "").replace(" pop %rcx\n", "")
TIMEOUT = 3
TOP = pathlib.Path(__file__).resolve().parent.parent.parent


def free_port():
    with socket.socket() as one:
        one.bind(("127.0.0.1", 0))
        return one.getsockname()[1]


class Server:
    """A server that answers each request by a function, and counts them."""

    def __init__(self, answer):
        self.asked = []
        outer = self

        class Handler(http.server.BaseHTTPRequestHandler):
            def do_GET(self):
                outer.asked.append(self.path)
                try:
                    answer(self)
                except (BrokenPipeError, ConnectionResetError):
                    pass

            def log_message(self, *words):
                pass

        self.server = http.server.ThreadingHTTPServer(("127.0.0.1", 0), Handler)
        self.server.daemon_threads = True
        threading.Thread(target=self.server.serve_forever, daemon=True).start()
        self.url = f"http://127.0.0.1:{self.server.server_address[1]}"


def silent(_):
    time.sleep(60)


def slow(handler):
    handler.send_response(200)
    handler.send_header("Content-Length", "100000")
    handler.end_headers()
    for _ in range(60):
        handler.wfile.write(b"x")
        handler.wfile.flush()
        time.sleep(1)


def lies(other):
    def answer(handler):
        data = pathlib.Path(other).read_bytes()
        handler.send_response(200)
        handler.send_header("Content-Length", str(len(data)))
        handler.end_headers()
        handler.wfile.write(data)
    return answer


def redirects(handler):
    handler.send_response(302)
    handler.send_header("Location", handler.path + "/again")
    handler.end_headers()


def missing(handler):
    handler.send_error(404)


class Bench:
    def __init__(self, tool, folder):
        self.tool, self.folder, self.failed, self.number = tool, folder, 0, 0

    def environment(self, urls, cache):
        kept = {name: value for name, value in os.environ.items() if not name.startswith("DEBUGINFOD_")}
        more = {"DEBUGINFOD_URLS": urls} if urls is not None else {}
        return {**kept, "HOME": str(cache), "XDG_CACHE_HOME": str(cache), "DEBUGINFOD_TIMEOUT": str(TIMEOUT), **more}

    def cache(self):
        self.number += 1
        folder = self.folder / f"cache{self.number}"
        folder.mkdir()
        return folder

    def stack(self, urls, *words, cache=None):
        begin = time.time()
        # Lines of the C library would take longer than what is measured.
        words = words or ["--no-inline", "--no-source"]
        ran = subprocess.run([self.tool, "stack", *words, "core"], cwd=self.folder, capture_output=True, text=True,
                             env=self.environment(urls, cache or self.cache()), timeout=300)
        return ran.stdout, ran.stderr, time.time() - begin

    def lint(self, urls, *words):
        begin = time.time()
        ran = subprocess.run([self.tool, "lint", *words], cwd=self.folder, capture_output=True, text=True,
                             env=self.environment(urls, self.cache()), timeout=300)
        return ran.stdout, ran.stderr, time.time() - begin

    def check(self, what, holds, *shown):
        print(f"{'ok' if holds else 'FAILED'} {what}", flush=True)
        if not holds:
            self.failed += 1
            print(*shown, sep="\n")


def prepare(folder):
    def run(line):
        subprocess.run(line, shell=True, cwd=folder, check=True, capture_output=True)
    (folder / "a.c").write_text(SOURCE)
    (folder / "served").mkdir()
    run("gcc -O2 -g a.c -o program && objcopy --only-keep-debug program served/program.debug && strip program")
    run(f"echo 0x33 > /proc/self/coredump_filter; {TOP}/tools/make_core.sh ./program")
    run("gcc -O1 -g a.c -o other")
    for name, text in (("wrong1", WRONG), ("wrong2", WRONG + " nop\n"), ("right", RIGHT)):
        (folder / f"{name}.s").write_text(text)
        run(f"gcc -g -nostdlib -shared -Wl,--build-id {name}.s -o {name}.so && objcopy --only-keep-debug {name}.so served/{name}.debug")
        run(f"strip {name}.so")


def start_debuginfod(folder):
    port = free_port()
    server = subprocess.Popen(["debuginfod", "-F", "-p", str(port), "-d", ":memory:", "served"], cwd=folder, env={**os.environ, "DEBUGINFOD_URLS": ""},
                              stdout=subprocess.DEVNULL, stderr=subprocess.DEVNULL)
    time.sleep(8)
    return server, f"http://127.0.0.1:{port}"


def judge_good(bench, folder, url, expected):
    cache = bench.cache()
    found, why, _ = bench.stack(url, "--limit", "100", cache=cache)
    own = [line for line in expected.splitlines() if "/program)" in line]
    names = lambda text: [re.sub(r" \(.*/", " (", line) for line in text.splitlines() if "/program)" in line]
    bench.check("the frames are those with the program", len(own) > 2 and names(found) == names(expected), expected, found, why)
    build = subprocess.run(["readelf", "-n", "served/program"], cwd=folder, capture_output=True, text=True).stdout
    build = re.search(r"Build ID: (\w+)", build)[1]
    find = lambda kind, urls, where: subprocess.run(["debuginfod-find", kind, build], capture_output=True, text=True, env=bench.environment(urls, where))
    shared = [find(kind, "http://127.0.0.1:1", cache).returncode for kind in ("executable", "debuginfo")]
    bench.check("debuginfod-find finds what was fetched", shared == [0, 0], shared)
    other = bench.cache()
    find("executable", url, other), find("debuginfo", url, other)
    found, why, _ = bench.stack("http://127.0.0.1:1", "--limit", "100", cache=other)
    bench.check("what debuginfod-find has fetched is found", names(found) == names(expected), found, why)


def judge_bad(bench, folder, good):
    down = f"http://127.0.0.1:{free_port()}"
    for name, server, longest in (("silent", Server(silent), TIMEOUT + 3), ("slow", Server(slow), 2 * TIMEOUT + 4), ("redirecting", Server(redirects), 3)):
        out, why, took = bench.stack(server.url)
        bench.check(f"a {name} server takes {took:.1f} s and is asked {len(server.asked)} times", took < longest and "not asked again" in why, out, why)
        out, why, took = bench.stack(f"{server.url} {good}")
        bench.check(f"a {name} server before a good one", " outer" in out and took < longest + 3, took, out, why)
    out, why, took = bench.stack(down)
    bench.check("a server that is down takes no time", took < 1 and "not asked again" in why, took, why)
    liar = Server(lies(folder / "other"))
    out, why, took = bench.stack(liar.url)
    bench.check("another file isn't used", liar.asked and " outer" not in out and "build id" in why, out, why)
    out, why, took = bench.stack(f"{Server(missing).url} {good}")
    bench.check("what one server hasn't, another one has", " outer" in out, out, why)


def judge_lint(bench, good):
    files = ["wrong1.so", "wrong2.so"]
    is_named = lambda out: out.count("push without row at wrong+0x1 (0x") == len(files)
    out, why, _ = bench.lint(good, *files)
    bench.check("findings are named by what a server sends", is_named(out) and not why, out, why)
    out, why, _ = bench.lint(good, "--sarif", *files)
    bench.check("they have its lines", is_named(out) and out.count('"startLine": 5') == len(files), out, why)
    server = Server(missing)
    for urls, words in ((server.url, ["--no-debuginfod"]), (None, []), ("", [])):
        out, why, _ = bench.lint(urls, *words, *files)
        bench.check("without a server findings have addresses", out.count("push without row at a function without a name (0x") == len(files) and not why, out, why)
    for words in ([], ["--store", "right.store"], ["--store", "right.store"]):
        bench.lint(server.url, *words, "right.so")
    bench.check("nothing is asked for a library without findings", not server.asked, server.asked)
    for urls, has_names in ((good, True), (good, True), (server.url, False), (good, True), (None, False)):
        out, why, _ = bench.lint(urls, "--store", "wrong.store", *files)
        bench.check(f"with a store they {'have names' if has_names else 'have no names'}", is_named(out) == has_names and out.count("push without row") == len(files) and not why, out, why)
    server = Server(silent)
    out, why, took = bench.lint(server.url, "--jobs", "2", *files)
    bench.check(f"a silent server takes {took:.1f} s and is asked {len(server.asked)} times, and findings are shown",
                took < TIMEOUT + 3 and out.count("push without row at a function without a name (0x") == len(files) and "not asked again" in why, out, why)
    out, why, _ = bench.lint(Server(lies(bench.folder / "other")).url, *files)
    bench.check("another file names nothing", out.count("push without row at a function without a name (0x") == len(files) and why.count("build id") == len(files), out, why)


def judge_off(bench):
    server = Server(missing)
    for urls, words in ((server.url, ["--no-debuginfod"]), (None, []), ("", [])):
        bench.stack(urls, *words)
    bench.check("no server is asked unless it is wanted", not server.asked, server.asked)
    bench.stack(server.url)
    asked = [path.split("/")[2] for path in server.asked]
    vdso = re.search(r"Build ID: (\w+)", subprocess.run("eu-unstrip -n -p $$", shell=True, capture_output=True, text=True).stdout or "")
    kernel = subprocess.run("eu-unstrip -n -p $$ | grep vdso", shell=True, capture_output=True, text=True).stdout.split()
    id_of_vdso = kernel[1].split("@")[0] if len(kernel) > 1 else "none"
    bench.check("the vDSO is asked of no server", asked and id_of_vdso not in asked and vdso is None, asked)
    silent_server = Server(silent)
    environment = bench.environment(silent_server.url, bench.cache())
    process = subprocess.Popen([bench.tool, "stack", "--no-inline", "--no-source", "core"], cwd=bench.folder, env=environment, stdout=subprocess.PIPE, stderr=subprocess.PIPE, text=True)
    time.sleep(1)
    begin = time.time()
    process.send_signal(signal.SIGINT)
    out, why = process.communicate(timeout=60)
    took = time.time() - begin
    bench.check(f"Ctrl-C ends a fetch in {took:.1f} s, and the stack is printed", took < 2 and "stop: " in out, out, why, process.returncode)


def main():
    if len(sys.argv) != 2:
        raise SystemExit(__doc__)
    with tempfile.TemporaryDirectory() as name:
        folder = pathlib.Path(name)
        bench = Bench(os.path.abspath(sys.argv[1]), folder)
        prepare(folder)
        shutil.copy(folder / "program", folder / "served/program")
        # The names and lines are those of the separate file, which is found beside the program.
        with_debug = folder / "with"
        (with_debug / ".build-id").mkdir(parents=True)
        build = re.search(r"Build ID: (\w+)", subprocess.run(["readelf", "-n", "program"], cwd=folder, capture_output=True, text=True).stdout)[1]
        (with_debug / ".build-id" / build[:2]).mkdir()
        shutil.copy(folder / "served/program.debug", with_debug / ".build-id" / build[:2] / f"{build[2:]}.debug")
        expected, _, _ = bench.stack(None, "--path", "with")
        os.remove(folder / "program")
        shutil.rmtree(with_debug)
        server, url = start_debuginfod(folder)
        try:
            judge_good(bench, folder, url, expected)
            judge_bad(bench, folder, url)
            judge_lint(bench, url)
            judge_off(bench)
        finally:
            server.terminate()
            server.wait()
        print(f"failed {bench.failed}")
    raise SystemExit(bench.failed > 0)


if __name__ == "__main__":
    main()
