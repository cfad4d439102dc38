//! What the tests share: temporary folders, runs of other tools, and source code to compile.

pub mod cores;
pub mod frames;
pub mod minidumps;
pub mod recordings;
pub mod run;
#[cfg(all(target_os = "linux", target_arch = "x86_64"))]
pub mod trace;
pub mod waiting;

use std::path::{Path, PathBuf};
use std::process::Command;
use std::sync::atomic::{AtomicUsize, Ordering};

/// How many folders were made.
static FOLDERS: AtomicUsize = AtomicUsize::new(0);

/// A temporary folder for one test, which is removed when the test ends.
pub struct Folder(PathBuf);

impl Folder {
    pub fn new(name: &str) -> Self {
        // The tests are threads of one process, and two may give their folders the same name.
        let number = FOLDERS.fetch_add(1, Ordering::Relaxed);
        let folder = std::env::temp_dir().join(format!("dwcheck-elf-{}-{}-{}", name, std::process::id(), number));
        std::fs::create_dir_all(&folder).unwrap();
        Folder(folder.canonicalize().unwrap())
    }

    pub fn path(&self) -> &Path {
        &self.0
    }

    pub fn file(&self, name: &str) -> PathBuf {
        self.0.join(name)
    }

    pub fn write(&self, name: &str, bytes: impl AsRef<[u8]>) -> PathBuf {
        let file = self.file(name);
        std::fs::write(&file, bytes).unwrap();
        file
    }

    pub fn bytes(&self, name: &str) -> Vec<u8> {
        std::fs::read(self.file(name)).unwrap()
    }

    /// Runs a command line in the folder, and returns what it prints. The command has to succeed.
    pub fn run(&self, line: &str) -> String {
        let output = Command::new("bash").args(["-c", line]).current_dir(&self.0).env("LC_ALL", "C").output().unwrap();
        let error = String::from_utf8_lossy(&output.stderr);
        assert!(output.status.success(), "{}\n{}", line, error);
        String::from_utf8_lossy(&output.stdout).into_owned()
    }

    /// Assembles a program by a compiler: the object `a.o`, and the library `a.so`.
    pub fn assemble(&self, compiler: &str, text: impl AsRef<[u8]>) {
        self.write("a.s", text);
        self.run(&format!("{0} -c a.s && {0} -nostdlib -shared a.s -o a.so", compiler));
    }

    /// Runs a program that a signal ends, and makes its core file `core`.
    pub fn make_core(&self, words: &str) {
        self.run(&format!("{}/../../tools/make_core.sh {}", env!("CARGO_MANIFEST_DIR"), words));
    }

    /// Runs a program that a signal ends which it doesn't handle, and makes its core file `core`: the
    /// kernel's, if it writes core files here, else gdb's.
    pub fn crash(&self, words: &str) {
        let kernel = format!("(ulimit -c unlimited; {}) > /dev/null 2>&1 < /dev/null", words);
        let gdb = format!("gdb --batch -ex 'set startup-with-shell off' -ex run -ex 'gcore core' --args {} < /dev/null > gdb.log 2>&1", words);
        self.run(&format!("rm -f core core.*; {}; [ -f core ] || mv core.* core 2> /dev/null || {}", kernel, gdb));
    }

    /// The bytes of a section of a file, decompressed, as objcopy writes them.
    pub fn section(&self, file: &str, section: &str) -> Vec<u8> {
        self.run(&format!("objcopy --decompress-debug-sections --dump-section {}=taken {} /dev/null", section, file));
        self.bytes("taken")
    }
}

impl Drop for Folder {
    fn drop(&mut self) {
        let _ = std::fs::remove_dir_all(&self.0);
    }
}

/// Says why a test, or a part of it, doesn't run. If the environment variable DWCHECK_NO_SKIPS is
/// set, as it is under `make test`, the test fails.
pub fn skipped(why: &str) {
    assert!(std::env::var_os("DWCHECK_NO_SKIPS").is_none(), "not run: {}", why);
    eprintln!("skipped: {}", why);
}

/// Whether a tool is installed. If not, the test is `skipped`.
pub fn has(tool: &str) -> bool {
    let found = std::env::split_paths(&std::env::var_os("PATH").unwrap()).any(|folder| folder.join(tool).is_file());
    if !found {
        skipped(&format!("{} isn't installed", tool));
    }
    found
}

/// Whether gdb can run programs. DWCHECK_NO_PTRACE says that the machine forbids it.
pub fn may_trace() -> bool {
    has("gdb") && std::env::var_os("DWCHECK_NO_PTRACE").is_none()
}

/// A hexadecimal number, with or without 0x.
pub fn hex(text: &str) -> u64 {
    u64::from_str_radix(text.trim_start_matches("0x"), 16).unwrap_or_else(|_| panic!("no number: {}", text))
}

/// The offset of `part` in `bytes`, which have to contain it exactly once.
pub fn place_of(bytes: &[u8], part: &[u8]) -> usize {
    let places: Vec<_> = (0..bytes.len()).filter(|place| bytes[*place..].starts_with(part)).collect();
    assert_eq!(places.len(), 1, "{:x?} is at {:?}", part, places);
    places[0]
}

/// A program in C with functions that save registers and move the stack.
pub const C: &str = "
#include <stdio.h>
#include <stdlib.h>
__attribute__((noinline)) int twice(int x) { return x + x; }
__attribute__((noinline)) long mixed(long a, long b, long c, long d, long e, long f, long g) {
    long held[9];
    for (int i = 0; i < 9; i++) held[i] = twice(a + i) * twice(b - i) + c * d + e * f + g;
    return held[twice(a) % 9 & 7];
}
__attribute__((noinline)) int sorted(const void *x, const void *y) { return *(const int *)x - *(const int *)y; }
int main(int argc, char **argv) {
    int all[] = {4, 2, 3, argc};
    qsort(all, 4, sizeof *all, sorted);
    char *grown = __builtin_alloca(argc * 16);
    grown[0] = argv[0][0];
    return printf(\"%ld %d\\n\", mixed(argc, 1, 2, 3, 4, 5, 6), grown[0] + all[0]) < 0;
}
";

/// A program in C++ that throws an exception through functions whose objects have to be destroyed.
pub const CXX: &str = "
#include <string>
#include <vector>
#include <stdexcept>
struct Loud { std::string name; ~Loud() { if (name.size() > 99) __builtin_abort(); } };
__attribute__((noinline)) void thrower(int n, const std::string &s) { if (n > 2) throw std::runtime_error(s); }
__attribute__((noinline)) int middle(int n, int a, int b, int c, int d, int e, int f, int g) {
    Loud loud{std::to_string(n)};
    std::vector<Loud> more(n);
    thrower(n, loud.name);
    return n + a + b + c + d + e + f + g + more.size();
}
int main(int argc, char **) {
    try { return middle(argc, 1, 2, 3, 4, 5, 6, 7) & 1; }
    catch (const std::exception &e) { return e.what()[0]; }
}
";

/// The prefixes of the names of other machines' binutils.
pub const MACHINES: [&str; 12] = [
    "i686-linux-gnu",
    "aarch64-linux-gnu",
    "alpha-linux-gnu",
    "arm-linux-gnueabihf",
    "hppa-linux-gnu",
    "mips-linux-gnu",
    "powerpc-linux-gnu",
    "powerpc64-linux-gnu",
    "powerpc64le-linux-gnu",
    "riscv64-linux-gnu",
    "s390x-linux-gnu",
    "sparc64-linux-gnu",
];
