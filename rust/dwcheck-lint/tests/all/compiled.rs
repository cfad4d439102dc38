//! Programs in C and C++ by gcc and clang, at several levels, with options that change frames. Nothing is
//! found in them, and nearly all of their code is judged.

use crate::common::programs::{C, CXX, LEVELS};
use crate::common::{found, has, Folder, Found};

/// Nothing is found in a program, and all of it is judged but its first instructions.
fn quiet(folder: &Folder, line: &str) {
    let Found { mut kinds, coverage } = found(folder, line);
    // GCC 12 writes wrong rows at the end of each function that realigns its stack.
    if line.starts_with('g') {
        kinds.retain(|kind| kind != "DRAP epilogue");
    }
    assert_eq!(kinds, [""; 0], "{}", line);
    let (judged, all) = (coverage.judged, coverage.instructions);
    // The first instructions of a program are in the outermost frame.
    assert!(all - judged <= 12, "{}: {} of {}", line, judged, all);
}

#[test]
fn c_by_gcc_and_clang() {
    let folder = Folder::new("c");
    folder.write("a.c", C);
    let options = [
        "",
        "-fomit-frame-pointer",
        "-fno-omit-frame-pointer",
        "-fstack-protector-all",
        "-fcf-protection=full",
        "-fstack-clash-protection",
        "-mavx2",
        "-fno-plt",
        "-static-pie",
    ];
    for compiler in ["gcc", "clang"].into_iter().filter(|compiler| has(compiler)) {
        for level in LEVELS {
            for option in options.into_iter().filter(|option| !option.starts_with("-static")) {
                quiet(&folder, &format!("{} -w {} {} a.c -o out", compiler, level, option));
            }
        }
    }
}

#[test]
fn c_by_gcc_with_options_of_its_own() {
    let folder = Folder::new("gcc");
    folder.write("a.c", C);
    for level in LEVELS {
        for option in [
            "-maccumulate-outgoing-args",
            "-mpreferred-stack-boundary=5",
            "-fno-shrink-wrap",
            "-freorder-blocks-and-partition",
        ] {
            quiet(&folder, &format!("gcc -w {} {} a.c -o out", level, option));
        }
    }
}

/// What GCC 12 writes at the end of a function that realigns its stack: the row finds rbp by rbp, which
/// is the caller's there.
#[test]
fn realigned_stacks_by_gcc() {
    let folder = Folder::new("realigned");
    folder.write("a.c", C);
    assert_eq!(found(&folder, "gcc -w -O0 a.c -o out").kinds, ["DRAP epilogue"]);
}

/// LLVM moves the addition at the end of two blocks up over the conditional jump to them, and leaves its
/// rows in both.
const HOISTED: &str = "
#include <stdlib.h>
struct S { void *p; char inside[64]; int n; void **q; };
__attribute__((noinline)) void drop(void *p, long s, long a) { __asm__ volatile(\"\" :: \"r\"(p), \"r\"(s), \"r\"(a) : \"memory\"); }
__attribute__((noinline)) void f(struct S *s) {
    void **q = s->q;
    int n = s->n;
    for (long i = 0; i < n; i++) drop(q[i], 7, 16);
    for (long i = 0; i < n; i++) drop(q[i], 4096, 16);
    if (s->p != s->inside) free(s->p);
}
int main(void) { struct S s = { 0 }; s.p = s.inside; f(&s); return 0; }
";

/// A stack that GCC realigns, in a function with arguments on the stack.
const REALIGNED: &str = "
typedef double v4 __attribute__((vector_size(32)));
__attribute__((noinline)) void use(void *p) { __asm__ volatile(\"\" :: \"r\"(p) : \"memory\"); }
__attribute__((noinline)) double f(long a, long b, long c, long d, long e, long g, double *x, long n) {
    char grown[n * 16];
    use(grown);
    v4 sums[4] = {{0}};
    for (long i = 0; i < n; i++) { use(sums); sums[i & 3] += (v4){ x[i], a, b, c }; x[i] += d + e + g; }
    use(sums);
    return sums[0][0] + sums[1][1] + sums[2][2] + sums[3][3];
}
int main(void) { double x[8] = { 1 }; return f(1, 2, 3, 4, 5, 6, x, 8) == 3.5; }
";

/// The defects of the compilers of Debian 12.
#[test]
fn what_compilers_write_wrongly() {
    let folder = Folder::new("wrong");
    folder.write("hoisted.c", HOISTED);
    folder.write("realigned.c", REALIGNED);
    let cases = [
        ("clang -O2 hoisted.c", "moved epilogue"),
        ("gcc -O2 -mavx2 realigned.c", "DRAP epilogue"),
        ("gcc -O2 -mavx2 -frename-registers realigned.c", "CFA register overwritten"),
    ];
    for (line, kind) in cases.iter().filter(|(line, _)| has(&line[..line.find(' ').unwrap()])) {
        assert_eq!(found(&folder, &format!("{} -w -o out", line)).kinds, [*kind], "{}", line);
    }
}

#[test]
fn exceptions_by_gcc_and_clang() {
    let folder = Folder::new("cxx");
    folder.write("a.cc", CXX);
    for compiler in ["g++", "clang++"].into_iter().filter(|compiler| has(compiler)) {
        for level in LEVELS {
            for option in ["", "-fno-omit-frame-pointer", "-mno-accumulate-outgoing-args", "-fcf-protection=full"] {
                if !(compiler == "clang++" && option.starts_with("-mno")) {
                    quiet(&folder, &format!("{} -w {} {} a.cc -o out", compiler, level, option));
                }
            }
        }
    }
}
