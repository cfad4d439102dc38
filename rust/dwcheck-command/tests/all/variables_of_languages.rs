//! Shows the variables of programs in Fortran and Go, and those of threads. What is expected is what the source
//! says, and gdb shows.

use crate::common::run::{dwcheck_elf, Ran};
use crate::common::{has, may_trace, Folder};

/// The lines of variables, without their indentation and without where they are.
fn values(ran: &Ran) -> Vec<String> {
    let line = |line: &str| line.trim().split(" (").next().unwrap().to_string();
    ran.out.lines().filter(|line| line.starts_with("    ")).map(line).collect()
}

fn has_values(ran: &Ran, expected: &[&str]) {
    let found = values(ran);
    for expected in expected {
        assert!(found.iter().any(|found| found == expected), "no {}: {} {}", expected, ran.out, ran.error);
    }
}

const FORTRAN: &str = "
module shapes
  implicit none
  type point
    integer :: x
    real(8) :: y
  end type point
contains
  subroutine work(n, scale, p, label)
    integer, intent(in) :: n
    real(8), intent(in) :: scale
    type(point), intent(in) :: p
    character(len=5), intent(in) :: label
    integer :: counts(3), grid(2, 0:2)
    logical :: big
    real(4) :: half
    integer(8) :: wide
    integer, pointer :: none
    counts = (/ n, 2 * n, -3 /)
    grid = reshape((/ 1, 2, 3, 4, 5, 6 /), (/ 2, 3 /))
    big = n > 3
    half = 0.5
    wide = 5000000000_8
    none => null()
    counts(1) = none + 1
    print *, counts, grid, big, half, scale, p%x, label, wide
  end subroutine work
end module shapes
program main
  use shapes
  implicit none
  type(point) :: p
  p = point(7, 2.5d0)
  call work(4, 1.25d0, p, 'hello')
end program main
";

#[test]
fn variables_of_fortran() {
    let folder = Folder::new("vars-fortran");
    if !may_trace() || !has("gfortran") {
        return;
    }
    folder.write("a.f90", FORTRAN);
    for flags in ["-O0 -g", "-O0 -g -gdwarf-4"] {
        folder.run(&format!("gfortran {} a.f90 -o program", flags));
        folder.run("gdb --batch -ex 'set startup-with-shell off' -ex run -ex 'gcore core' ./program < /dev/null");
        let ran = dwcheck_elf(&folder, "vars --core core");
        assert_eq!((ran.status, ran.lines()[0]), (0, "function work (a.f90:9)"), "{}: {:?}", flags, ran);
        let parameters = [
            "param n: integer(kind=4) = 4",
            "param scale: real(kind=8) = 1.25",
            "param label: character(5) = \"hello\"",
        ];
        has_values(&ran, &parameters);
        has_values(&ran, &["param p: point = {x = 7, y = 2.5}"]);
        if flags == "-O0 -g" {
            let variables = [
                "var big: logical(kind=4) = true",
                "var counts: integer(kind=4) [3] = {4, 8, -3}",
                "var grid: integer(kind=4) [2][3] = {{1, 2}, {3, 4}, {5, 6}}",
                "var half: real(kind=4) = 0.5",
                "var wide: integer(kind=8) = 5000000000",
            ];
            has_values(&ran, &variables);
        }
    }
}

const GO: &str = "
package main

import \"os\"

type point struct {
	x int32
	y float64
}

//go:noinline
func work(n int, p point, name string, flag bool, values []int, bytes [3]uint8) int {
	double := 2 * n
	half := float32(0.5)
	pointer := &p
	var none *int
	total := 0
	for i, v := range values {
		total += i * v
	}
	return *none + double + int(half) + int(pointer.x) + total + len(name) + int(bytes[0])
}

func main() { os.Exit(work(len(os.Args)+3, point{7, 2.5}, \"hello\", true, []int{4, 5, 6}, [3]uint8{1, 2, 250})) }
";

#[test]
fn variables_of_go() {
    let folder = Folder::new("vars-go");
    if !may_trace() || !has("go") {
        return;
    }
    folder.write("main.go", GO);
    folder.run("HOME=$PWD GOFLAGS=-mod=mod go build -gcflags='-N -l' -o program main.go");
    folder.run("gdb --batch -ex 'set startup-with-shell off' -ex run -ex 'gcore core' ./program < /dev/null");
    let ran = dwcheck_elf(&folder, "vars --core core");
    assert_eq!((ran.status, ran.lines()[0]), (0, "function main.work (main.go)"), "{:?}", ran);
    let expected = [
        "param n: int = 4",
        "param p: main.point = {x = 7, y = 2.5}",
        "param flag: bool = true",
        "param values: []int = {4, 5, 6}",
        "param bytes: [3]uint8 = {1, 2, 250}",
        "var double: int = 8",
        "var half: float32 = 0.5",
        "var none: *int = 0x0",
        "var total: int = 17",
    ];
    has_values(&ran, &expected);
    let name = values(&ran).into_iter().find(|value| value.starts_with("param name: string = 0x"));
    assert!(name.map_or(false, |name| name.ends_with(" \"hello\"")), "{}", ran.out);
}

/// A library with a variable of the thread, of which the program has one too.
const LIBRARY: &str = "
int count(int n) { static __thread long calls = 100; calls += n; if (n == 2) __builtin_trap(); return calls; }
";
const PROGRAM: &str = "
#include <pthread.h>
#include <stddef.h>
int count(int n);
__attribute__((noinline)) static int work(int n) {
    static __thread char before[20] = \"text\";
    static __thread int own = 40;
    own += n;
    before[0] += n;
    return count(n) + own + before[1];
}
static void *run(void *n) { return (void *)(long)work(*(int *)n); }
int main(void) {
    int two = 2;
    pthread_t thread;
    work(1);
    return pthread_create(&thread, NULL, run, &two) != 0 || pthread_join(thread, NULL) != 0;
}
";

#[test]
fn variables_of_a_thread() {
    let folder = Folder::new("vars-thread");
    if !may_trace() {
        return;
    }
    folder.write("b.c", LIBRARY);
    folder.write("a.c", PROGRAM);
    let models = ["-fPIC", "-fPIC -ftls-model=initial-exec", "-fPIC -mtls-dialect=gnu -O1"];
    for model in models {
        folder.run(&format!(
            "gcc -g {} -shared b.c -o libb.so && gcc -g a.c -o program -L. -lb -Wl,-rpath,. -pthread",
            model
        ));
        folder.crash("./program");
        let inner = dwcheck_elf(&folder, "vars --core core");
        has_values(&inner, &["var calls: long int = 102"]);
        let outer = dwcheck_elf(&folder, "vars --core core --frame 1");
        has_values(&outer, &["var before: char [20] = \"vext\"", "var own: int = 42"]);
    }
    folder.run("gcc -g -static a.c b.c -o program -pthread");
    folder.crash("./program");
    let ran = dwcheck_elf(&folder, "vars --core core --frame 1");
    has_values(&ran, &["var before: char [20] = \"vext\"", "var own: int = 42"]);
    folder.run("gcc -g -m32 a.c b.c -o program -pthread");
    folder.crash("./program");
    let ran = dwcheck_elf(&folder, "vars --core core --frame 1");
    assert!(ran.out.contains("    var own: int: not evaluated: form_tls_address\n"), "{}", ran.out);
}

/// A unit whose debug information is in a file of its own, with a function that is inlined and one that isn't.
const SPLIT: &str = "
static inline int twice(int v) { int t = 2 * v; if (t > 1) __builtin_trap(); return t; }
__attribute__((noinline)) static int work(int n, const char *s) { int k[2] = {n, 5}; return twice(n) + k[n] + s[0]; }
int main(int argc, char **argv) { return work(argc, \"text\") + argv[0][0]; }
";

#[test]
fn variables_of_a_file_of_its_own() {
    let folder = Folder::new("vars-split");
    if !may_trace() || !has("clang") {
        return;
    }
    folder.write("a.c", SPLIT);
    for compiler in ["gcc", "clang"] {
        folder.run(&format!("rm -f *.dwo; {} -O1 -g -gsplit-dwarf -gdwarf-5 a.c -o program", compiler));
        folder.crash("./program");
        let ran = dwcheck_elf(&folder, "vars --core core");
        assert_eq!((ran.status, ran.lines()[0]), (0, "inlined twice (a.c:2)"), "{}: {:?}", compiler, ran);
        has_values(&ran, &["param v: int = 1", "var t: int = 2", "param n: int = 1"]);
        let main = dwcheck_elf(&folder, "stack --vars core");
        assert!(main.out.contains("    param argc: int = 1 "), "{}", main.out);
        folder.run("gcc -O0 -g -gsplit-dwarf -gdwarf-4 a.c -o program");
        folder.crash("./program");
        let old = dwcheck_elf(&folder, "vars --core core --frame 1");
        has_values(&old, &["param n: int = 1", "var k: int [2] = {1, 5}"]);
    }
    for version in [4, 5] {
        folder.run(&format!("gcc -O0 -g -gsplit-dwarf -gdwarf-{} a.c -o program && rm -f *.dwo", version));
        let ran = dwcheck_elf(&folder, "vars program work");
        assert_eq!((ran.status, ran.out.as_str()), (3, ""), "{:?}", ran);
        let error = "program: its debug information is in another file, program-a.dwo, which isn't there\n";
        assert!(ran.error.ends_with(error), "{}", ran.error);
        folder.crash("./program");
        for words in ["vars --core core", "stack --vars core"] {
            let ran = dwcheck_elf(&folder, words);
            assert!(ran.status == 0 && ran.error.contains("program-a.dwo, which isn't there"), "{:?}", ran);
        }
    }
}

/// The rest of the units is in a package of such files, which has the one of the other unit first.
#[test]
fn variables_of_a_package() {
    let folder = Folder::new("vars-package");
    if !may_trace() || !has("dwp") || !has("clang") || !has("llvm-dwp") {
        return;
    }
    folder.write("a.c", SPLIT);
    folder.write(
        "b.c",
        "struct unused { int x; } unused; int other(int m) { long kept = 3 * m; return kept + unused.x; }",
    );
    folder.run("mkdir .debug");
    for (compiler, packer) in [("gcc -gdwarf-4", "dwp"), ("gcc -gdwarf-5", "llvm-dwp"), ("clang -gdwarf-5", "llvm-dwp")]
    {
        let clean = "rm -f *.dwo *.dwp .debug/*";
        folder.run(&format!("{}; {} -O1 -g -gsplit-dwarf b.c a.c -o program", clean, compiler));
        folder.crash("./program");
        let shown = || {
            ["vars --core core", "stack --vars core", "vars program work"].map(|words| dwcheck_elf(&folder, words).out)
        };
        let expected = shown();
        assert!(expected[0].contains("param v: int = 1 ") || compiler.ends_with('4'), "{:?}", expected);
        folder.run(&format!("{} -e program -o package && rm *.dwo", packer));
        for place in ["program.dwp", ".debug/program.dwp"] {
            folder.run(&format!("rm -f *.dwp .debug/*; cp package {}", place));
            assert_eq!(shown(), expected, "{}", compiler);
        }
    }
    // A package that has only the other unit.
    folder.run(
        "gcc -gdwarf-5 -gsplit-dwarf b.c a.c -o program && llvm-dwp program-b.dwo -o program.dwp && rm *.dwo .debug/*",
    );
    let ran = dwcheck_elf(&folder, "vars program work");
    assert!(ran.status == 3 && ran.error.contains("program-a.dwo, which isn't there"), "{:?}", ran);
    assert!(dwcheck_elf(&folder, "vars program other").out.contains("param m: int"), "{}", folder.path().display());
}
