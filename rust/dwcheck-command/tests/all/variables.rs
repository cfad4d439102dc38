//! Shows the variables of frames, and compares them with what gdb shows and with what the source says.

use crate::common::run::{dwcheck_elf, Ran};
use crate::common::{has, may_trace, Folder};

/// A program that a trap ends. `work` has a variable of each kind of type.
const KINDS: &str = "
enum color { RED, GREEN = 5, BLUE };
struct inner { double d; };
struct point { int x; char name[8]; struct inner in; unsigned bits : 5; };
__attribute__((noinline)) int work(struct point p, enum color c, const char *text, float f, _Bool yes, char letter) {
    int local[3] = {1, -2, 3};
    short many[256] = {[255] = 7};
    long long big = -5000000000;
    double huge = 1e300, tiny = 2.5e-310;
    struct point *self = &p;
    {
        unsigned char in_block = 200;
        __builtin_trap();
    }
    return local[0] + many[c] + big + self->x + text[0] + f + yes + letter + c;
}
int main(int argc, char **argv) { struct point p = {4, \"abc\", {1.5}, 9}; return work(p, BLUE, \"hello\", 2.5f, 1, 'q'); }
";

/// The lines of variables, without their indentation and without where they are.
fn values(ran: &Ran) -> Vec<String> {
    let line = |line: &str| line.trim().split(" (").next().unwrap().to_string();
    ran.out.lines().filter(|line| line.starts_with("    ")).map(line).collect()
}

#[test]
fn values_of_each_kind_of_type() {
    let folder = Folder::new("vars-kinds");
    if !may_trace() {
        return;
    }
    for flags in ["-gdwarf-5", "-gdwarf-4", "-gdwarf-5 -m32"] {
        folder.write("a.c", KINDS);
        folder.run(&format!("gcc -O0 -g {} a.c -o program", flags));
        folder.crash("./program");
        let ran = dwcheck_elf(&folder, "vars --core core");
        assert_eq!(ran.status, 0, "{:?}", ran);
        assert_eq!(ran.lines()[0], "function work (a.c:5)");
        let expected = [
            "param p: struct point = {x = 4, name = \"abc\", in = {..}, bits = 9}",
            "param c: enum color = BLUE",
            "param text: const char * = 0x",
            "param f: float = 2.5",
            "param yes: _Bool = true",
            "param letter: char = 113 'q'",
            "var local: int [3] = {1, -2, 3}",
            "var many: short int [256] = {0, 0, 0",
            "var big: long long int = -5000000000",
            "var huge: double = 1e300",
            "var tiny: double = 2.5e-310",
            "var self: struct point * = 0x",
            "var in_block: unsigned char = 200 '\\xc8'",
        ];
        let found = values(&ran);
        assert_eq!(found.len(), expected.len(), "{}", ran.out);
        for (found, expected) in found.iter().zip(expected) {
            assert!(found.starts_with(expected), "{}: {} isn't {}", flags, found, expected);
        }
        assert!(found[2].ends_with("\"hello\""), "{}", found[2]);
        assert!(found[7].ends_with(", 0, 56 more}"), "{}", found[7]);
        let deeper = dwcheck_elf(&folder, "vars --core core --depth 2");
        assert!(deeper.out.contains("in = {d = 1.5}"), "{}", deeper.out);
        let main = dwcheck_elf(&folder, "vars --core core --frame 1");
        assert!(main.out.starts_with("function main (a.c:17)\n    param argc: int = 1 "), "{}", main.out);
    }
}

/// Arrays of arrays, and a number that is the sum of constants.
const NESTED: &str = "
enum flags { A = 1, B = 2, C = 4 };
__attribute__((noinline)) int work(int n) {
    int plain[2][3] = {{1, 2, 3}, {n, 5, 6}};
    char texts[2][4] = {\"ab\", \"cd\"};
    short large[3][100] = {[1] = {[99] = 7}};
    enum flags some = A | C, other = (enum flags)(8 + n);
    __builtin_trap();
    return plain[1][0] + texts[0][0] + large[1][99] + some + other;
}
int main(int argc, char **argv) { return work(argc); }
";

/// The values are those of the source, as gdb shows them: `{{1, 2, 3}, {1, 5, 6}}` and `(A | C)`.
#[test]
fn arrays_of_arrays_and_sums_of_constants() {
    let folder = Folder::new("vars-nested");
    if !may_trace() {
        return;
    }
    folder.write("a.c", NESTED);
    folder.run("gcc -O0 -g a.c -o program");
    folder.crash("./program");
    let found = values(&dwcheck_elf(&folder, "vars --core core"));
    let expected = [
        "var plain: int [2][3] = {{1, 2, 3}, {1, 5, 6}}",
        "var texts: char [2][4] = {\"ab\", \"cd\"}",
        "var some: enum flags = A|C",
        "var other: enum flags = 9",
    ];
    for line in expected {
        assert!(found.iter().any(|found| found == line), "{:?} has no {}", found, line);
    }
    let large = found.iter().find(|line| line.starts_with("var large: short int [3][100] = {{0, ")).unwrap();
    assert!(large.ends_with(", 0, 7}, 1 more}"), "{}", large);
}

/// Numbers of enumerations for which there is no name. Those of an enumeration without negative constants have no
/// sign, so that `unnamed` is more than the greatest signed number.
const ENUMERATIONS: &str = "
enum color { RED, GREEN = 5, BLUE = 0x80000000 };
enum below { UNDER = -9, ZERO = 0 };
__attribute__((noinline)) int work(int n) {
    enum color unnamed = (enum color)(0x80000000 + n), blue = BLUE;
    enum below under = (enum below)(n - 8), lowest = UNDER;
    __builtin_trap();
    return unnamed + blue + under + lowest;
}
int main(int argc, char **argv) { return work(argc); }
";

#[test]
fn numbers_of_enumerations_have_their_sign() {
    let folder = Folder::new("vars-enumerations");
    if !may_trace() {
        return;
    }
    folder.write("a.c", ENUMERATIONS);
    for compiler in ["gcc -gdwarf-5", "gcc -gdwarf-4", "clang -gdwarf-5"] {
        if !has(compiler.split(' ').next().unwrap()) {
            continue;
        }
        folder.run(&format!("{} -O0 -g a.c -o program", compiler));
        folder.crash("./program");
        let by_gdb = folder.run("gdb --batch -nx -ex 'info locals' program core 2> /dev/null");
        let ran = dwcheck_elf(&folder, "vars --core core");
        let found = values(&ran);
        let expected = [
            ("color", "unnamed = 2147483649"),
            ("color", "blue = BLUE"),
            ("below", "under = -7"),
            ("below", "lowest = UNDER"),
        ];
        for (kind, shown) in expected {
            assert!(by_gdb.lines().any(|line| line == shown), "{}: no {}: {}", compiler, shown, by_gdb);
            let (name, value) = shown.split_once(" = ").unwrap();
            let line = format!("var {}: enum {} = {}", name, kind, value);
            assert!(found.contains(&line), "{}: no {}: {} {}", compiler, line, ran.out, ran.error);
        }
    }
}

/// Members of bits, with the signs and the names of their types.
const BITS: &str = "
enum color { RED, GREEN = 5, BLUE };
enum below { UNDER = -3, ZERO = 0 };
struct bits {
    enum color color : 3, other : 3;
    enum below below : 4, under : 4;
    _Bool yes : 1;
    int small : 5;
    unsigned wide : 5;
};
__attribute__((noinline)) int work(struct bits b) { __builtin_trap(); return b.small; }
int main(int argc, char **argv) { return work((struct bits){BLUE, 7, UNDER, -7, 1, -3, 17}); }
";

#[test]
fn members_of_bits_are_shown_by_their_types() {
    let folder = Folder::new("vars-bits");
    if !may_trace() {
        return;
    }
    folder.write("a.c", BITS);
    // The last one says nothing of the signs of enumerations.
    for flags in ["-gdwarf-5", "-gdwarf-4", "-gdwarf-3 -gstrict-dwarf"] {
        folder.run(&format!("gcc -O0 {} a.c -o program", flags));
        folder.crash("./program");
        let shown = "b = {color = BLUE, other = 7, below = UNDER, under = -7, yes = true, small = -3, wide = 17}";
        let by_gdb = folder.run("gdb --batch -nx -ex 'info args' program core 2> /dev/null");
        assert!(by_gdb.lines().any(|line| line == shown), "{}", by_gdb);
        let ran = dwcheck_elf(&folder, "vars --core core");
        let line = format!("param b: struct bits = {}", shown.split_once(" = ").unwrap().1);
        assert!(values(&ran).contains(&line), "{}: {} {}", flags, ran.out, ran.error);
    }
}

#[test]
fn numbers_in_vector_registers_are_shown() {
    let folder = Folder::new("vars-vectors");
    if !may_trace() {
        return;
    }
    folder.write(
        "a.c",
        "__attribute__((noipa)) double inner(double d, float f) { __builtin_trap(); return d + f; }
__attribute__((noipa)) double outer(double e, float f) { return inner(e * 2, f + 1) + e; }
int main(int argc, char **argv) { return outer(argc + 0.25, -argc) > 4; }
",
    );
    folder.run("gcc -O2 -g a.c -o program");
    // Core files of gdb and of the kernel have them.
    folder.run("gdb --batch -ex 'set startup-with-shell off' -ex run -ex 'gcore core' ./program < /dev/null");
    let ran = dwcheck_elf(&folder, "vars --core core");
    assert_eq!(values(&ran), ["param d: double = 2.5", "param f: float = 0"], "{:?}", ran);
    // A call may change them, so that they aren't those of the caller: `e` is in memory, and only the caller's caller
    // might know `f`, as gdb says.
    let caller = dwcheck_elf(&folder, "vars --core core --frame 1");
    assert_eq!(values(&caller), ["param e: double = 1.25", "param f: float: optimized out"], "{:?}", caller);
}

/// clang describes a class where its constructor is, and only declares it elsewhere.
#[test]
fn types_that_another_unit_defines_are_found() {
    let folder = Folder::new("vars-declared");
    if !may_trace() || !has("clang++") {
        return;
    }
    let class = "namespace forms { struct shape { shape(int sides); int sides; double size; }; }\n";
    let uses = "__attribute__((noinline)) int work(int n) { forms::shape s(n); __builtin_trap(); return s.sides; }
int main(int argc, char **argv) { return work(argc + 3); }
";
    folder.write("a.cc", format!("{}{}", class, uses));
    folder.write("b.cc", format!("{}forms::shape::shape(int n) : sides(n), size(n * 1.5) {{}}\n", class));
    // Another type of this name, in another namespace.
    folder.write("c.cc", "namespace others { struct shape { char c; }; } others::shape none() { return {}; }\n");
    for flags in ["-gdwarf-5", "-gdwarf-4"] {
        folder.run(&format!("clang++ -O0 {} c.cc a.cc b.cc -o program", flags));
        folder.crash("./program");
        let ran = dwcheck_elf(&folder, "vars --core core");
        assert!(values(&ran).contains(&"var s: shape = {sides = 4, size = 6}".to_string()), "{:?}", ran);
    }
}

/// gcc puts `twice` into a block that the abstract instance of the inlined function doesn't have.
#[test]
fn variables_of_an_inlined_function_are_shown_once() {
    let folder = Folder::new("vars-inlined");
    if !may_trace() {
        return;
    }
    folder.write(
        "a.c",
        "struct point { int x, y; };
static inline int doubled(int v) { int twice = 2 * v; if (twice > 5) __builtin_trap(); return twice; }
__attribute__((noinline)) int sum(struct point p, const char *name) {
    int first = doubled(p.x);
    return first + p.y + name[0];
}
int main(int argc, char **argv) { return sum((struct point){argc + 2, 7}, \"three\"); }
",
    );
    folder.run("gcc -O2 -g a.c -o program");
    folder.crash("./program");
    let ran = dwcheck_elf(&folder, "vars --core core");
    assert_eq!((ran.status, ran.lines()[0]), (0, "inlined doubled (a.c:2)"), "{:?}", ran);
    let found = values(&ran);
    assert_eq!(found[..3], ["param v: int = 3", "var twice: int = 6", "param p: struct point = {x = 3, y = 7}"]);
    assert!(found[3].starts_with("param name: const char * = 0x") && found[3].ends_with(" \"three\""), "{}", found[3]);
    let stack = dwcheck_elf(&folder, "stack --vars core");
    assert!(stack.out.contains("    var twice: int = 6 (r0)\n"), "{}", stack.out);
    let json = dwcheck_elf(&folder, "vars --json --core core");
    assert!(json.out.contains("\"value\":{\"x\":\"3\",\"y\":\"7\"}"), "{}", json.out);
}

/// A program in Rust with enums whose variant is said by a number of its own, or by a null pointer.
const VARIANTS: &str = "
#[allow(dead_code, unused_variables)]
enum Token { Number(i64), Plus, Pair { left: u8, right: u16 } }
#[inline(never)]
fn work(byte: &u8) {
    let number = Token::Number(-5);
    let plus = Token::Plus;
    let pair = Token::Pair { left: 3, right: 400 };
    let (some, none): (Option<u32>, Option<u32>) = (Some(9), None);
    let (full, empty): (Option<&u8>, Option<&u8>) = (Some(byte), None);
    let text = \"a text of bytes\".split(\" of\").next().unwrap();
    unsafe { std::arch::asm!(\"ud2\") }
}
fn main() { work(&7) }
";

#[test]
fn variants_of_enums_of_rust() {
    let folder = Folder::new("vars-variants");
    if !may_trace() || !has("rustc") {
        return;
    }
    folder.write("a.rs", VARIANTS);
    folder.run("rustc -g a.rs -o program 2> /dev/null");
    folder.crash("./program");
    let ran = dwcheck_elf(&folder, "vars --core core --depth 2");
    let expected = [
        "number: Token = {Number = {__0 = -5}}",
        "plus: Token = {Plus = {}}",
        "pair: Token = {Pair = {left = 3, right = 400}}",
        "some: Option<u32> = {Some = {__0 = 9}}",
        "none: Option<u32> = {None = {}}",
        "full: Option<&u8> = {Some = {__0 = 0x",
        "empty: Option<&u8> = {None = {}}",
    ];
    for expected in expected {
        assert!(ran.out.contains(expected), "{}: {} {}", expected, ran.out, ran.error);
    }
    let text = values(&ran).into_iter().find(|value| value.starts_with("var text: &str = 0x"));
    assert!(text.map_or(false, |text| text.ends_with(" \"a text\"")), "{}", ran.out);
}

/// Without a state, only what is the same in every process is known. The dynamic linker adds the load address to
/// the pointers of `names`, and stores the address of a function of another file.
#[test]
fn constants_of_the_file() {
    let folder = Folder::new("vars-constants");
    folder.write(
        "a.c",
        "#include <stdlib.h>
struct pair { const char *name; int (*call)(const char *); };
__attribute__((noinline)) int work(int n) {
    static const char *const names[3] = {\"zero\", \"one\", \"two\"};
    static const int squares[4] = {0, 1, 4, 9};
    static const struct pair pair = {\"own\", atoi};
    static int changes = 5;
    return names[n][0] + squares[n] + pair.call(pair.name) + ++changes;
}
int main(int argc, char **argv) { return work(argc); }
",
    );
    for flags in ["-fPIE -pie", "-no-pie", "-m32 -fPIE -pie", "-fPIE -pie -Wl,-z,norelro"] {
        folder.run(&format!("gcc -O0 -g {} a.c -o program", flags));
        let load = if flags == "-no-pie" { "0x0" } else { "0x10000" };
        let ran = dwcheck_elf(&folder, &format!("vars --load {} program work", load));
        let found = values(&ran);
        let expected = [
            ["var squares: ", "int [4] = {0, 1, 4, 9}"],
            ["var changes: int: unreadable: memory at 0x", ""],
            ["var names: ", " \"two\"}"],
            ["var pair: const struct pair = {name = 0x", " \"own\", call = <unreadable: memory at 0x"],
        ];
        for [begin, part] in expected {
            let is_there = |found: &String| found.starts_with(begin) && found.contains(part);
            assert!(found.iter().any(is_there), "{}: no {}: {} {}", flags, begin, ran.out, ran.error);
        }
    }
}

/// gcc leaves out the memory of `m` and of the text, so that the pointers to them have no value.
#[test]
fn pointers_to_variables_without_an_address_are_followed() {
    let folder = Folder::new("vars-pointers");
    if !may_trace() {
        return;
    }
    folder.write(
        "a.c",
        "__attribute__((noipa)) int use(int x) { return x + 1; }
static inline __attribute__((always_inline)) int inner(const int *q, const char *name) {
    int k = use(*q);
    if (k == 4) __builtin_trap();
    return k + *q + name[1];
}
__attribute__((noipa)) int outer(int n) { int m = n * 3; return inner(&m, \"text\") + use(m); }
int main(int argc, char **argv) { return outer(argc); }
",
    );
    folder.run("gcc -O2 -g a.c -o program");
    folder.crash("./program");
    let ran = dwcheck_elf(&folder, "vars --core core");
    for line in
        ["param q: const int * = &m, 3 (points to m)", "param name: const char * = &\"text\" (points to a constant)"]
    {
        assert!(ran.lines().iter().any(|found| found.trim() == line), "no {}: {} {}", line, ran.out, ran.error);
    }
    let json = dwcheck_elf(&folder, "vars --json --core core");
    assert!(json.out.contains("{\"points_to\":\"m\",\"value\":\"3\"}"), "{}", json.out);
}
