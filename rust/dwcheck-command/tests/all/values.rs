//! Values of types that are more than a number, a structure or an array of a fixed length. What is expected is what
//! gdb shows.

use crate::common::run::dwcheck_elf;
use crate::common::{has, may_trace, Folder};

/// The lines that gdb writes for these commands, in a locale with UTF-8.
fn by_gdb(folder: &Folder, commands: &[&str]) -> Vec<String> {
    let commands: String = commands.iter().map(|command| format!(" -ex '{}'", command)).collect();
    let shown = folder.run(&format!("LC_ALL=C.UTF-8 gdb --batch -nx{} program core 2> /dev/null", commands));
    shown.lines().map(str::to_string).collect()
}

/// The variables that have values, as lines such as `n = 3`.
fn values(folder: &Folder) -> Vec<String> {
    let ran = dwcheck_elf(folder, "vars --core core");
    assert_eq!(ran.status, 0, "{:?}", ran);
    let value = |line: &str| {
        let (name, rest) = line.trim().split_once(' ')?.1.split_once(": ")?;
        let (value, _) = rest.split_once(" = ")?.1.rsplit_once(" (")?;
        Some(format!("{} = {}", name, value))
    };
    ran.out.lines().filter(|line| line.starts_with("    ")).filter_map(value).collect()
}

/// The value of a variable among such lines.
fn value<'l>(lines: &'l [String], name: &str) -> &'l str {
    let value = |line: &'l String| line.split_once(" = ").filter(|(one, _)| *one == name).map(|(_, value)| value);
    lines.iter().find_map(value).unwrap_or_else(|| panic!("no {}: {:#?}", name, lines))
}

/// The values of these variables are those that gdb shows.
fn same_as_gdb(folder: &Folder, names: &[&str]) {
    let (theirs, ours) = (by_gdb(folder, &["info locals", "info args"]), values(folder));
    names.iter().for_each(|name| assert_eq!(value(&ours, name), value(&theirs, name), "{}: {:#?}", name, theirs));
}

const LENGTHS: &str = "
__attribute__((noipa)) void fill(int n, int *plain, short *nested, char *text) {
    for (int i = 0; i < n; i++) plain[i] = i * i;
    for (int i = 0; i < n * (n + 1); i++) nested[i] = 10 * i;
    for (int i = 0; i < n; i++) text[i] = 'a' + i;
}
__attribute__((noinline)) int work(int n, int none) {
    typedef int row[n];
    int plain[n], empty[none], before = 5;
    short nested[n][n + 1];
    char text[n];
    row rows[2];
    fill(n, plain, nested[0], text);
    fill(n, rows[1], nested[0], text);
    for (int i = 0; i < n; i++) rows[0][i] = i;
    fill(none, empty, nested[0], text);
    __builtin_trap();
    return plain[0] + nested[0][0] + text[0] + before + rows[0][0] + empty[0];
}
int main(int argc, char **argv) { return work(argc + 2, argc - 1); }
";

#[test]
fn arrays_whose_length_is_known_only_at_run_time() {
    let folder = Folder::new("values-lengths");
    if !may_trace() || !has("clang") {
        return;
    }
    folder.write("a.c", LENGTHS);
    for compiler in ["gcc -O0", "gcc -O0 -gdwarf-3", "gcc -O2", "clang -O0", "clang -O0 -gdwarf-4", "gcc -O0 -m32"] {
        folder.run(&format!("{} -g a.c -o program", compiler));
        folder.crash("./program");
        same_as_gdb(&folder, if compiler == "gcc -O2" { &["nested"] } else { &["nested", "plain"] });
        let ours = values(&folder);
        assert_eq!((value(&ours, "empty"), value(&ours, "text")), ("{}", "\"abc\""), "{}", compiler);
        // clang says nothing of the length of `row`.
        if compiler.starts_with("gcc") {
            assert_eq!(value(&ours, "rows"), "{{0, 1, 2}, {0, 1, 4}}", "{}", compiler);
        }
    }
}

/// gdb writes numbers of type `long double` with 21 digits, so that it is asked whether ours is the same number.
const LARGE: &str = "
#include <complex.h>
#include <math.h>
__attribute__((noinline)) int work(int n) {
    long double tenth = 0.1L, pi = 3.14159265358979323846264L, large = 1.18973149535723176502e4932L, third = -1 / 3.0L;
    long double least = 3.6e-4951L, whole = 18446744073709551615.0L, normal = 3.3621031431120935063e-4932L;
    long double infinite = -INFINITY, none = NAN, zero = -0.0L;
    _Float128 quad = 0.1F128, half = -0.5F128, endless = INFINITY;
    float complex single = CMPLXF(1, -2);
    double complex both = CMPLX(-1.5, 0.25);
    long double complex wide = CMPLXL(0.5L, -2.25L);
    __builtin_trap();
    return tenth + pi + large + n;
}
int main(int argc, char **argv) { return work(argc); }
";

#[test]
fn numbers_of_more_than_64_bits_and_complex_ones() {
    let folder = Folder::new("values-large");
    if !may_trace() {
        return;
    }
    folder.write("a.c", LARGE);
    for flags in ["-O0", "-O0 -m32"] {
        folder.run(&format!("gcc -g {} a.c -o program", flags));
        folder.crash("./program");
        same_as_gdb(&folder, &["single", "both", "wide", "infinite", "zero", "half", "endless"]);
        let ours = values(&folder);
        let shortest = [("tenth", "0.1"), ("pi", "3.1415926535897932385"), ("whole", "1.8446744073709551615e19")];
        shortest.iter().for_each(|(name, text)| assert_eq!(value(&ours, name), *text));
        for name in ["tenth", "pi", "large", "third", "least", "whole", "normal"] {
            let asked = format!("print {} == {}l", name, value(&ours, name));
            assert_eq!(by_gdb(&folder, &[&asked]).last().unwrap(), "$1 = 1", "{}", asked);
        }
        assert_eq!((value(&ours, "none"), value(&ours, "quad")), ("NaN", "0.1"));
        let theirs = by_gdb(&folder, &["info locals"]);
        assert!(value(&theirs, "none").starts_with("nan(") && value(&theirs, "quad").starts_with("0.1000000000000000"));
    }
}

const WIDE: &str = "
#include <uchar.h>
#include <wchar.h>
typedef char16_t part;
static const char16_t units[] = {'a', 0xd800, 'b', 0};
__attribute__((noinline)) int work(int n) {
    wchar_t wide[3] = L\"ab\", one = L'q', last = 0;
    const wchar_t *to = L\"a\\\"\\n\\u00e9\\U0001f600\\x7f\";
    part utf16[5] = u\"x\\u00e9\\U0001f600\";
    const char16_t *half = units;
    char32_t utf32[4] = U\"x\\u00e9\\U0001f600\", letter = U'\\u00e9';
    const char *utf8 = \"x\\u00e9\\U0001f600\", *broken = \"a\\xe9\\xc3\";
#ifdef __cpp_char8_t
    const char8_t *bytes = u8\"x\\u00e9\", byte = u8'b';
#endif
    __builtin_trap();
    return wide[0] + one + utf16[0] + utf32[0] + to[0] + half[0];
}
int main(int argc, char **argv) { return work(argc); }
";

#[test]
fn texts_of_characters_of_several_bytes() {
    let folder = Folder::new("values-wide");
    if !may_trace() {
        return;
    }
    for (file, compiler) in [("a.c", "gcc"), ("a.cc", "g++ -std=c++20")] {
        folder.write(file, WIDE);
        folder.run(&format!("{} -g -O0 {} -o program", compiler, file));
        folder.crash("./program");
        same_as_gdb(&folder, &["wide", "one", "utf16", "utf32", "letter", "utf8"]);
        let ours = values(&folder);
        let texts = [
            ("to", r#" L"a\"\né😀\x7f""#),
            ("half", r#" u"a\u{d800}b""#),
            ("broken", r#" "a\xe9\xc3""#),
            ("last", r"0 L'\x00'"),
        ];
        texts.iter().for_each(|(name, text)| assert!(value(&ours, name).ends_with(text), "{}: {:#?}", name, ours));
        if file == "a.cc" {
            assert!(value(&ours, "bytes").ends_with(" \"xé\"") && value(&ours, "byte") == "98 'b'", "{:#?}", ours);
        }
    }
}

const CXX: &str = "
struct Base { virtual ~Base() {} virtual int seen(int x) { return x; } int b = 3; };
struct Other { int o = 4; int get(int x) { return x + o; } };
struct Both : Base, Other { int t = 7; int go(int n) const { return n + t; } };
struct Refers { int &number; const Both &both; };
struct Hidden;
int twice(int n) { return 2 * n; }
__attribute__((noinline)) int work(const int &ref, int &&moved, const Both &object, const char *const &text,
                                   int (&array)[3], int (&function)(int), Hidden &hidden, Refers refers, int &lost) {
    int Both::*none = nullptr, Both::*t = &Both::t, Both::*b = &Both::b;
    int (Both::*go)(int) const = &Both::go;
    int (Both::*get)(int) = &Both::get, (Both::*seen)(int) = &Both::seen, (Both::*empty)(int) = nullptr;
    __builtin_trap();
    return (object.*go)(ref + moved) + object.*t + object.*b;
}
int main(int argc, char **argv) {
    Both both;
    int number = argc + 2, array[3] = {1, 2, argc};
    const char *text = \"a text\";
    return work(number, argc + 8, both, text, array, twice, (Hidden &)number, Refers{number, both}, *(int *)16);
}
";

#[test]
fn references_and_pointers_to_members() {
    let folder = Folder::new("values-cxx");
    if !may_trace() || !has("clang++") {
        return;
    }
    folder.write("a.cc", CXX);
    for compiler in ["g++", "g++ -gdwarf-4", "clang++"] {
        folder.run(&format!("{} -g a.cc -o program", compiler));
        folder.crash("./program");
        same_as_gdb(&folder, &["none", "t", "b", "seen", "empty", "ref", "moved", "array", "text"]);
        let (theirs, ours) = (by_gdb(&folder, &["info locals", "info args"]), values(&folder));
        for name in ["go", "get"] {
            assert!(value(&theirs, name).ends_with(value(&ours, name)), "{}: {:#?} {:#?}", name, ours, theirs);
        }
        let address = |name| value(&theirs, name).split(':').next().unwrap();
        let object = format!("{}: {{Base = {{..}}, Other = {{..}}, t = 7}}", address("object"));
        assert_eq!(value(&ours, "object"), object);
        let refers = format!("{{number = {}: 3, both = {}: {{..}}}}", address("ref"), address("object"));
        assert_eq!(value(&ours, "refers"), refers);
        assert_eq!(value(&ours, "hidden"), format!("{}: <unsupported: a type that is only declared>", address("ref")));
        assert_eq!(value(&ours, "lost"), "@0x10: <unreadable: memory at 0x10>");
        assert!(value(&theirs, "function").contains(value(&ours, "function")), "{:#?}", theirs);
    }
    let json = dwcheck_elf(&folder, "vars --json --core core");
    assert!(json.out.contains("\"value\":{\"address\":\"0x") && json.out.contains("\"value\":\"3\"}"), "{}", json.out);
}

const LINKED: &str = "
struct node { int value; struct node *next, *self; };
__attribute__((noinline)) int work(struct node *first, int *number, int (*call)(int)) {
    int *lost = (int *)16;
    __builtin_trap();
    return first->value + *number + *lost + call(1);
}
int twice(int n) { return 2 * n; }
int main(int argc, char **argv) {
    struct node last = {3, 0, 0}, second = {2, &last, 0}, first = {1, &second, &first};
    last.next = &first;
    return work(&first, &argc, twice);
}
";

/// gdb writes what is expected, with the addresses and the numbers that it knows.
#[test]
fn pointers_are_followed_and_circles_are_cut() {
    let folder = Folder::new("values-linked");
    if !may_trace() {
        return;
    }
    folder.write("a.c", LINKED);
    folder.run("gcc -g a.c -o program");
    folder.crash("./program");
    let one = "@%p: {value = %d, next = ";
    let two = r#"%p, self = 0x0}, self = @%p: {..}}\n", first, first->value, first->next, first->next->value"#;
    let last = r#"@%p: {..}, self = 0x0}, self = 0x0}, self = @%p: {..}}\n", first, first->value, first->next, first->next->value"#;
    let commands = [
        format!(r#"printf "first = {0}{0}{1}, first->next->next, first"#, one, two),
        format!(
            r#"printf "first = {0}{0}{0}{1}, first->next->next, first->next->next->value, first, first"#,
            one, last
        ),
        r#"printf "number = @%p: %d\n", number, *number"#.to_string(),
    ];
    let theirs = by_gdb(&folder, &commands.iter().map(String::as_str).collect::<Vec<_>>());
    let theirs: Vec<_> = theirs.iter().filter(|line| line.contains(" = @")).collect();
    let ours = |options: &str| {
        let ran = dwcheck_elf(&folder, &format!("vars --core core {}", options));
        ran.lines().into_iter().map(str::to_string).collect::<Vec<_>>()
    };
    let has = |lines: &[String], value: &str| lines.iter().any(|line| line.contains(&format!("{} (", value)));
    let (two, four) = (ours("--pointers 2"), ours("--pointers 4"));
    let value = |line: &str| line.split_once(" = ").unwrap().1.to_string();
    assert!(has(&two, &value(theirs[0])) && has(&four, &value(theirs[1])), "{:?} {:?} {:?}", theirs, two, four);
    assert!(has(&two, &value(theirs[2])) && has(&two, "@0x10: <unreadable: memory at 0x10>"), "{:?}", two);
    // A function is no object.
    assert!(two.iter().any(|line| line.contains("call: int () * = 0x")), "{:?}", two);
}

const CONVERTED: &str = "
__attribute__((noipa)) double keep(double x) { return x * 2; }
__attribute__((noinline)) double work(int n, unsigned u, float f) {
    long wide = n, sum = wide * 3;
    unsigned long large = u;
    unsigned char low = n;
    short cut = u;
    double half = n * 0.5;
    double kept = keep(n) + keep(u);
    if (kept != 1) *(volatile int *)16 = 1;
    return kept + n + u + keep(f);
}
int main(int argc, char **argv) { return work(-argc - 299, 3000000000u + argc, 2.5f * argc); }
";

/// The compilers keep no place for these variables, and describe them by others, as values of other types.
#[test]
fn values_of_other_types_are_converted() {
    let folder = Folder::new("values-converted");
    if !may_trace() || !has("clang") {
        return;
    }
    folder.write("a.c", CONVERTED);
    let compilers = [
        ("gcc -O2", "DW_OP_deref_type", &["half", "large"][..]),
        ("clang -O1", "DW_OP_convert", &["wide", "sum", "large", "low", "cut"][..]),
    ];
    for (compiler, operation, names) in compilers {
        folder.run(&format!("{} -w -g a.c -o program", compiler));
        assert!(folder.run("readelf --debug-dump=info,loc program 2> /dev/null").contains(operation));
        folder.crash("./program");
        let (theirs, ours) = (by_gdb(&folder, &["info locals"]), values(&folder));
        for name in names {
            let number = |lines: &[String]| value(lines, name).split(' ').next().unwrap().to_string();
            assert_eq!(number(&ours), number(&theirs), "{}: {}: {:#?}", compiler, name, theirs);
        }
    }
}
