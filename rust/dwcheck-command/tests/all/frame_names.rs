//! Names, lines and registers of frames, beside those of addr2line and gdb; and separate files of
//! debug information.

use crate::common::run::dwcheck_elf;
use crate::common::{has, hex, Folder};
use serde_json::Value;

const INLINES: &str = "
#include <stdlib.h>
static inline __attribute__((always_inline)) int inner(int n) { if (n < 9) abort(); return n; }
static inline __attribute__((always_inline)) int outer(int n) {
    return inner(n + 1) + 1;
}
__attribute__((noinline)) int calls(int n) {
    volatile int kept = n;
    return outer(kept) + kept;
}
int main(int argc, char **argv) { return calls(argc) + 1; }
";

/// Builds the program `program` and makes its core file. Returns false if gdb isn't installed.
fn build(folder: &Folder, flags: &str) -> bool {
    folder.write("a.c", INLINES);
    folder.run(&format!("gcc -O1 {} a.c -o program", flags));
    let runs = has("gdb");
    if runs {
        folder.make_core("./program");
        make_root(folder);
    }
    runs
}

/// Makes the folder `root` with the program and the libraries, but without the C library's debug
/// information, which takes long to read.
fn make_root(folder: &Folder) {
    let home = format!("root{}", folder.path().display());
    folder
        .run(&format!("mkdir -p root/usr/lib {0}; ln -s /usr/lib/x86_64-linux-gnu root/usr/lib; cp program {0}", home));
}

/// The document of JSON that `stack` writes.
fn document(folder: &Folder, words: &str) -> Value {
    let ran = dwcheck_elf(folder, &format!("stack --root root --json {}", words));
    assert_eq!(ran.status, 0, "{}", ran.error);
    serde_json::from_str(&ran.out).unwrap_or_else(|error| panic!("{}: {}", error, ran.out))
}

/// The frames of the first thread whose module is the program.
fn own_frames(document: &Value) -> Vec<&Value> {
    let frames = document["threads"][0]["frames"].as_array().unwrap();
    frames.iter().filter(|frame| frame["module"].as_str().map_or(false, |path| path.ends_with("/program"))).collect()
}

/// The functions and lines of a frame, the innermost first, as addr2line writes them.
fn lines(frame: &Value) -> String {
    let own = frame["inlined"].as_array().unwrap().iter().chain([frame]);
    own.map(|one| format!("{}\n{}:{}\n", one["function"].as_str().unwrap(), one["file"].as_str().unwrap(), one["line"]))
        .collect()
}

/// Functions, inlined functions and lines are those of addr2line for the byte before the return
/// address.
#[test]
fn functions_and_lines_are_those_of_addr2line() {
    let folder = Folder::new("places-lines");
    if !build(&folder, "-g -no-pie") {
        return;
    }
    let document = document(&folder, "core");
    let frames = own_frames(&document);
    assert_eq!(frames[0]["inlined"].as_array().unwrap().len(), 2, "{}", document);
    for frame in &frames[..2] {
        let address = crate::common::hex(frame["address"].as_str().unwrap()) - 1;
        assert_eq!(lines(frame), folder.run(&format!("addr2line -i -f -e program {:#x}", address)));
    }
    assert_eq!(document["signal"]["name"], "SIGABRT");
    assert_eq!(document["name"], "program");
    let plain = dwcheck_elf(&folder, "stack --root root --no-inline --no-source core");
    assert!(!plain.out.contains("inlined") && !plain.out.contains(" at /"), "{}", plain.out);
    let text = dwcheck_elf(&folder, "stack --root root core").out;
    assert!(text.starts_with("signal 6 SIGABRT, code SI_TKILL\nthread "), "{}", text);
    let expected = format!(" inner inlined ({0}/program) at {0}/a.c:3\n", folder.path().display());
    assert!(text.contains(&expected) && text.contains(" calls+"), "{}", text);
}

/// The callee-saved registers of each frame are gdb's.
#[test]
fn registers_are_those_of_gdb() {
    let folder = Folder::new("places-registers");
    if !build(&folder, "-g -fno-omit-frame-pointer") {
        return;
    }
    let document = document(&folder, "--registers --no-inline --no-source core");
    let frames = document["threads"][0]["frames"].as_array().unwrap();
    folder.write(
        "registers.gdb",
        "python
frame = gdb.newest_frame()
while frame is not None:
    if frame.type() == gdb.NORMAL_FRAME:
        print('frame', *['%#x' % (int(frame.read_register(name)) & (2**64 - 1)) for name in ('rip', 'rsp', 'rbx', 'rbp', 'r12', 'r15')])
    frame = frame.older()
end
",
    );
    let shown = folder.run("gdb --batch -x registers.gdb program core 2> /dev/null | sed -n 's/^frame //p'");
    for (line, frame) in shown.lines().zip(frames) {
        let names = ["rip", "rsp", "rbx", "rbp", "r12", "r15"];
        let ours: Vec<_> = names.iter().map(|name| frame["registers"][name].as_str().unwrap()).collect();
        assert_eq!(ours.join(" "), line);
    }
    assert!(shown.lines().count() > 3);
}

/// The names of a program without symbols and debug information come from a separate file: by its
/// build id, or by `.gnu_debuglink`. A file that doesn't fit isn't used, and a warning says why.
#[test]
fn separate_files_of_debug_information() {
    let folder = Folder::new("places-separate");
    if !has("gdb") {
        return;
    }
    folder.write("a.c", INLINES);
    folder.run("gcc -O1 -g -Wl,--build-id a.c -o program; objcopy --only-keep-debug program whole.debug");
    folder.run("strip program; objcopy --add-gnu-debuglink=whole.debug program; mkdir away; mv whole.debug away");
    folder.make_core("./program");
    make_root(&folder);
    let home = format!("root{}", folder.path().display());
    let text = || dwcheck_elf(&folder, "stack --root root core");
    let is_named = |out: &str| out.contains(" inner inlined ") && out.contains("/a.c:3\n") && out.contains(" calls+");
    let bare = text();
    assert!(
        bare.error.is_empty() && !is_named(&bare.out) && bare.out.contains("/program)"),
        "{}{}",
        bare.error,
        bare.out
    );

    let id = folder.run("readelf -n program | sed -n 's/.*Build ID: //p'");
    let (first, rest) = id.trim().split_at(2);
    let by_id = format!("root/usr/lib/debug/.build-id/{}/{}.debug", first, rest);
    folder.run(&format!("mkdir -p $(dirname {0}); cp away/whole.debug {0}", by_id));
    assert!(is_named(&text().out), "{}", text().out);
    folder.run(&format!("gcc -O2 -g -Wl,--build-id a.c -o other; objcopy --only-keep-debug other {}", by_id));
    let other = text();
    assert!(other.error.contains(&format!("{}: not used: its build id is ", by_id)), "{}", other.error);
    assert_eq!(other.out, bare.out);

    folder.run(&format!("rm {}; mkdir {1}/.debug; cp away/whole.debug {1}/.debug", by_id, home));
    assert!(is_named(&text().out), "{}", text().out);
    folder.run(&format!("echo >> {}/.debug/whole.debug", home));
    let changed = text();
    let why = "/whole.debug: not used: its checksum isn't the one in .gnu_debuglink\n";
    assert!(changed.error.ends_with(why), "{}", changed.error);
    assert_eq!(changed.out, bare.out);
}

/// A function that is inlined into another one, in the first file of the unit: DWARF 5 numbers it 0, which clang uses.
const CHECKED: &str = "
#include <stdlib.h>
static inline void check(int v) {
    if (v > 0)
        abort();
}
__attribute__((noinline)) int work(int v) {
    check(v);
    return v + 1;
}
int main(int c, char **v) { return work(c) + 1; }
";

/// The lines of the frame in `work`, without the addresses and the files of modules.
fn work(folder: &Folder, words: &str) -> (Vec<String>, String) {
    let ran = dwcheck_elf(folder, &format!("stack --root root {}", words));
    let lines = ran.out.lines().skip_while(|line| !line.contains(" check inlined ")).take(4);
    let home = format!("{}/", folder.path().display());
    let short = |line: &str| line.split(' ').skip(2).collect::<Vec<_>>().join(" ").replace(&home, "");
    (lines.map(short).collect(), ran.error)
}

/// The lines that the source says, as gdb and addr2line do.
const WORK: [&str; 2] = ["check inlined (program) at a.c:5", "(program) at a.c:8"];

/// Makes a core file of a program that is built by this command, without the C library's debug information.
fn crash(folder: &Folder, command: &str) {
    folder.write("a.c", CHECKED);
    folder.run(&format!("{} a.c -o program", command));
    folder.make_core("./program");
    make_root(folder);
}

fn is_work(lines: &[String]) -> bool {
    lines.len() > 1 && lines[0] == WORK[0] && lines[1].starts_with("work") && lines[1].ends_with(WORK[1])
}

/// The frame around an inlined function has its line, also if that is in the file 0.
#[test]
fn a_call_in_the_first_file_of_a_unit_has_its_line() {
    for (compiler, version) in [("gcc", 5), ("clang", 5), ("clang", 4)] {
        let folder = Folder::new(&format!("places-file0-{}-{}", compiler, version));
        if !has(compiler) || !has("gdb") {
            continue;
        }
        crash(&folder, &format!("{} -O2 -gdwarf-{}", compiler, version));
        let (lines, error) = work(&folder, "core");
        assert!(is_work(&lines) && error.is_empty(), "{} {}: {:?}{}", compiler, version, lines, error);
    }
}

/// With `-gsplit-dwarf` too, inlined functions have frames of their own, with their variables. If the file isn't
/// there, standard error names it.
#[test]
fn inlined_functions_of_split_units() {
    for (compiler, version) in [("gcc", 5), ("clang", 5), ("gcc", 4), ("clang", 4)] {
        let folder = Folder::new(&format!("places-split-{}-{}", compiler, version));
        if !has(compiler) || !has("gdb") {
            continue;
        }
        crash(&folder, &format!("{} -O2 -g -gdwarf-{} -gsplit-dwarf", compiler, version));
        folder.run("cp *.dwo root$PWD");
        let (lines, error) = work(&folder, "core");
        assert!(is_work(&lines) && error.is_empty(), "{} {}: {:?}{}", compiler, version, lines, error);
        if version == 5 {
            let (lines, _) = work(&folder, "--vars core");
            assert!(lines[1].contains("param v: int") && lines[2].starts_with("work"), "{:?}", lines);
            assert!(lines[3].contains("param v: int"), "{:?}", lines);
        }
        folder.run("rm root$PWD/*.dwo");
        let (lines, error) = work(&folder, "core");
        assert!(lines.is_empty(), "{:?}", lines);
        assert!(error.contains("/program: its debug information is in another file, "), "{}", error);
        assert!(error.ends_with(".dwo, which isn't there\n"), "{}", error);
    }
}

/// Functions that end with a jump to the next one, and a trap in the last one.
const JUMPS: &str = "
#define FUNCTION __attribute__((noipa)) int
FUNCTION last(int n) { if (n) __builtin_trap(); return n; }
FUNCTION second(int n) { return last(n + 1); }
FUNCTION first(int n) { return second(n + 1); }
FUNCTION calls(int n) { volatile int kept = n; return first(kept) + kept; }
FUNCTION jumps(int n) { return calls(n); }
int main(int argc, char **argv) { return jumps(argc) + 1; }
";

/// Prints the function of each frame. gdb has frames for functions that ended with a jump, and marks them.
const TAIL_CALLS: &str = "python
frame = gdb.newest_frame()
while frame is not None:
    word = {gdb.TAILCALL_FRAME: 'jumped', gdb.INLINE_FRAME: 'inlined'}.get(frame.type(), 'frame')
    print(word, frame.name(), hex(frame.pc()))
    frame = frame.older()
end
";

/// A line of a frame as `frame NAME`, or `jumped NAME` if the function ended with a jump.
fn shown_frame(line: &str) -> String {
    format!("{} {}", kind_of_frame(line), line.split([' ', '+', '(']).nth(2).unwrap())
}

fn kind_of_frame(line: &str) -> &'static str {
    if line.ends_with(" tail call") {
        "jumped"
    } else {
        "frame"
    }
}

/// Jumps in one unit and from it to another, by one way and by two, by a pointer, from an inlined function, and from a
/// function that calls itself.
const WAYS: [(&str, &str); 2] = [
    (
        "a.c",
        "
#ifdef __clang__
#define FUNCTION __attribute__((noinline)) int
#else
#define FUNCTION __attribute__((noipa)) int
#endif
int other(int), last(int);
FUNCTION left(int n) { return last(n + 1); }
FUNCTION right(int n) { return last(n + 2); }
FUNCTION either(int n) { return n & 1 ? left(n) : right(n); }
FUNCTION one(int n) { return left(n * 2); }
FUNCTION units(int n) { return other(n + 1); }
static int (*volatile pointer)(int) = left;
FUNCTION pointed(int n) { return pointer(n); }
static inline __attribute__((always_inline)) int inner(int n) { return one(n - 1); }
FUNCTION inlines(int n) { return inner(n + 3); }
FUNCTION again(int n) { return n > 9 ? last(n) : n > 5 ? again(n + 1) : left(n); }
FUNCTION by_one(int n) { return one(n) + 1; }
FUNCTION by_either(int n) { return either(n) + 1; }
FUNCTION by_units(int n) { return units(n) + 1; }
FUNCTION by_pointed(int n) { return pointed(n) + 1; }
FUNCTION by_inlines(int n) { return inlines(n) + 1; }
FUNCTION by_again(int n) { return again(n) + 1; }
int main(int argc, char **argv) {
    switch (argv[1][0]) {
    case 'o': return by_one(argc) + 1;
    case 'e': return by_either(argc) + 1;
    case 'u': return by_units(argc) + 1;
    case 'p': return by_pointed(argc) + 1;
    case 'i': return by_inlines(argc) + 1;
    }
    return by_again(argc) + 1;
}
",
    ),
    (
        "b.c",
        "
#ifdef __clang__
#define FUNCTION __attribute__((noinline)) int
#else
#define FUNCTION __attribute__((noipa)) int
#endif
FUNCTION last(int n) { if (n) __builtin_trap(); return n; }
FUNCTION middle(int n) { return last(n + 1); }
FUNCTION other(int n) { return middle(n + 1); }
",
    ),
];

/// Where call sites prove one way, the frames are gdb's. Of two ways, gdb may show what they have in common; here nothing
/// is shown.
#[test]
fn tail_calls_that_call_sites_prove_are_frames_as_in_gdb() {
    let folder = Folder::new("places-proved-tail-calls");
    for (name, text) in WAYS {
        folder.write(name, text);
    }
    folder.write("frames.gdb", TAIL_CALLS);
    if !has("gdb") {
        return;
    }
    // The trap stays in the function that has it.
    let gcc = "gcc -O2 -fno-reorder-blocks-and-partition";
    for compiler in [gcc, &format!("{} -gdwarf-4", gcc), "clang -O2 -gdwarf-4"] {
        folder.run(&format!("{} -g -no-pie a.c b.c -o program", compiler));
        for way in ["one", "either", "units", "pointed", "inlines", "again"] {
            folder.make_core(&format!("./program {}", way));
            let shown = folder.run("gdb --batch -x frames.gdb program core 2> /dev/null | grep -E '^(jumped|frame) '");
            let own = shown.lines().take_while(|line| !line.starts_with("frame main "));
            // gdb names a frame that jumped after the function that is inlined there.
            let words = own.map(|line| line.split(' ').collect::<Vec<_>>()).filter(|words| words[0] != "inlined");
            let theirs: Vec<_> = words.map(|words| (words[0], hex(words[2]))).collect();
            let ran = dwcheck_elf(&folder, "stack --no-source core");
            let frames = ran.lines().into_iter().filter(|line| line.starts_with('#') && !line.contains(" inlined ("));
            let frames: Vec<_> = frames.take_while(|line| !line.contains(" main+")).collect();
            let address = |line: &str| hex(line.split(' ').nth(1).unwrap());
            let ours: Vec<_> = frames.iter().map(|line| (kind_of_frame(line), address(line))).collect();
            let (first, last) = (frames[0], frames[frames.len() - 1]);
            let is_whole = first.contains(" last+") && last.contains(&format!(" by_{}+", way));
            assert!(is_whole, "{} {}: {}", compiler, way, ran.out);
            match way {
                "either" | "again" => assert_eq!(ours.len(), 2, "{} {}: {}", compiler, way, ran.out),
                _ => assert_eq!(ours, theirs, "{} {}: {}", compiler, way, ran.out),
            }
            assert_eq!(
                ours.len() > 2,
                !["either", "again", "pointed"].contains(&way),
                "{} {}: {}",
                compiler,
                way,
                ran.out
            );
        }
    }
}

/// The function that was called and that has no frame is the outermost one of those that gdb says have jumped.
#[test]
fn a_tail_call_is_marked_where_gdb_knows_one() {
    let folder = Folder::new("places-tail-calls");
    folder.write("a.c", JUMPS);
    folder.write("frames.gdb", TAIL_CALLS);
    if !has("gdb") {
        return;
    }
    for (flags, is_bare) in [("", false), ("", true), ("-m32 -fno-pic -no-pie", false), ("-m32 -fPIE -pie", true)] {
        // The trap stays in the function that has it.
        folder.run(&format!("gcc -g -O2 -fno-reorder-blocks-and-partition {} a.c -o program", flags));
        folder.make_core("./program");
        make_root(&folder);
        if is_bare {
            folder.run("strip -g root$PWD/program");
        }
        let shown = folder.run("gdb --batch -x frames.gdb program core 2> /dev/null | grep -E '^(jumped|frame) '");
        let own = shown.lines().filter_map(|line| line.rsplit_once(' ')).map(|(frame, _)| frame);
        let own: Vec<_> = own.take_while(|frame| *frame != "frame main").collect();
        assert_eq!(own, ["frame last", "jumped second", "jumped first", "frame calls", "jumped jumps"], "{}", shown);
        let ran = dwcheck_elf(&folder, "stack --root root --no-source core");
        let names = ran.lines().into_iter().filter(|line| line.starts_with('#') || line.starts_with("tail call"));
        let name = |line: &str| match line.strip_prefix("tail call from ") {
            Some(from) => format!("jumped {}", from),
            None => shown_frame(line),
        };
        let names: Vec<_> = names.map(name).take_while(|name| name != "frame main").collect();
        let json = document(&folder, "core");
        let from: Vec<_> = own_frames(&json).iter().map(|frame| frame["tail_call_from"].clone()).take(3).collect();
        if !is_bare {
            assert_eq!(names, own, "{}{}", ran.out, ran.error);
            assert_eq!(from, [Value::Null, Value::Null, Value::Null], "{}", json);
        } else {
            // Only the function is known that was called.
            assert_eq!(
                names,
                ["frame last", "jumped first", "frame calls", "jumped jumps"],
                "{}{}",
                ran.out,
                ran.error
            );
            assert_eq!(from, [Value::from("first"), Value::from("jumps"), Value::Null], "{}", json);
        }
    }
}

/// Calls that lead elsewhere than to the first address of the function that has the frame, although no function
/// jumped to another one: to a part of the function, by another name, and by a stub.
const NO_JUMPS: &str = "
#define FUNCTION __attribute__((noipa)) int
int way;
static __attribute__((noipa, cold)) int traps(int n) { if (n) __builtin_trap(); return n; }
FUNCTION parted(int n) { if (__builtin_expect(n, 0)) return traps(n) + 1; return n; }
int alias(int n) __attribute__((alias(\"parted\")));
static int one(int n) { if (n) __builtin_trap(); return n; }
static int (*pick(void))(int) { return one; }
int chosen(int n) __attribute__((ifunc(\"pick\")));
FUNCTION by_parted(int n) { return parted(n) + 1; }
FUNCTION by_alias(int n) { return alias(n) + 1; }
FUNCTION by_ifunc(int n) { return chosen(n) + 1; }
FUNCTION by_recursion(int n) { return n < 5 ? by_recursion(n + 1) + 1 : traps(n) + 1; }
int start(int n, char **v) {
    switch (v[1][0]) {
    case 'p': return by_parted(n) + 1;
    case 'a': return by_alias(n) + 1;
    case 'i': return by_ifunc(n) + 1;
    }
    return by_recursion(n) + 1;
}
";

#[test]
fn what_is_no_tail_call_is_not_marked() {
    let folder = Folder::new("places-no-tail-calls");
    folder.write("a.c", NO_JUMPS);
    folder.write("main.c", "int start(int, char **); int main(int c, char **v) { return start(c, v) + 1; }");
    if !has("gdb") {
        return;
    }
    for build in [
        "gcc -O2 -g a.c main.c -o program",
        "gcc -O2 a.c main.c -static -o program",
        "gcc -O2 -fPIC -shared a.c -o liba.so && gcc -O2 main.c ./liba.so -o program",
    ] {
        folder.run(build);
        for way in ["parted", "alias", "ifunc", "recursion"] {
            folder.make_core(&format!("./program {}", way));
            let ran = dwcheck_elf(&folder, "stack --no-source core");
            let is_by = |part: &str| ran.out.contains(&format!(" by_{}{}+", way, part));
            let is_there = (is_by("") || is_by(".cold")) && ran.out.contains(" main+");
            assert!(is_there && !ran.out.contains("tail call"), "{}: {}{}", build, ran.out, ran.error);
            assert!(way != "parted" || build.contains(".so") || ran.out.contains(" parted.cold+"), "{}", ran.out);
        }
    }
}
