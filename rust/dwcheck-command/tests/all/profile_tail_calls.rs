//! Frames of functions that ended with a jump, in recordings that are made of what gdb reads where it stops a program.
//! The frames are compared with gdb's.

use crate::common::recordings::{Recording, X86};
use crate::common::run::dwcheck_elf_words;
use crate::common::{has, may_trace, Folder};

/// In `direct`, one way leads from the call to `last`; in `either`, two.
const JUMPS: &str = "
#define FUNCTION __attribute__((noipa)) int
FUNCTION last(int n) { __asm__ volatile(\"nop\"); return n; }
FUNCTION left(int n) { return last(n + 1); }
FUNCTION right(int n) { return last(n + 2); }
FUNCTION one(int n) { return left(n * 2); }
FUNCTION two(int n) { return n & 1 ? left(n) : right(n); }
FUNCTION direct(int n) { return one(n) + 1; }
FUNCTION either(int n) { return two(n) + 1; }
FUNCTION calls(int n) { return last(n) + 1; }
int main(int argc, char **argv) {
    return (argv[1][0] == 'd' ? direct(argc) : argv[1][0] == 'e' ? either(argc) : calls(argc)) + 1;
}
";

/// Prints the registers in perf's order, the stack, and the names of the frames.
const STOP: &str = "
set startup-with-shell off
break last
run
python
names = ['ax', 'bx', 'cx', 'dx', 'si', 'di', 'bp', 'sp', 'ip'] + list(range(8, 16))
values = [int(gdb.parse_and_eval('(unsigned long)$r%s' % name)) for name in names]
print('registers', *values)
print('stack', bytes(gdb.selected_inferior().read_memory(values[7], 256)).hex())
frame = gdb.newest_frame()
while frame is not None:
    print('frame', frame.name())
    frame = frame.older()
end
";

/// What gdb prints in lines that begin with a word.
fn lines_of<'o>(out: &'o str, word: &'o str) -> impl Iterator<Item = &'o str> {
    out.lines().filter_map(move |line| line.strip_prefix(word)?.strip_prefix(' '))
}

/// A sample where gdb has stopped the program, which isn't moved when it is loaded.
fn recording_of_stop(folder: &Folder, out: &str) -> Vec<u8> {
    let headers = folder.run("readelf -lW program");
    let code = headers.lines().find(|line| line.contains("LOAD") && line.contains(" R E ")).unwrap();
    let words: Vec<&str> = code.split_whitespace().collect();
    let number = |place: usize| u64::from_str_radix(words[place].trim_start_matches("0x"), 16).unwrap();
    let registers: Vec<u64> =
        lines_of(out, "registers").next().unwrap().split(' ').map(|value| value.parse().unwrap()).collect();
    let digits = lines_of(out, "stack").next().unwrap().as_bytes();
    let byte = |pair: &[u8]| u8::from_str_radix(std::str::from_utf8(pair).unwrap(), 16).unwrap();
    let stack: Vec<u8> = digits.chunks(2).map(byte).collect();
    let mut recording = Recording::new(false);
    recording.map(5, 0, (number(2), number(4), number(1)), b"/program");
    recording.comm(5, 0, false, b"program");
    recording.sample(5, 10, registers[8], &registers, &stack);
    recording.file(X86, "x86_64")
}

#[test]
fn functions_that_jumped_have_frames_as_in_gdb() {
    let folder = Folder::new("profile-tail-calls");
    folder.write("a.c", JUMPS);
    folder.write("stop.gdb", STOP);
    if !may_trace() || !has("clang") {
        return;
    }
    let root = folder.path().to_str().unwrap().to_string();
    for compiler in ["gcc -O2", "gcc -O2 -gdwarf-4", "clang -O2 -gdwarf-4 -Dnoipa=noinline"] {
        folder.run(&format!("{} -g -no-pie -fno-pie a.c -o program", compiler));
        for way in ["direct", "either", "calls"] {
            let out = folder.run(&format!("gdb --batch -nx -x stop.gdb --args ./program {} 2> /dev/null", way));
            folder.write("made.perf", recording_of_stop(&folder, &out));
            let mut theirs: Vec<&str> = lines_of(&out, "frame").take_while(|name| *name != "main").collect();
            if way == "either" {
                // gdb shows what both ways have in common, and here nothing is shown.
                theirs.retain(|name| *name != "two");
            }
            theirs.push("main");
            theirs.reverse();
            let words = ["profile", "--root", &root, "--quiet", "made.perf"];
            let folded = dwcheck_elf_words(&folder, &words);
            let ours = folded.out.split(' ').next().unwrap_or("").split(';').skip_while(|name| *name != "main");
            assert_eq!(ours.collect::<Vec<_>>(), theirs, "{} {}: {}{}", compiler, way, folded.out, out);
            let script = dwcheck_elf_words(&folder, &[&words[..], &["--format", "script"]].concat()).out;
            let marked: Vec<&str> = script.lines().filter(|line| line.contains(" (tail call) (")).collect();
            let count = if way == "direct" { 2 } else { 0 };
            assert_eq!(marked.len(), count, "{} {}: {}", compiler, way, script);
            let is_marked = |(line, name): (&&str, &str)| line.contains(&format!(" {}+", name));
            assert!(marked.iter().zip(["left", "one"]).all(is_marked), "{}", script);
        }
    }
}

/// Without debug information nothing is proved.
#[test]
fn without_call_sites_no_frame_is_added() {
    let folder = Folder::new("profile-no-call-sites");
    folder.write("a.c", JUMPS);
    folder.write("stop.gdb", STOP);
    if !may_trace() {
        return;
    }
    folder.run("gcc -O2 -no-pie -fno-pie a.c -o program");
    let out = folder.run("gdb --batch -nx -x stop.gdb --args ./program direct 2> /dev/null");
    folder.write("made.perf", recording_of_stop(&folder, &out));
    let root = folder.path().to_str().unwrap().to_string();
    let ran = dwcheck_elf_words(&folder, &["profile", "--root", &root, "--quiet", "made.perf"]);
    assert!(ran.out.ends_with("main;direct;last 1000\n"), "{}", ran.out);
}
