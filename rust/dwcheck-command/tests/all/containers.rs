//! What containers of C++, Rust and Go hold. What is expected of those of libstdc++ is what gdb's pretty-printers show,
//! of maps of Go what the program prints, and of the others what the source says; bench/elf/containers.py compares all
//! of them with debuggers at random instructions.

use crate::common::run::dwcheck_elf;
use crate::common::{has, may_trace, Folder};

const CXX: &str = "
#include <array>
#include <deque>
#include <list>
#include <map>
#include <memory>
#include <optional>
#include <set>
#include <string>
#include <string_view>
#include <tuple>
#include <unordered_map>
#include <variant>
#include <vector>
struct point { int x; double y; };
using choice = std::variant<int, std::string>;
__attribute__((noinline)) int work(int n) {
    std::string empty, small = \"small\", large(30, 'x');
    std::wstring wide = L\"wide\";
    std::string_view view = std::string_view(\"a view\").substr(2);
    std::vector<int> numbers = {1, 2, n}, none;
    std::vector<bool> bits(70);
    bits[69] = true;
    std::array<short, 3> row = {1, 2, 3};
    std::optional<int> some = n, nothing;
    choice number = 3, text = \"chosen\";
    std::unique_ptr<point> only(new point{n, 2.5}), gone;
    std::shared_ptr<int> shared = std::make_shared<int>(4), other = shared;
    std::weak_ptr<int> watching = shared, expired = std::make_shared<int>(9);
    std::list<int> chain = {7, 8, n}, unchained;
    std::deque<short> blocks(300, 5);
    for (int i = 0; i < 299; i++) blocks.pop_front();
    blocks.push_back(6);
    std::deque<point> ends;
    ends.push_front({1, 0.5});
    ends.push_back({2, 1.5});
    std::tuple<int, std::string, double> three(n, \"two\", 3.5);
    std::map<std::string, int> ages = {{\"bob\", 41}, {\"ann\", 30}};
    std::set<int> sorted = {3, 1, 2};
    std::unordered_map<int, std::string> names = {{1, \"one\"}, {2, \"two\"}};
    __builtin_trap();
    return numbers.size() + view.size();
}
int main(int argc, char **argv) { return work(argc + 2); }
";

/// Variables with what gdb and `vars` show of them, but for addresses.
const SHOWN: [(&str, &str, &str); 26] = [
    ("empty", r#""""#, r#""""#),
    ("small", r#""small""#, r#""small""#),
    ("large", "'x' <repeats 30 times>", r#""xxxxxxxxxxxxxxxxxxxxxxxxxxxxxx""#),
    ("wide", r#"L"wide""#, r#"L"wide""#),
    ("view", r#""view""#, r#""view""#),
    ("numbers", "std::vector of length 3, capacity 3 = {1, 2, 3}", "{1, 2, 3}"),
    ("none", "std::vector of length 0, capacity 0", "{}"),
    ("row", "{_M_elems = {1, 2, 3}}", "{1, 2, 3}"),
    ("some", "std::optional<int> = {[contained value] = 3}", "{3}"),
    ("nothing", "std::optional<int> [no contained value]", "{}"),
    ("number", "std::variant<int, std::string> [index 0] = {3}", "{int = 3}"),
    (
        "text",
        r#"std::variant<int, std::string> [index 1] = {"chosen"}"#,
        r#"{basic_string<char, std::char_traits<char>, std::allocator<char> > = "chosen"}"#,
    ),
    ("only", "std::unique_ptr<point> = {get() = }", "@: {x = 3, y = 2.5}"),
    ("gone", "std::unique_ptr<point> = {get() = }", ""),
    ("shared", "std::shared_ptr<int> (use count 2, weak count 1) = {get() = }", "@: 4 (use count 2, weak count 1)"),
    ("other", "std::shared_ptr<int> (use count 2, weak count 1) = {get() = }", "@: 4 (use count 2, weak count 1)"),
    ("watching", "std::weak_ptr<int> (use count 2, weak count 1) = {get() = }", "@: 4 (use count 2, weak count 1)"),
    ("expired", "std::weak_ptr<int> (expired, weak count 1) = {get() = }", "(use count 0, weak count 1)"),
    ("chain", "std::__cxx11::list = {[0] = 7, [1] = 8, [2] = 3}", "{7, 8, 3}"),
    ("unchained", "empty std::__cxx11::list", "{}"),
    ("blocks", "std::deque with 2 elements = {5, 6}", "{5, 6}"),
    ("ends", "std::deque with 2 elements = {{x = 1, y = 0.5}, {x = 2, y = 1.5}}", "{{..}, {..}}"),
    ("three", r#"std::tuple containing = {[1] = 3, [2] = "two", [3] = 3.5}"#, r#"{3, "two", 3.5}"#),
    ("ages", r#"std::map with 2 elements = {["ann"] = 30, ["bob"] = 41}"#, r#"{["ann"] = 30, ["bob"] = 41}"#),
    ("sorted", "std::set with 3 elements = {[0] = 1, [1] = 2, [2] = 3}", "{1, 2, 3}"),
    ("names", r#"std::unordered_map with 2 elements = {[2] = "two", [1] = "one"}"#, r#"{[2] = "two", [1] = "one"}"#),
];

/// A text without the addresses that it has, and without the spaces after them.
fn without_addresses(text: &str) -> String {
    let mut parts = text.split("0x");
    let first = parts.next().unwrap_or_default().to_string();
    parts.fold(first, |all, part| {
        let rest = part.trim_start_matches(|c: char| c.is_ascii_hexdigit());
        all + rest.strip_prefix(' ').unwrap_or(rest)
    })
}

/// The values of variables, as lines such as `n = 3`.
fn values(folder: &Folder, options: &str) -> Vec<(String, String)> {
    let ran = dwcheck_elf(folder, format!("vars --core core {}", options).trim_end());
    assert_eq!(ran.status, 0, "{:?}", ran);
    let value = |line: &str| {
        let (name, rest) = line.trim().split_once(' ')?.1.split_once(": ")?;
        // The name of a type may have colons and signs of equality.
        let (value, _) = rest.rsplit_once(" (at ")?;
        let begin = value.find(" = ")?;
        Some((name.to_string(), without_addresses(&value[begin + 3..])))
    };
    ran.out.lines().filter(|line| line.starts_with("    ")).filter_map(value).collect()
}

fn value<'l>(values: &'l [(String, String)], name: &str) -> &'l str {
    &values.iter().find(|(found, _)| found == name).unwrap_or_else(|| panic!("no {}: {:#?}", name, values)).1
}

#[test]
fn containers_of_libstdcxx_hold_what_gdb_shows() {
    let folder = Folder::new("containers-cxx");
    if !may_trace() || !has("clang++") {
        return;
    }
    folder.write("a.cc", CXX);
    for compiler in ["g++ -std=c++17", "g++ -std=c++20 -gdwarf-4", "clang++ -std=c++17 -fstandalone-debug"] {
        folder.run(&format!("{} -g a.cc -o program", compiler));
        folder.crash("./program");
        let by_gdb = folder.run("gdb --batch -nx -ex 'info locals' program core 2> /dev/null");
        let ours = values(&folder, "");
        for (name, theirs, shown) in SHOWN {
            let line = format!("{} = {}", name, theirs);
            assert!(by_gdb.lines().any(|found| without_addresses(found) == line), "{}: {}", line, by_gdb);
            assert_eq!(value(&ours, name), shown, "{}: {}", compiler, name);
        }
        let few = values(&folder, "--elements 2");
        assert_eq!((value(&few, "numbers"), value(&few, "small")), ("{1, 2, 1 more}", r#""sm..""#), "{}", compiler);
        assert_eq!((value(&few, "sorted"), value(&few, "bits")), ("{1, 2, 1 more}", "{false, false, 68 more}"));
    }
    let json = dwcheck_elf(&folder, "vars --json --core core").out;
    for part in [r#"{"key":{"address":"0x"#, r#","use_count":2,"weak_count":1}"#, r#""value":["1","2","3"]"#] {
        assert!(json.contains(part), "{}: {}", part, json);
    }
    assert!(!json.contains(r#""more""#), "{}", json);
    let cut = dwcheck_elf(&folder, "vars --json --elements 1 --core core").out;
    for part in [r#""value":["1",{"more":2}]"#, r#""value":["false",{"more":69}]"#, r#""value":"30"},{"more":1}]"#] {
        assert!(cut.contains(part), "{}: {}", part, cut);
    }
}

/// A vector with an end before its begin, a tree whose nodes are in a circle, and more.
const BROKEN: &str = "
#include <map>
#include <string>
#include <string.h>
#include <unordered_map>
#include <vector>
__attribute__((noinline)) int work(int n) {
    std::vector<int> turned = {1, 2, n};
    std::map<int, int> circle = {{1, 2}, {3, 4}, {5, 6}};
    std::unordered_map<int, int> lost = {{1, 2}};
    std::string longer = \"short\";
    size_t words[3] = {0x5000, 0x4000, 0x6000}, many = 77, wild = 0x1234;
    memcpy(&turned, words, sizeof words);
    char *root = *(char **)((char *)&circle + 16);
    memcpy(root + 16, &root, 8);
    memcpy((char *)&lost + 16, &wild, 8);
    memcpy((char *)&longer + 8, &many, 8);
    __builtin_trap();
    return 0;
}
int main(int argc, char **argv) { return work(argc); }
";

#[test]
fn what_no_container_can_hold_is_shown_as_a_structure() {
    let folder = Folder::new("containers-broken");
    if !may_trace() {
        return;
    }
    folder.write("a.cc", BROKEN);
    folder.run("g++ -g a.cc -o program");
    folder.crash("./program");
    let ours = values(&folder, "--depth 9");
    for (name, member) in [
        ("turned", "_M_start = "),
        ("circle", "_M_node_count = 3"),
        ("lost", "_M_nxt = "),
        ("longer", "_M_string_length = 77"),
    ] {
        assert!(value(&ours, name).contains(member), "{}: {:#?}", name, ours);
    }
}

const RUST: &str = "
use std::collections::{BTreeMap, BTreeSet, HashMap, HashSet, VecDeque};
use std::rc::Rc;
use std::sync::Arc;
#[allow(dead_code)]
struct Point { x: i32, y: f64 }
#[inline(never)]
#[allow(unused_variables)]
fn work(n: i32) {
    let (text, empty) = (String::from(\"a text\"), String::new());
    let numbers = vec![1, 2, n];
    let none: Vec<u64> = Vec::new();
    let texts = vec![String::from(\"one\"), String::from(\"two\")];
    let slice: &[i32] = &numbers[1..];
    let chosen: Option<String> = Some(\"some\".to_string());
    let boxed = Box::new(Point { x: n, y: 2.5 });
    let row: Box<[u16]> = vec![7, 8].into_boxed_slice();
    let inner: Box<str> = \"boxed\".into();
    let shared = Rc::new(5);
    let (other, weak) = (shared.clone(), Rc::downgrade(&shared));
    let again = weak.clone();
    let counted = Arc::new(String::from(\"counted\"));
    let watching = Arc::downgrade(&counted);
    let gone = Arc::downgrade(&Arc::new(7));
    let any: Rc<dyn std::fmt::Debug> = Rc::new(7);
    let mut ages: HashMap<u8, i32> = HashMap::new();
    ages.insert(7, 30);
    let mut keys: HashSet<u16> = HashSet::new();
    keys.insert(9);
    let mut circle: VecDeque<i32> = (0..7).collect();
    circle.drain(..5);
    circle.extend([n, 8, 9, 10]);
    let empty_circle: VecDeque<u8> = VecDeque::new();
    let mut few: BTreeMap<String, i32> = BTreeMap::new();
    few.insert(String::from(\"two\"), 2);
    few.insert(String::from(\"one\"), n);
    let mut squares: BTreeMap<u8, u32> = BTreeMap::new();
    (0..150u32).rev().for_each(|i| drop(squares.insert(i as u8, i * i)));
    let no_tree: BTreeMap<u8, u8> = BTreeMap::new();
    let mut sorted: BTreeSet<i64> = BTreeSet::new();
    (0..30).for_each(|i| drop(sorted.insert(i * 7 % 30)));
    sorted.retain(|i| i % 4 == 3);
    unsafe { std::arch::asm!(\"ud2\") }
}
fn main() { work(3) }
";

#[test]
fn containers_of_rust_hold_what_the_source_says() {
    let folder = Folder::new("containers-rust");
    if !may_trace() || !has("rustc") {
        return;
    }
    folder.write("a.rs", RUST);
    folder.run("rustc -g a.rs -o program 2> /dev/null");
    folder.crash("./program");
    let ours = values(&folder, "--depth 2");
    let expected = [
        ("text", r#""a text""#),
        ("empty", r#""""#),
        ("numbers", "{1, 2, 3}"),
        ("none", "{}"),
        ("texts", r#"{"one", "two"}"#),
        ("slice", "{2, 3}"),
        ("chosen", r#"{Some = {__0 = "some"}}"#),
        ("boxed", "@: {x = 3, y = 2.5}"),
        ("row", "{7, 8}"),
        ("inner", r#""boxed""#),
        ("shared", "@: 5 (use count 2, weak count 2)"),
        ("other", "@: 5 (use count 2, weak count 2)"),
        ("weak", "@: 5 (use count 2, weak count 2)"),
        ("again", "@: 5 (use count 2, weak count 2)"),
        ("counted", r#"@: "counted" (use count 1, weak count 1)"#),
        ("watching", r#"@: "counted" (use count 1, weak count 1)"#),
        ("gone", "(use count 0, weak count 1)"),
        ("ages", "{[7] = 30}"),
        ("keys", "{9}"),
        ("circle", "{5, 6, 3, 8, 9, 10}"),
        ("empty_circle", "{}"),
        ("few", r#"{["one"] = 3, ["two"] = 2}"#),
        ("no_tree", "{}"),
        ("sorted", "{3, 7, 11, 15, 19, 23, 27}"),
    ];
    let squares: Vec<String> = (0..150).map(|i| format!("[{}] = {}", i, i * i)).collect();
    assert_eq!(value(&ours, "squares"), format!("{{{}}}", squares.join(", ")));
    let cut = values(&folder, "--elements 70");
    assert_eq!(value(&cut, "squares"), format!("{{{}, 80 more}}", squares[..70].join(", ")));
    expected.iter().for_each(|(name, shown)| assert_eq!(value(&ours, name), *shown, "{}", name));
    // Where the value is isn't said by the type.
    assert!(value(&ours, "any").starts_with("{ptr = "), "{:#?}", ours);
}

const GO: &str = "
package main

import \"fmt\"

type point struct{ x, y int }
type large struct{ numbers [40]int64 }
type places map[string]point

//go:noinline
func work(n int) {
\tages := map[string]int{\"bob\": 41, \"ann\": 30}
\twhere := places{\"here\": {1, n}}
\tvar none map[int]int
\tempty := map[int]int{}
\tmany := map[int]int{}
\tfor i := 0; i < 1000; i++ {
\t\tmany[i] = i * i
\t}
\tfew := map[uint16]bool{}
\tfor i := 0; i < 14; i++ {
\t\tfew[uint16(i)] = i%2 == 0
\t}
\tfor i := 0; i < 12; i++ {
\t\tdelete(few, uint16(i))
\t}
\tlarger := map[large]large{{[40]int64{7}}: {[40]int64{9}}}
\tset := map[string]struct{}{\"a\": {}, \"b\": {}}
\tfmt.Println(\"ages\", ages)
\tfmt.Println(\"where\", where)
\tfmt.Println(\"none\", none)
\tfmt.Println(\"empty\", empty)
\tfmt.Println(\"few\", few)
\tfmt.Println(\"set\", set)
\tgrowing := map[int]int{}
\tfor i := 0; i < n*13; i++ {
\t\tgrowing[i] = i
\t\tif len(growing) == 14 {
\t\t\tbreak
\t\t}
\t}
\tfmt.Println(\"growing\", growing)
\tvar pointer *int
\t*pointer = len(many) + len(larger)
}
func main() { work(3) }
";

/// The elements of a map that Go has printed in one line, such as `map[ann:30 bob:41]`, in the order of the keys.
fn printed_by_go(lines: &str, name: &str) -> Vec<(String, String)> {
    let line = lines.lines().find_map(|line| line.strip_prefix(&format!("{} map[", name))).unwrap();
    let elements = line.strip_suffix(']').unwrap().split_terminator(' ');
    elements.map(|element| element.split_once(':').unwrap()).map(|(key, value)| (key.into(), value.into())).collect()
}

/// The elements of a map as `vars` shows them, in the order of the keys as texts.
fn shown_of_map(shown: &str) -> Vec<(String, String)> {
    let inside = shown.strip_prefix('{').and_then(|shown| shown.strip_suffix('}')).unwrap();
    let elements = inside.split_terminator(", [").map(|element| element.trim_start_matches('['));
    let pair = |element: &str| {
        let (key, value) = element.split_once("] = ").unwrap();
        (key.trim_matches('"').to_string(), value.to_string())
    };
    let mut all: Vec<_> = elements.map(pair).collect();
    all.sort();
    all
}

/// `growing` has just got its fourteenth element, so that its elements are in old and in new places. Keys and values of
/// `larger` are elsewhere, since they are large.
#[test]
fn maps_of_go_hold_what_the_program_prints() {
    let folder = Folder::new("containers-go");
    if !may_trace() || !has("go") {
        return;
    }
    folder.write("a.go", GO);
    folder.run("GOCACHE=$PWD/cache GO111MODULE=off go build -gcflags='all=-N -l' -o program a.go");
    let printed = folder.run("./program 2> /dev/null || true");
    folder.crash("./program");
    let ours = values(&folder, "--depth 3");
    for name in ["ages", "none", "empty", "few", "set", "growing"] {
        let mut theirs = printed_by_go(&printed, name);
        theirs.sort();
        assert_eq!(shown_of_map(value(&ours, name)), theirs, "{}", name);
    }
    assert!(printed.contains("where map[here:{1 3}]"), "{}", printed);
    assert_eq!(value(&ours, "where"), r#"{["here"] = {x = 1, y = 3}}"#);
    let numbers = |first: u64| format!("{{numbers = {{{}{}}}}}", first, ", 0".repeat(39));
    assert_eq!(value(&ours, "larger"), format!("{{[{}] = {}}}", numbers(7), numbers(9)));
    let all = values(&folder, "--depth 3 --elements 1000");
    let many = shown_of_map(value(&all, "many"));
    let is_square =
        |(key, value): &(String, String)| key.parse::<u64>().unwrap().pow(2) == value.parse::<u64>().unwrap();
    let mut keys: Vec<_> = many.iter().map(|(key, _)| key).collect();
    keys.dedup();
    assert!(keys.len() == 1000 && many.iter().all(is_square), "{:?}", many);
    assert!(value(&ours, "many").ends_with(", 800 more}"), "{}", value(&ours, "many"));
}

const LIBCXX: &str = "
#include <deque>
#include <list>
#include <string>
#include <tuple>
struct point { int x; double y; };
struct large { char bytes[300]; int n; };
__attribute__((noinline)) int work(int n) {
    std::list<int> chain = {7, 8, n}, unchained;
    std::list<std::string> texts = {\"one\", \"two\"};
    std::deque<short> blocks(3000, 5);
    for (int i = 0; i < 2999; i++) blocks.pop_front();
    blocks.push_back(6);
    std::deque<point> ends;
    ends.push_front({1, 0.5});
    ends.push_back({2, 1.5});
    std::deque<large> pages(40);
    pages[39].n = n;
    std::deque<int> none;
    std::tuple<int, std::string, double> three(n, \"two\", 3.5);
    std::tuple<std::tuple<int, int>, char> nested({1, 2}, 'c');
    __builtin_trap();
    return 0;
}
int main(int argc, char **argv) { return work(argc + 2); }
";

/// LLDB 14 shows the same; bench/elf/containers.py compares others with it. libc++ is rarely installed.
#[test]
fn containers_of_libcxx_hold_what_the_source_says() {
    let folder = Folder::new("containers-libcxx");
    folder.write("a.cc", LIBCXX);
    let is_built =
        folder.run("clang++ -stdlib=libc++ -std=c++17 -g a.cc -o program > /dev/null 2>&1 && echo built || true");
    if !may_trace() || is_built.is_empty() {
        return;
    }
    folder.crash("./program");
    let ours = values(&folder, "--depth 2");
    for (name, shown) in [
        ("chain", "{7, 8, 3}"),
        ("unchained", "{}"),
        ("texts", r#"{"one", "two"}"#),
        ("blocks", "{5, 6}"),
        ("ends", "{{x = 1, y = 0.5}, {x = 2, y = 1.5}}"),
        ("none", "{}"),
        ("three", r#"{3, "two", 3.5}"#),
        ("nested", "{{1, 2}, 'c'}"),
    ] {
        assert_eq!(value(&ours, name), shown, "{}", name);
    }
    assert!(value(&ours, "pages").ends_with("n = 3}}"), "{}", value(&ours, "pages"));
    let cut = values(&folder, "--elements 1");
    assert_eq!((value(&cut, "chain"), value(&cut, "ends")), ("{7, 2 more}", "{{..}, 1 more}"));
}
