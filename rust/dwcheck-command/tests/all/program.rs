//! Reads ELF files, and compares what is read with what nm, readelf and objcopy show.

use crate::common::run::dwcheck_elf;
use crate::common::{has, hex, Folder, C};
use dwcheck_elf::functions::NameError;
use dwcheck_elf::names::FunctionOffset;
use dwcheck_elf::program::{Kind, Program, ProgramError};
use dwcheck_elf::target::{AddressSize, Order};

const DEBUG_FRAME: &str = "-g -gdwarf-5 -O2 -fno-asynchronous-unwind-tables";

#[test]
fn headers() {
    let folder = Folder::new("headers");
    folder.write("a.c", C);
    folder.write("e.s", "f: .long 0\n");
    folder.run("gcc -O2 a.c -o shared; gcc -O2 -no-pie a.c -o fixed; gcc -c a.c -o object.o");
    let mut cases = vec![
        ("shared", 62, Kind::Shared, Order::Little, AddressSize::Eight),
        ("fixed", 62, Kind::Executable, Order::Little, AddressSize::Eight),
        ("object.o", 62, Kind::Relocatable, Order::Little, AddressSize::Eight),
    ];
    let others = [
        ("i686-linux-gnu-as", "i386.o", 3, Order::Little, AddressSize::Four),
        ("aarch64-linux-gnu-as", "aarch64.o", 183, Order::Little, AddressSize::Eight),
        ("powerpc-linux-gnu-as", "powerpc.o", 20, Order::Big, AddressSize::Four),
        ("s390x-linux-gnu-as", "s390x.o", 22, Order::Big, AddressSize::Eight),
    ];
    for (tool, name, machine, order, size) in others {
        if has(tool) {
            folder.run(&format!("{} e.s -o {}", tool, name));
            cases.push((name, machine, Kind::Relocatable, order, size));
        }
    }
    for (name, machine, kind, order, size) in cases {
        let bytes = folder.bytes(name);
        let program = Program::read(&bytes).unwrap();
        assert_eq!((program.machine(), program.kind()), (machine, kind), "{}", name);
        assert_eq!((program.target().order, program.target().address_size), (order, size), "{}", name);
    }
}

/// Looks up each symbol that nm calls a function, by its name and by its addresses.
#[test]
fn functions() {
    let folder = Folder::new("functions");
    folder.write("a.c", C);
    folder.run("gcc -O2 a.c -o linked");
    let bytes = folder.bytes("linked");
    let functions = Program::read(&bytes).unwrap().functions();
    let mut seen = 0;
    for line in folder.run("nm -S linked").lines() {
        let words: Vec<_> = line.split_whitespace().collect();
        if let [begin, size, "T" | "t", name] = words.as_slice() {
            let (begin, size) = (hex(begin), hex(size));
            assert_eq!(functions.address_of(name), Ok(begin));
            let (first, offset) = functions.at(begin).unwrap();
            assert_eq!((first.begin, first.size, offset), (begin, size, 0), "{}", name);
            let (last, offset) = functions.at(begin + size - 1).unwrap();
            assert_eq!((last.begin, offset), (begin, size - 1), "{}", name);
            seen += 1;
        }
    }
    assert!(seen >= 5, "{}", seen);
    let main = functions.address_of("main").unwrap();
    assert_eq!(functions.parse("main"), Ok(main));
    assert_eq!(functions.parse("main+4"), Ok(main + 4));
    assert_eq!(functions.parse("main + 0x10"), Ok(main + 16));
    assert_eq!(functions.parse("main+x"), Err(NameError::Offset("main+x".into())));
    let past = "main+0xffffffffffffffff";
    assert_eq!(functions.parse(past), Err(NameError::Sum(past.into())));
    assert_eq!(functions.parse("nothing"), Err(NameError::Unknown("nothing".into(), Vec::new())));
    assert_eq!(functions.at(u64::MAX), None);
    assert_eq!(functions.at(0), None);
}

/// Local symbols with the same name, from several files: a function is preferred to a label, and
/// two functions are an error.
#[test]
fn names_that_repeat() {
    let folder = Folder::new("names");
    folder.write("a.s", "same: nop\n.globl _start\n_start: call same\n");
    folder.write("b.s", ".type same, @function\nsame: nop\nnop\n.size same, .-same\n");
    folder.write("c.s", ".type same, @function\nnop\nsame: nop\nnop\n.size same, .-same\n");
    folder.run("for f in a b c; do as $f.s -o $f.o; done; ld a.o b.o -o two; ld a.o b.o c.o -o three");
    let address = |line: &str| hex(line.split_whitespace().next().unwrap());
    let bytes = folder.bytes("two");
    let two = Program::read(&bytes).unwrap().functions();
    let shown = folder.run("readelf -sW two | grep FUNC | grep -w same | awk '{print $2}'");
    assert_eq!(two.address_of("same"), Ok(address(&shown)), "a function goes before a label");
    let bytes = folder.bytes("three");
    let three = Program::read(&bytes).unwrap().functions();
    let shown = folder.run("readelf -sW three | grep FUNC | grep -w same | awk '{print $2}' | sort");
    let both: Vec<_> = shown.lines().map(address).collect();
    assert_eq!(three.address_of("same"), Err(NameError::Ambiguous("same".into(), both)));
}

/// Looks up functions of C++ by the demangled names that nm and this library show. A class with a
/// virtual destructor has two destructors that are shown with the same name.
#[test]
fn names_that_are_demangled() {
    let folder = Folder::new("demangled");
    folder.write(
        "a.cc",
        "struct A { int n; A operator++(int); virtual ~A(); };
A::~A() { n = 1; }
A A::operator++(int) { A old = *this; n++; return old; }
A operator+(const A &a, const A &b) { A sum; sum.n = a.n + b.n; return sum; }
static __attribute__((noinline, used)) int twice(int x) { return x + x; }
template <typename T> __attribute__((noinline)) T thrice(T x) { return x * 3; }
int main(int argc, char **) { return thrice(argc); }
",
    );
    folder.run("g++ -O1 a.cc -o linked");
    let bytes = folder.bytes("linked");
    let functions = Program::read(&bytes).unwrap().functions();
    let shown = folder.run("nm -C linked");
    let address = |name: &str| hex(shown.lines().find(|line| line.ends_with(name)).unwrap().split(' ').next().unwrap());
    for name in ["twice(int)", "operator+(A const&, A const&)", "A::operator++(int)", "int thrice<int>(int)"] {
        let begin = address(name);
        assert_eq!(functions.address_of(name), Ok(begin), "{}", name);
        assert_eq!(functions.parse(name), Ok(begin), "{}", name);
        assert_eq!(functions.parse(&format!("{}+0x4", name)), Ok(begin + 4), "{}", name);
        assert_eq!(functions.parse(&format!("{} + 1", name)), Ok(begin + 1), "{}", name);
        assert_eq!(FunctionOffset::at(&functions, begin + 1).unwrap().to_string(), format!("{}+0x1", name));
    }
    assert_eq!(functions.parse("_ZL5twicei+4"), Ok(address("twice(int)") + 4));
    for (unknown, similar) in [
        ("twice", "; there is twice(int)"),
        ("thrice", "; there is int thrice<int>(int)"),
        ("~A", "; there is A::~A()"),
        ("operator+", "; there is operator+(A const&, A const&)"),
        ("operator", ""),
        ("int", ""),
        ("twice(long)", ""),
        ("operator+(A)", ""),
        ("operator+(int, int)", ""),
        ("4ba50", " (an address begins with 0x)"),
    ] {
        let error = functions.parse(unknown).unwrap_err();
        assert_eq!(error.to_string(), format!("no function has the name {}{}", unknown, similar));
    }
    assert_eq!(functions.parse("twice(int)+x"), Err(NameError::Offset("twice(int)+x".into())));
    let mut both: Vec<_> = ["_ZN1AD0Ev", "_ZN1AD1Ev"].iter().map(|name| functions.address_of(name).unwrap()).collect();
    both.sort_unstable();
    assert_eq!(functions.parse("A::~A()+4"), Err(NameError::Ambiguous("A::~A()".into(), both)));
}

/// At most three names are shown for a name that no function has, each once.
#[test]
fn names_that_may_be_meant() {
    let folder = Folder::new("similar-names");
    let overloads = ["char", "int", "long", "float"].map(|kind| format!("{0} leaf({0} x) {{ return x + 1; }}\n", kind));
    let others = "
namespace tree { template <typename T> struct Node { T twig(T x) { return x; } }; }
template struct tree::Node<long>;
int stem(int x) { auto bud = [](int y) __attribute__((noinline)) { return y + 1; }; return bud(x) * 2; }
";
    folder.write("a.cc", overloads.concat() + others);
    folder.run("g++ -c -O1 a.cc -o a.o");
    let bytes = folder.bytes("a.o");
    let functions = Program::read(&bytes).unwrap().functions();
    let message = "no function has the name leaf; there are leaf(char), leaf(int) and leaf(long)";
    assert_eq!(functions.parse("leaf").unwrap_err().to_string(), message);
    assert_eq!(functions.parse("leaf+4").unwrap_err().to_string(), message);
    for (name, similar) in [
        ("stem", "; there is stem(int)"),
        ("twig", "; there is tree::Node<long>::twig(long)"),
        ("Node<long>::twig", "; there is tree::Node<long>::twig(long)"),
        ("Node", ""),
        ("long", ""),
    ] {
        let error = functions.parse(name).unwrap_err();
        assert_eq!(error.to_string(), format!("no function has the name {}{}", name, similar));
    }
}

/// Functions of Rust, with both kinds of mangled names. Shown names have no hash, so two functions
/// may be shown with the same name.
#[test]
fn names_of_rust_that_are_demangled() {
    let folder = Folder::new("rust-names");
    let hashed = |name: &str, hash: char| format!("_ZN4prog4{}17h{}E", name, hash.to_string().repeat(16));
    let names = [hashed("main", 'a'), hashed("next", 'b'), hashed("next", 'c'), "_RNvC4prog4last".to_string()];
    let functions = names.map(|name| format!(".globl {0}\n.type {0}, @function\n{0}: nop\n.size {0}, 1\n", name));
    folder.write("a.s", functions.concat());
    folder.run("as a.s -o a.o; ld -e 0 -Ttext=0x1000 a.o -o linked");
    let bytes = folder.bytes("linked");
    let functions = Program::read(&bytes).unwrap().functions();
    assert_eq!(functions.parse("prog::main+1"), Ok(0x1001));
    assert_eq!(functions.parse("prog::last"), Ok(0x1003));
    assert_eq!(functions.parse("last").unwrap_err().to_string(), "no function has the name last; there is prog::last");
    let both = vec![0x1001, 0x1002];
    assert_eq!(functions.parse("prog::next"), Err(NameError::Ambiguous("prog::next".into(), both)));
}

/// A symbol whose own name ends with a plus sign and a number, as linkers make them.
#[test]
fn a_number_that_is_part_of_a_name() {
    let folder = Folder::new("stub");
    folder.write("a.s", ".globl _start\n_start: nop\n\"stub.f+4\": nop\n\"f\": nop\n");
    folder.run("as a.s -o a.o; ld a.o -o linked");
    let bytes = folder.bytes("linked");
    let functions = Program::read(&bytes).unwrap().functions();
    let start = functions.address_of("_start").unwrap();
    assert_eq!(functions.parse("stub.f+4"), Ok(start + 1));
    assert_eq!(functions.parse("stub.f+4+1"), Ok(start + 2));
    assert_eq!(functions.parse("f+4"), Ok(start + 6));
}

#[test]
fn segments() {
    let folder = Folder::new("segments");
    folder.write("a.c", C);
    folder.run("gcc -O2 a.c -o linked");
    let bytes = folder.bytes("linked");
    let found: Vec<_> = Program::read(&bytes)
        .unwrap()
        .segments()
        .iter()
        .map(|segment| (segment.offset, segment.address, segment.file_size, segment.size, segment.is_executable))
        .collect();
    let shown = folder.run("readelf -lW linked | grep '^  LOAD'");
    let expected: Vec<_> = shown
        .lines()
        .map(|line| {
            let words: Vec<_> = line.split_whitespace().collect();
            (hex(words[1]), hex(words[2]), hex(words[4]), hex(words[5]), words[7] == "E")
        })
        .collect();
    assert_eq!(found, expected);
}

/// Reads sections that are uncompressed or in one of the two compressed formats, and compares their
/// bytes with those that objcopy writes.
#[test]
fn compressed_sections() {
    let folder = Folder::new("compressed");
    folder.write("a.c", C);
    for (form, header) in [("none", ".debug_frame"), ("zlib", ".debug_frame"), ("zlib-gnu", ".zdebug_frame")] {
        // Only the linker compresses, so that all files have the same section once it is
        // decompressed.
        folder.run(&format!("gcc {} -Wl,--compress-debug-sections={} a.c -o {}", DEBUG_FRAME, form, form));
        let shown = folder.run(&format!("readelf -SW {} | grep -w 'z\\?debug_frame'", form));
        assert!(shown.contains(header), "{}", shown);
        let bytes = folder.bytes(form);
        let program = Program::read(&bytes).unwrap();
        let frame = program.debug_frame().unwrap().expect("the file has the section");
        assert_eq!(frame.bytes.as_ref(), folder.section("none", ".debug_frame"), "{}", form);
        assert_eq!(frame.address, 0);
        let lists = program.debug_loclists().unwrap().expect("the file has the section");
        assert_eq!(lists.bytes.as_ref(), folder.section("none", ".debug_loclists"), "{}", form);
    }
    let bytes = folder.bytes("none");
    let program = Program::read(&bytes).unwrap();
    let shown = folder.run("readelf -SW none | grep -w eh_frame | sed 's/.*PROGBITS *//'");
    let eh_frame = program.eh_frame().unwrap().unwrap();
    assert_eq!(eh_frame.address, hex(shown.split_whitespace().next().unwrap()));
    assert_eq!(eh_frame.bytes.as_ref(), folder.section("none", ".eh_frame"));
}

/// A compressed section that claims to have more bytes than is possible is an error, and no memory
/// is allocated for it.
#[test]
fn sizes_that_lie() {
    let folder = Folder::new("lies");
    folder.write("a.c", C);
    folder.run(&format!("gcc {} -Wl,--compress-debug-sections=zlib a.c -o linked", DEBUG_FRAME));
    let bytes = folder.bytes("linked");
    let shown = folder.run("readelf -SW linked | grep -w debug_frame | sed 's/.*PROGBITS *//'");
    let offset = hex(shown.split_whitespace().nth(1).unwrap()) as usize;
    for size in [u64::MAX, 1 << 40, 1 << 30, 1 << 25] {
        let mut changed = bytes.clone();
        changed[offset + 8..offset + 16].copy_from_slice(&size.to_le_bytes());
        let program = Program::read(&changed).unwrap();
        assert_eq!(program.debug_frame(), Err(ProgramError::TooLarge(".debug_frame", size)));
    }
    let mut changed = bytes;
    changed[offset + 8] ^= 1;
    let program = Program::read(&changed).unwrap();
    assert!(matches!(program.debug_frame(), Err(ProgramError::Section(".debug_frame", _))));
}

/// Without section headers, as sstrip leaves a file, `.eh_frame` is found by its segment. The rows are
/// those that the file had before.
#[test]
fn a_file_without_section_headers() {
    let folder = Folder::new("headers-gone");
    folder.write("a.c", crate::common::C);
    for flags in ["-O2", "-O2 -no-pie"] {
        folder.run(&format!("gcc {} a.c -o whole; strip whole", flags));
        let mut bytes = folder.bytes("whole");
        bytes[40..48].fill(0);
        bytes[58..64].fill(0);
        folder.write("bare", &bytes);
        assert!(!folder.run("readelf -S bare 2>&1").contains(".eh_frame"));
        let before = dwcheck_elf(&folder, "rows whole");
        let after = dwcheck_elf(&folder, "rows bare");
        assert!(before.out.lines().filter(|line| line.starts_with("fde ")).count() > 5);
        assert_eq!((after.status, after.error.as_str()), (0, ""));
        let nameless =
            |out: &str| out.lines().map(|line| line.split(" (").next().unwrap().to_string()).collect::<Vec<_>>();
        assert!(nameless(&after.out) == nameless(&before.out), "{}", flags);
    }
}

#[test]
fn files_without_sections() {
    let folder = Folder::new("without");
    folder.write("a.s", ".globl _start\n_start: nop\n");
    folder.run("as a.s -o a.o; ld a.o -o linked; objcopy --only-keep-debug /bin/true debug");
    let bytes = folder.bytes("linked");
    let program = Program::read(&bytes).unwrap();
    assert_eq!((program.debug_frame(), program.debug_loclists(), program.eh_frame()), (Ok(None), Ok(None), Ok(None)));
    let bytes = folder.bytes("debug");
    assert_eq!(Program::read(&bytes).unwrap().eh_frame(), Ok(None), "the section has no bytes there");
    for bytes in [&b"\x7fELF"[..], &bytes[..40]] {
        assert!(matches!(Program::read(bytes), Err(ProgramError::Elf(_))));
    }
    for (bytes, kind) in [(&b""[..], None), (b"text", None), (b"#!/bin/sh\n", Some("a script"))] {
        let error = Program::read(bytes).err();
        assert!(
            matches!(&error, Some(ProgramError::NotElf(other)) if other.map(|other| other.kind) == kind),
            "{:?}",
            error
        );
    }
}
