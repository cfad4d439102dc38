//! Applies the relocations of unlinked objects, and compares the results with readelf, objcopy and
//! the linker.

use crate::common::run::dwcheck_elf;
use crate::common::{has, hex, Folder, C, CXX, MACHINES};
use dwcheck_elf::frames::{Frames, Record};
use dwcheck_elf::program::{Program, ProgramError, Section};
use dwcheck_elf::validate::validate_rows;
use std::collections::HashMap;

/// What readelf shows for the relocations of the FDEs' initial locations, in the order of the FDEs:
/// for each relocation, the section and the offset that it refers to.
fn functions_of_relocations(folder: &Folder, file: &str, section: &str) -> Vec<(String, u64)> {
    let shown = folder.run(&format!("readelf -rW {}", file));
    let title = format!("'.rela{}'", section);
    let lines = shown.lines().skip_while(|line| !line.contains(&title)).skip(2);
    let code = lines.take_while(|line| !line.is_empty()).filter_map(|line| {
        let words: Vec<_> = line.split_whitespace().collect();
        match words.as_slice() {
            [_, _, _, _, name, "+", offset] if name.starts_with(".text") => Some((name.to_string(), hex(offset))),
            _ => None,
        }
    });
    code.collect()
}

/// Maps the section and the offset of each function to its name and size, as readelf shows them.
fn functions_of_symbols(folder: &Folder, file: &str) -> HashMap<(String, u64), (String, u64)> {
    let mut sections = HashMap::new();
    for line in folder.run(&format!("readelf -SW {} | sed 's/^ *\\[ *//; s/\\]//'", file)).lines() {
        let words: Vec<_> = line.split_whitespace().collect();
        if let [number, name, "PROGBITS", ..] = words.as_slice() {
            sections.insert(number.to_string(), name.to_string());
        }
    }
    let shown = folder.run(&format!("readelf -sW {}", file));
    let functions = shown.lines().filter_map(|line| {
        let words: Vec<_> = line.split_whitespace().collect();
        match words.as_slice() {
            [_, value, size, "FUNC", _, _, section, name] => {
                let section = sections.get(*section)?.clone();
                Some(((section, hex(value)), (name.to_string(), size.parse().ok()?)))
            }
            _ => None,
        }
    });
    functions.collect()
}

/// Checks that each FDE covers the function that its relocation refers to, and that no two FDEs
/// share an address. `ranges` has the first address and the number of bytes of each FDE.
fn functions_of_frames(folder: &Folder, file: &str, section: &str, ranges: &[(u64, u64)]) {
    let named = functions_of_relocations(folder, file, section);
    let known = functions_of_symbols(folder, file);
    assert_eq!(ranges.len(), named.len());
    assert!(named.len() >= 4);
    let bytes = folder.bytes(file);
    let functions = Program::read(&bytes).unwrap().functions();
    for (range, place) in ranges.iter().zip(&named) {
        let (name, size) = &known[place];
        let (found, offset) = functions.at(range.0).expect("a function is there");
        assert_eq!((found.begin, found.size, offset), (range.0, *size, 0));
        assert_eq!(range.1, *size, "{}", name);
        assert!(found.name == *name || functions.address_of(name) == Ok(range.0), "{} {}", found.name, name);
    }
    let mut sorted = ranges.to_vec();
    sorted.sort_unstable();
    assert!(sorted.windows(2).all(|pair| pair[0].0 + pair[0].1 <= pair[1].0), "{:x?}", sorted);
}

fn ranges_of_eh_frame(folder: &Folder, file: &str) -> Vec<(u64, u64)> {
    let bytes = folder.bytes(file);
    let program = Program::read(&bytes).unwrap();
    let frames = Frames::all(&program).last().unwrap().unwrap();
    let agreement = validate_rows(&frames, &frames.process(0).unwrap()).unwrap();
    let addresses: Vec<_> = frames.used().filter_map(Record::addresses).collect();
    assert_eq!(agreement.fdes, addresses.len());
    addresses.into_iter().map(|range| (range.start, range.end - range.start)).collect()
}

#[test]
fn eh_frame_of_c() {
    let folder = Folder::new("objects-c");
    folder.write("a.c", C);
    folder.run("gcc -O2 -c -ffunction-sections a.c -o a.o");
    functions_of_frames(&folder, "a.o", ".eh_frame", &ranges_of_eh_frame(&folder, "a.o"));
}

/// An object from C++ has section groups with inline functions, and refers to a personality routine
/// that it doesn't define.
#[test]
fn eh_frame_of_cxx() {
    let folder = Folder::new("objects-cxx");
    folder.write("a.cc", CXX);
    folder.run("g++ -O1 -fno-inline -c a.cc -o a.o");
    functions_of_frames(&folder, "a.o", ".eh_frame", &ranges_of_eh_frame(&folder, "a.o"));
    folder.run("g++ -O1 -fno-inline -fno-pic -fno-pie -c a.cc -o fixed.o");
    functions_of_frames(&folder, "fixed.o", ".eh_frame", &ranges_of_eh_frame(&folder, "fixed.o"));
}

/// A compressed `.debug_frame` with relocations: each FDE covers its function.
#[test]
fn debug_frame_of_c() {
    let folder = Folder::new("objects-debug");
    folder.write("a.c", C);
    folder.run("gcc -O2 -g -gz=zlib -fno-asynchronous-unwind-tables -ffunction-sections -c a.c -o a.o");
    let bytes = folder.bytes("a.o");
    let frame = Program::read(&bytes).unwrap().debug_frame().unwrap().unwrap();
    let ranges = ranges_of_debug_frame(&frame);
    functions_of_frames(&folder, "a.o", ".debug_frame", &ranges);
    assert!(folder.run("readelf -SW a.o").contains(" C "), "the section is compressed");
}

fn ranges_of_debug_frame(section: &Section<'_>) -> Vec<(u64, u64)> {
    use gimli::{CieOrFde, DebugFrame, LittleEndian, UnwindSection};
    let frame = DebugFrame::new(&section.bytes, LittleEndian);
    let bases = gimli::BaseAddresses::default();
    let mut entries = frame.entries(&bases);
    let mut ranges = Vec::new();
    while let Some(entry) = entries.next().unwrap() {
        if let CieOrFde::Fde(partial) = entry {
            let fde = partial.parse(DebugFrame::cie_from_offset).unwrap();
            ranges.push((fde.initial_address(), fde.len()));
        }
    }
    ranges
}

/// The location lists of an object are the same after `ld -r`.
#[test]
fn debug_loclists_of_c() {
    let folder = Folder::new("objects-lists");
    folder.write("a.c", C);
    folder.run("gcc -O2 -g -gdwarf-5 -c a.c -o a.o; ld -r a.o -o again.o");
    let bytes = folder.bytes("a.o");
    let lists = Program::read(&bytes).unwrap().debug_loclists().unwrap().unwrap();
    let functions = Program::read(&bytes).unwrap().functions();
    // `main` is in .text.startup, which gets an address after .text. So the relocations that refer
    // to `main` change bytes.
    let begin = functions.address_of("main").unwrap();
    assert!(begin > 0);
    assert_ne!(lists.bytes.as_ref(), folder.section("a.o", ".debug_loclists"), "readelf sees no relocation applied");
    let again = folder.bytes("again.o");
    let again = Program::read(&again).unwrap().debug_loclists().unwrap().unwrap();
    assert_eq!(lists.bytes, again.bytes);
}

/// Objects for other machines, which have their own types of relocations. The FDEs have to cover
/// the same addresses as after linking.
#[test]
fn other_machines() {
    let folder = Folder::new("objects-machines");
    let text = ".globl f, g
f: .cfi_startproc
 nop
 nop
 .cfi_adjust_cfa_offset 16
 nop
 nop
 .cfi_endproc
g: .cfi_startproc
 nop
 nop
 .cfi_endproc
";
    folder.write("a.s", text);
    // On hppa a relative distance counts from two instructions later, which isn't supported.
    for machine in MACHINES.into_iter().filter(|machine| !machine.starts_with("hppa")) {
        if has(&format!("{}-as", machine)) {
            folder.run(&format!("{0}-as a.s -o a.o; {0}-ld -e 0 -Ttext=0 a.o -o linked", machine));
            let expected = ranges_of_eh_frame(&folder, "linked");
            assert_eq!(expected.len(), 2);
            assert_eq!(ranges_of_eh_frame(&folder, "a.o"), expected, "{}", machine);
        }
    }
}

/// A CIE of `.eh_frame`.
const CIE: &str = " .section .eh_frame, \"a\", @progbits
cie: .long cie_end - cie_id
cie_id: .long 0
 .byte 1
 .asciz \"zR\"
 .uleb128 1
 .sleb128 -8
 .byte 16
 .uleb128 1
 .byte 0x1b, 0x0c, 7, 8
cie_end:
";

/// An FDE of that CIE for four addresses from a symbol on. Its program is this byte.
fn fde(symbol: &str, program: u8) -> String {
    format!(
        " .long 18\n1: .long 1b - cie\n .long {} - .\n .long 4\n .uleb128 0\n .byte {}, 0, 0, 0, 0\n",
        symbol, program
    )
}

/// The address of an initial location whose symbol is in another object isn't known.
#[test]
fn undefined_symbols() {
    let folder = Folder::new("objects-undefined");
    folder.write("a.s", format!("{}{}", CIE, fde("elsewhere", 0)));
    folder.run("as a.s -o a.o");
    let bytes = folder.bytes("a.o");
    let program = Program::read(&bytes).unwrap();
    let section = program.eh_frame().unwrap().unwrap();
    let record = folder.section("a.o", ".eh_frame").len() as u64 - 22;
    assert_eq!(section.unresolved, [record + 8]);
    let frames = Frames::all(&program).next().unwrap().unwrap();
    assert_eq!(frames.unresolved(), [record]);
    let ran = dwcheck_elf(&folder, "check a.o");
    let expected = format!("a.o: .eh_frame+{:#x}: Unresolved: a field, record {0:#x}", record);
    assert_eq!((ran.status, ran.lines()[0]), (1, expected.as_str()));
    assert!(ran.lines()[1].starts_with(&format!("    at {:#x}: ", record + 8)), "{}", ran.out);
    assert_eq!(ran.lines()[2], "a.o: .eh_frame: 1 of 2 records left out");
}

/// Beside an FDE whose address isn't known, the first fault is the one with the lowest offset, even if a length can't
/// be read.
#[test]
fn undefined_symbols_and_faults() {
    let folder = Folder::new("objects-undefined-faults");
    let all = [CIE, " .text\nf: .skip 4\n .section .eh_frame\n", &fde("f", 0x3f), &fde("elsewhere", 0)].concat();
    folder.write("a.s", all + " .long 0xfffffff0\n");
    folder.run("as a.s -o a.o");
    let names = |words: &str| {
        let ran = dwcheck_elf(&folder, words);
        assert_eq!(
            (ran.status, ran.lines().iter().any(|line| *line == "a.o: .eh_frame: 3 of 4 records left out")),
            (1, true)
        );
        let lines = ran.lines().into_iter().filter(|line| line.starts_with("a.o: .eh_frame+"));
        lines.map(|line| line.split(": ").nth(2).unwrap().to_string()).collect::<Vec<_>>()
    };
    assert_eq!(names("check a.o"), ["UnknownInstruction"]);
    assert_eq!(names("check --all a.o"), ["UnknownInstruction", "Unresolved", "ReservedLength"]);
}

/// An empty section with the same name is ignored. Two sections with bytes are refused.
#[test]
fn sections_that_repeat() {
    let folder = Folder::new("objects-repeat");
    let section =
        |number: u8, bytes: &str| format!(".section .eh_frame, \"a\", @progbits, unique, {}\n{}\n", number, bytes);
    folder.write("one.s", section(1, "") + &section(2, ".long 0"));
    folder.write("two.s", section(1, ".long 0") + &section(2, ".long 0"));
    folder.run("as one.s -o one.o; as two.s -o two.o");
    assert_eq!(folder.run("readelf -SW one.o | grep -c '[0-9]\\] .eh_frame'").trim(), "2");
    let bytes = folder.bytes("one.o");
    let found = Program::read(&bytes).unwrap().eh_frame().unwrap().unwrap();
    assert_eq!(found.bytes.as_ref(), [0; 4]);
    let bytes = folder.bytes("two.o");
    assert_eq!(Program::read(&bytes).unwrap().eh_frame(), Err(ProgramError::Repeated(".eh_frame")));
}

/// A relocation of a type that isn't known, one whose field isn't in the section, and one whose
/// symbol isn't in the file.
#[test]
fn relocations_that_are_wrong() {
    let folder = Folder::new("objects-wrong");
    folder.write("a.c", C);
    folder.run("gcc -O2 -c a.c -o a.o");
    let shown = folder.run("readelf -SW a.o | grep -w rela.eh_frame | sed 's/.*RELA *//'");
    let offset = hex(shown.split_whitespace().nth(1).unwrap()) as usize;
    let bytes = folder.bytes("a.o");
    let read = |bytes: &[u8]| Program::read(bytes).unwrap().eh_frame().map(|_| ());
    let mut changed = bytes.clone();
    changed[offset + 8] = 0x16;
    assert!(matches!(read(&changed), Err(ProgramError::Relocation(".eh_frame", 0x20, _))), "{:?}", read(&changed));
    let mut changed = bytes.clone();
    changed[offset + 7] = 0x16;
    assert!(matches!(read(&changed), Err(ProgramError::Relocation(".eh_frame", ..))));
    let mut changed = bytes;
    changed[offset + 15] = 0x16;
    assert!(matches!(read(&changed), Err(ProgramError::Relocation(".eh_frame", ..))));
}
