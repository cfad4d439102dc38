//! Reads `.eh_frame` sections, and compares their records with what readelf shows, and their rows with
//! gimli's.

use crate::common::frames::{records, Shown};
use crate::common::run::dwcheck_elf;
use crate::common::{has, Folder, C, CXX, MACHINES};
use dwcheck_elf::frames::{Counts, Frames, Kind, Notes, Record};
use dwcheck_elf::program::Program;
use dwcheck_elf::validate::validate_rows;

/// Compares the records of a linked file's section with what readelf shows: their offsets, the addresses of
/// FDEs, and the counts.
fn counted(folder: &Folder, file: &str) {
    let (read, notes, agreement) = validated(folder, file);
    let shown = records(folder, file, ".eh_frame");
    let cies: Vec<&Shown> = shown.iter().filter(|record| record.fde.is_none()).collect();
    let marks = folder.run(&format!("readelf --debug-dump=frames {} | grep -c 'ZERO terminator' || true", file));
    assert_eq!(notes.empty_records, marks.trim().parse::<usize>().unwrap());
    let signals = shown.iter().filter(|record| record.fde.map_or(false, |(cie, ..)| is_signal(&shown, cie)));
    assert_eq!(notes.signal_frames, signals.count());
    assert_eq!((agreement.cies, agreement.fdes), (cies.len(), shown.len() - cies.len()));
    let source = folder.section(file, ".eh_frame");
    let read: Vec<_> = read.iter().filter(|record| record.kind != Kind::Empty).collect();
    assert_eq!(read.len(), shown.len());
    for (record, expected) in read.iter().zip(&shown) {
        let length = u32::from_le_bytes(source[expected.offset as usize..][..4].try_into().unwrap());
        assert_eq!((record.offset, record.next), (expected.offset, expected.offset + 4 + u64::from(length)));
        let said = match record.kind {
            Kind::Fde { cie, begin, end, is_signal_frame, .. } => Some(((cie, begin, end), is_signal_frame)),
            _ => None,
        };
        assert_eq!(said, expected.fde.map(|fde| (fde, is_signal(&shown, fde.0))));
    }
}

/// Whether the FDEs of the CIE at this offset are signal frames.
fn is_signal(shown: &[Shown], cie: u64) -> bool {
    shown.iter().any(|record| record.offset == cie && record.augmentation.contains('S'))
}

#[test]
fn c_program() {
    let folder = Folder::new("c");
    folder.write("a.c", C);
    folder.run("gcc -O2 a.c -o linked");
    counted(&folder, "linked");
}

#[test]
fn cxx_program_with_exceptions() {
    let folder = Folder::new("cxx");
    folder.write("a.cc", CXX);
    folder.run("g++ -O2 -mno-accumulate-outgoing-args a.cc -o linked");
    let shown = folder.run("readelf --debug-dump=frames linked");
    assert!(shown.contains("DW_CFA_GNU_args_size") && shown.contains("zPLR"), "the program shows what it is for");
    counted(&folder, "linked");
}

/// A statically linked program contains the C library, which has signal frames, and CFAs that are
/// expressions.
#[test]
fn static_program() {
    let folder = Folder::new("static");
    folder.write("a.c", C);
    folder.run("gcc -O2 -static a.c -o linked");
    assert!(records(&folder, "linked", ".eh_frame").iter().any(|cie| cie.augmentation == "zRS"));
    counted(&folder, "linked");
}

const CFI: &str = "
 .globl f
f: .cfi_startproc
 nop
 nop
 .cfi_adjust_cfa_offset 16
 .cfi_remember_state
 nop
 nop
 .cfi_adjust_cfa_offset 32
 nop
 nop
 .cfi_restore_state
 nop
 nop
 .cfi_endproc
";

#[test]
fn other_machines() {
    let folder = Folder::new("machines");
    folder.write("a.s", CFI);
    for machine in MACHINES {
        if has(&format!("{}-as", machine)) {
            folder.run(&format!("{0}-as a.s -o a.o; {0}-ld -e 0 a.o -o linked", machine));
            let (_, _, agreement) = validated(&folder, "linked");
            assert_eq!((agreement.fdes, agreement.rows), (1, 4), "{}", machine);
        }
    }
}

/// Assembly of a CIE and of an FDE for the function `f`, with a given encoding of addresses.
/// `address` and `range` are the directives for the FDE's first address and its number of bytes.
fn by_hand(encoding: u8, address: &str, range: &str) -> String {
    format!(
        "
 .globl f, _start, got
_start: nop
f: nop
middle: nop
 nop
end: nop
 .section .got, \"aw\", @progbits
got: .quad 0
 .section .eh_frame, \"a\", @progbits
cie: .long cie_end - cie_id
cie_id: .long 0
 .byte 1
 .asciz \"zR\"
 .uleb128 1
 .sleb128 -8
 .byte 16
 .uleb128 1
 .byte {encoding}
 .byte 0x0c, 7, 8, 0x90, 1
 .balign 8
cie_end:
 .long fde_end - fde_id
fde_id: .long fde_id - cie
initial: {address}
 {range}
 .uleb128 0
 .byte 0x41, 0x0e, 16
 .byte 0x41, 0x0e, 24
 .balign 8
fde_end:
"
    )
}

#[test]
fn encodings() {
    let folder = Folder::new("encodings");
    let cases = [
        (0x00, ".quad f", ".quad end - f"),
        (0x01, ".byte 0xa1, 0x80, 0x80, 0x02", ".uleb128 end - f"),
        (0x03, ".long f", ".long end - f"),
        (0x04, ".quad f", ".quad end - f"),
        (0x09, ".byte 0xa1, 0x80, 0x80, 0x02", ".sleb128 end - f"),
        (0x0a, ".short 0x7001", ".short end - f"),
        (0x0b, ".long f", ".long end - f"),
        (0x0c, ".quad f", ".quad end - f"),
        (0x10, ".quad f - .", ".quad end - f"),
        (0x1b, ".long f - .", ".long end - f"),
        (0x1c, ".quad f - .", ".quad end - f"),
    ];
    for (encoding, address, range) in cases {
        folder.write("a.s", by_hand(encoding, address, range));
        let text = if encoding == 0x0a { "0x7000" } else { "0x400020" };
        folder.run(&format!("as a.s -o a.o; ld -Ttext={} a.o -o linked", text));
        let f = crate::common::hex(folder.run("nm linked | grep -w f").split(' ').next().unwrap());
        // readelf 2.40 reads LEB128 addresses as numbers of 4 bytes.
        assert_eq!(last_fde(&folder), (f, f + 3, 3), "encoding {:#x}", encoding);
    }
}

/// Addresses relative to the text section and to the global offset table, which readelf doesn't
/// support.
#[test]
fn encodings_with_other_bases() {
    let folder = Folder::new("bases");
    for (encoding, address) in [(0x2b, ".long f - _start"), (0x3b, ".long 0x400021 - 0x402000")] {
        folder.write("a.s", by_hand(encoding, address, ".long end - f"));
        folder.run("as a.s -o a.o; ld -Ttext=0x400020 --section-start=.got=0x402000 a.o -o linked");
        let f = crate::common::hex(folder.run("nm linked | grep -w f").split(' ').next().unwrap());
        assert_eq!(last_fde(&folder), (f, f + 3, 3), "encoding {:#x}", encoding);
    }
}

/// The addresses of the last FDE of the file `linked`, and the number of rows of all.
fn last_fde(folder: &Folder) -> (u64, u64, usize) {
    let (read, _, agreement) = validated(folder, "linked");
    let addresses = read.last().unwrap().addresses().unwrap();
    (addresses.start, addresses.end, agreement.rows)
}

/// Reads the `.eh_frame` section of a file, and compares its rows with gimli's.
fn validated(folder: &Folder, file: &str) -> (Vec<Record>, Notes, Counts) {
    let bytes = folder.bytes(file);
    let program = Program::read(&bytes).unwrap();
    let frames = Frames::all(&program).last().unwrap().unwrap();
    let agreement = validate_rows(&frames, &frames.process(0).unwrap());
    let agreement = agreement.unwrap_or_else(|difference| panic!("{}: {}", file, difference));
    (frames.records().to_vec(), Notes::of(&frames), agreement)
}

/// The sorted table of `.eh_frame_hdr`, as ld writes it, and with changes: two entries that are swapped, an entry that
/// leads to another FDE or to none, and an entry fewer. None of these changes an answer.
#[test]
fn the_sorted_table() {
    let folder = Folder::new("sorted-table");
    folder.write("a.c", C);
    folder.run("gcc -O2 a.c -o linked");
    let shown = folder.run("objdump -h linked | awk '$2 == \".eh_frame_hdr\" {print $4, $6}'");
    let (address, place) = shown.trim().split_once(' ').unwrap();
    let (address, place) = (crate::common::hex(address), crate::common::hex(place) as usize);
    let whole = folder.bytes("linked");
    let number = |at: usize| i32::from_le_bytes(whole[at..at + 4].try_into().unwrap());
    // After four bytes for the version and the encodings: a pointer to `.eh_frame`, the count, and the entries.
    let count = number(place + 8) as usize;
    let entry = |number: usize| place + 12 + 8 * number;
    let begin = |entry_place: usize| address.wrapping_add(number(entry_place) as u64);
    let is_for = |number: usize| format!("the first one is for {:#x}\n", begin(entry(number)));
    let none = format!("note .eh_frame_hdr: 1 FDEs have no entry, {}", is_for(1));
    let swapped = [&whole[entry(1)..entry(2)], &whole[entry(0)..entry(1)]].concat();
    let other = whole[entry(0) + 4..entry(1)].to_vec();
    let nowhere = (number(entry(1) + 4) + 4).to_le_bytes().to_vec();
    let fewer = (count as i32 - 1).to_le_bytes().to_vec();
    let cases = [
        (entry(0), whole[entry(0)..entry(1)].to_vec(), String::new()),
        (entry(0), swapped, format!("note .eh_frame_hdr: 1 entries are out of order, {}", is_for(0))),
        (
            entry(1) + 4,
            other,
            format!("note .eh_frame_hdr: 1 entries have another address than their FDE, {}{}", is_for(1), none),
        ),
        (entry(1) + 4, nowhere, format!("note .eh_frame_hdr: 1 entries lead to no FDE, {}{}", is_for(1), none)),
        (place + 8, fewer, format!("note .eh_frame_hdr: 1 FDEs have no entry, {}", is_for(count - 1))),
    ];
    let first = dwcheck_elf(&folder, "check --no-lists linked");
    for (at, bytes, expected) in cases {
        let mut changed = whole.clone();
        changed[at..at + bytes.len()].copy_from_slice(&bytes);
        folder.write("linked", changed);
        let ran = dwcheck_elf(&folder, "check --no-lists linked");
        assert_eq!((ran.status, ran.error.as_str()), (0, ""));
        assert_eq!(ran.out, format!("{}{}", first.out, expected));
    }
}
