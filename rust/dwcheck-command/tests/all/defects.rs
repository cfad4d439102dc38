//! Sections with defects: what is changed in place so that the library accepts the rest, and what is left out.

use crate::common::{place_of, Folder};
use dwcheck::FaultKind;
use dwcheck_elf::frames::{Format, FrameSection, Frames, Kind, Name, Record};
use dwcheck_elf::one_by_one::{accepted_part, every_fault};
use dwcheck_elf::program::{Program, Section};
use dwcheck_elf::target::{AddressSize, Order, Target};
use dwcheck_elf::validate::{validate_rows, What};

const TARGET: Target = Target { order: Order::Little, address_size: AddressSize::Eight };

/// A section at address 0x1000.
fn section(name: Name, bytes: &[u8]) -> FrameSection<'_> {
    let format = Format { name, target: TARGET, machine: 62, address: 0x1000, text: None, data: None };
    FrameSection { format, source: Section { bytes: bytes.into(), address: 0x1000, unresolved: Vec::new() } }
}

fn eh_frame(bytes: &[u8]) -> Frames<'_> {
    Frames::of(section(Name::EhFrame, bytes)).unwrap()
}

fn debug_frame(bytes: &[u8]) -> Frames<'_> {
    Frames::of(section(Name::DebugFrame, bytes)).unwrap()
}

/// A CIE of `.eh_frame` of version 1 with this augmentation string, which includes its NUL. `instructions` may
/// begin with augmentation data.
fn cie(augmentation: &[u8], instructions: &[u8]) -> Vec<u8> {
    let body = [&[0, 0, 0, 0, 1], augmentation, &[1, 0x78, 16], instructions].concat();
    [&(body.len() as u32).to_le_bytes(), body.as_slice()].concat()
}

/// An FDE of `.eh_frame` at offset `at`, whose CIE is at offset 0. `rest` follows the CIE pointer.
fn fde(at: usize, rest: &[u8]) -> Vec<u8> {
    let length = rest.len() as u32 + 4;
    [&length.to_le_bytes(), &(at as u32 + 4).to_le_bytes(), rest].concat()
}

/// An FDE of `.debug_frame`, whose CIE is at offset 0, for the eight addresses from `begin` on.
fn debug_fde(begin: u64, program: &[u8]) -> Vec<u8> {
    let body = [&[0; 4][..], &begin.to_le_bytes(), &8u64.to_le_bytes(), program].concat();
    [&(body.len() as u32).to_le_bytes(), body.as_slice()].concat()
}

/// A CIE of `.debug_frame`. Its CFA is register 7 plus 8.
const DEBUG_CIE: [u8; 16] = [12, 0, 0, 0, 0xff, 0xff, 0xff, 0xff, 1, 0, 1, 0x78, 16, 0x0c, 7, 8];

fn range(begin: u64, size: u64) -> Vec<u8> {
    [begin.to_le_bytes(), size.to_le_bytes()].concat()
}

/// A section without what is refused.
fn without_refused<'a>(frames: &Frames<'a>) -> Frames<'a> {
    let first = frames.process(0).unwrap_err().fault().unwrap();
    accepted_part(frames, &every_fault(frames, first))
}

/// The CFA's offset in the row of an address, in the section without what is refused, and the number of records
/// that are left out.
fn rest(frames: &Frames<'_>, address: u64) -> (Option<i64>, usize) {
    let rest = without_refused(frames);
    let process = rest.process(0).unwrap();
    assert_eq!(rest.check().unwrap(), validate_rows(&rest, &process).unwrap());
    let offset = process.row(address).map(|row| match row.cfa {
        dwcheck::CfaRule::RegisterAndOffset { offset, .. } => offset,
        other => panic!("{:?}", other),
    });
    (offset, rest.left_out())
}

/// For some machines GNU as begins CIEs with def_cfa_register, where the CFA has no rule yet. It may be all of
/// the CIE's program.
#[test]
fn def_cfa_register_without_a_rule() {
    for first in [&[0x0d, 7][..], &[0x0d, 7, 0, 0]] {
        let cie = cie(b"\0", first);
        let program = [&range(0x2000, 8)[..], &[0x41, 0x0e, 16, 0x0d, 6, 0x41, 0x0d, 7]].concat();
        let frames = [cie.clone(), fde(cie.len(), &program)].concat();
        let frames = eh_frame(&frames);
        assert_eq!(frames.changes().mended, [(cie.len() - first.len()) as u64]);
        assert!(!frames.is_changed());
        let process = frames.process(0).unwrap();
        let first = process.row(0x2000).unwrap().cfa;
        assert!(matches!(first, dwcheck::CfaRule::RegisterAndOffset { register: 7, offset: 0 }), "{:?}", first);
        assert_eq!(validate_rows(&frames, &process).unwrap().rows, 3);
    }
}

/// Records of length 0 in the middle of a section, and records in the 64-bit format.
#[test]
fn end_marks_and_long_records() {
    let cie = cie(b"\0", &[0x0c, 7, 8]);
    let length = cie.len() as u64 - 4;
    let long = [&[0xff; 4][..], &length.to_le_bytes(), &cie[4..]].concat();
    let program = [&range(0x2000, 8)[..], &[0x41, 0x0e, 16]].concat();
    let at = long.len() + 8;
    let pointer = at as u32 + 12;
    let body = [&pointer.to_le_bytes(), program.as_slice()].concat();
    let long_fde = [&[0xff; 4][..], &(body.len() as u64).to_le_bytes(), &body].concat();
    let bytes = [long.as_slice(), &[0; 8], &long_fde, &[0; 4]].concat();
    let frames = eh_frame(&bytes);
    assert_eq!(frames.records().iter().filter(|record| record.kind == Kind::Empty).count(), 3);
    let agreement = validate_rows(&frames, &frames.process(0).unwrap()).unwrap();
    assert_eq!((agreement.cies, agreement.fdes, agreement.rows), (1, 1, 2));
    assert_eq!(frames.record(at as u64).and_then(Record::addresses), Some(0x2000..0x2008));
    assert!(!frames.is_changed());
}

/// Each of these records can't be read. It is left out, and the FDE before it and the one after it are used.
#[test]
fn records_that_cannot_be_read() {
    let good = cie(b"\0", &[0x0c, 7, 8]);
    let first = fde(good.len(), &range(0x2000, 8));
    let at = good.len() + first.len();
    let mut version = cie(b"\0", &[0x0c, 7, 8]);
    version[8] = 2;
    let cases = [
        (FaultKind::NoSuchCie, 4, fde(at + 4, &range(0x3000, 8))),
        (FaultKind::Truncated, 8, fde(at, &[0; 7])),
        (FaultKind::Truncated, 16, fde(at, &[0; 15])),
        (FaultKind::RangePastTop, 16, fde(at, &range(u64::MAX, 8))),
        (FaultKind::Version, 8, version),
        (FaultKind::Augmentation, 9, cie(b"zX\0", &[1, 0])),
        (FaultKind::Truncated, 4, vec![1, 0, 0, 0, 9]),
    ];
    for (kind, place, record) in cases {
        let last = fde(at + record.len(), &range(0x4000, 8));
        let bytes = [good.clone(), first.clone(), record.clone(), last].concat();
        let frames = eh_frame(&bytes);
        let fault = frames.process(0).unwrap_err().fault().unwrap();
        assert_eq!((fault.kind, fault.offset as usize), (kind, at + place), "{:x?}", record);
        assert_eq!(frames.record_of(&fault).map(|record| record.offset), Some(at as u64));
        assert_eq!(rest(&frames, 0x4000), (Some(8), 1), "{:x?}", record);
        assert_eq!(rest(&frames, 0x2000).0, Some(8), "{:x?}", record);
        assert!(!without_refused(&frames).is_changed(), "{:x?}", record);
    }
}

/// The library leaves out of `.eh_frame` what is refused: here an FDE that restores what wasn't remembered, and one
/// whose CIE does so. It doesn't choose between FDEs that share addresses, so the later one and its copy lose their
/// CIE. They aren't the CIE of another FDE, either.
#[test]
fn fdes_that_are_refused_and_fdes_that_share_addresses() {
    let (good, bad) = (cie(b"\0", &[0x0c, 7, 8]), cie(b"\0", &[0x0b]));
    let bad_cie = good.len();
    let mut bytes = [good, bad].concat();
    let mut add = |cie, begin, program: &[u8]| {
        let at = bytes.len();
        bytes.extend(fde(at - cie, &[&range(begin, 8), program].concat()));
        at
    };
    add(0, 0x2000, &[0x0e, 16]);
    add(0, 0x3000, &[0x0b]);
    add(bad_cie, 0x4000, &[]);
    add(0, 0x2000, &[0x0e, 16]);
    let shared = add(0, 0x2004, &[0x0e, 24, 0, 0, 0, 0]);
    add(0, 0x2004, &[0x0e, 24, 0, 0, 0, 0]);
    add(shared, 0x6000, &[]);
    add(0, 0x5000, &[0x0e, 32]);
    let alone = eh_frame(&bytes[..shared]);
    for (address, offset) in [(0x2000, Some(16)), (0x3000, None), (0x4000, None)] {
        assert_eq!(rest(&alone, address), (offset, 3), "{:x}", address);
    }
    assert!(!without_refused(&alone).is_changed());
    let all = eh_frame(&bytes);
    let lost = [0x2008, 0x3000, 0x4000, 0x6000].map(|address| (address, None));
    for (address, offset) in [(0x2000, Some(16)), (0x5000, Some(32))].into_iter().chain(lost) {
        assert_eq!(rest(&all, address), (offset, 5), "{:x}", address);
    }
    assert_eq!(without_refused(&all).bytes().len(), bytes.len());
}

/// An FDE whose address isn't known is left out, and isn't the CIE of another FDE, which is refused.
#[test]
fn fdes_whose_address_is_not_known() {
    let good = cie(b"\0", &[0x0c, 7, 8]);
    let unresolved = good.len();
    let mut bytes = [good, fde(unresolved, &[&range(0, 8)[..], &[0; 8]].concat())].concat();
    let frames = |bytes: &[u8]| {
        let mut section = section(Name::EhFrame, bytes).into_owned();
        section.source.unresolved = vec![unresolved as u64 + 8];
        Frames::of(section).unwrap()
    };
    bytes.extend(fde(bytes.len(), &range(0x2000, 8)));
    let alone = frames(&bytes);
    assert_eq!((alone.unresolved(), alone.left_out()), (&[unresolved as u64][..], 1));
    assert_eq!(alone.check().map(|counts| (counts.cies, counts.fdes)), Ok((1, 1)));
    let of_unresolved = bytes.len();
    bytes.extend(fde(of_unresolved - unresolved, &range(0x3000, 8)));
    bytes.extend(fde(bytes.len(), &range(0x4000, 8)));
    let all = frames(&bytes);
    let fault = all.check().unwrap_err().fault().unwrap();
    assert_eq!((fault.kind, fault.offset as usize), (FaultKind::NoSuchCie, of_unresolved + 4));
    assert_eq!(rest(&all, 0x3000), (None, 2));
    assert_eq!(rest(&all, 0x4000), (Some(8), 2));
}

/// What isn't a record ends a section.
#[test]
fn bytes_that_are_no_record() {
    let good = cie(b"\0", &[0x0c, 7, 8]);
    let first = fde(good.len(), &range(0x2000, 8));
    let at = good.len() + first.len();
    for (kind, place, tail) in [
        (FaultKind::Truncated, 0, vec![0; 3]),
        (FaultKind::ReservedLength, 0, vec![0xf0, 0xff, 0xff, 0xff, 0, 0, 0, 0]),
        (FaultKind::Truncated, 4, [&[40, 0, 0, 0][..], &[0x99; 30]].concat()),
    ] {
        let bytes = [good.clone(), first.clone(), tail].concat();
        let frames = eh_frame(&bytes);
        let fault = frames.process(0).unwrap_err().fault().unwrap();
        assert_eq!((fault.kind, fault.offset as usize), (kind, at + place));
        assert_eq!(frames.record_of(&fault).map(|record| record.offset), Some(at as u64));
        assert_eq!(rest(&frames, 0x2000), (Some(8), 1));
    }
}

/// An FDE whose CIE can't be read has no fault of its own, and is left out too.
#[test]
fn a_lost_cie_takes_its_fdes_with_it() {
    let lost = cie(b"zX\0", &[1, 0]);
    let good = cie(b"\0", &[0x0c, 7, 8]);
    let of_lost = fde(lost.len(), &range(0x2000, 8));
    let at = lost.len() + of_lost.len();
    let mut of_good = fde(good.len(), &range(0x3000, 8));
    of_good[4] = good.len() as u8 + 4;
    let bytes = [lost, of_lost, good, of_good].concat();
    let frames = eh_frame(&bytes);
    let first = frames.process(0).unwrap_err().fault().unwrap();
    let faults = every_fault(&frames, first);
    assert_eq!(faults.iter().map(|found| found.record).collect::<Vec<_>>(), [0]);
    assert_eq!(rest(&frames, 0x3000), (Some(8), 2));
    assert!(at > 0);
}

/// A record of `.debug_frame` that is too short for a CIE becomes a part of the record before it.
#[test]
fn short_records_of_debug_frame() {
    let (first, last) = (debug_fde(0x2000, &[0x0e, 16]), debug_fde(0x3000, &[0x0e, 24]));
    for short in [vec![0; 4], vec![0; 8], vec![0xff, 0xff, 0xff, 0xff, 0, 0, 0, 0, 0, 0, 0, 0]] {
        let bytes = [&DEBUG_CIE[..], &first, &short, &last].concat();
        let frames = debug_frame(&bytes);
        let process = frames.process(0).unwrap();
        assert_eq!(validate_rows(&frames, &process).unwrap().fdes, 2, "{:x?}", short);
        assert_eq!(frames.bytes().len(), bytes.len());
    }
    // One that can't be read: it has no room for a CIE pointer.
    let bytes = [&DEBUG_CIE[..], &first, &[2, 0, 0, 0, 7, 7], &last].concat();
    assert_eq!(rest(&debug_frame(&bytes), 0x3000), (Some(24), 1));
}

/// An instruction whose operand is cut off doesn't get it from a record of length 0 that follows.
#[test]
fn an_operand_is_not_taken_from_the_next_record() {
    let (first, last) = (debug_fde(0x2000, &[0x0e]), debug_fde(0x3000, &[0x0e, 24]));
    let bytes = [&DEBUG_CIE[..], &first, &[0; 4], &last].concat();
    let frames = debug_frame(&bytes);
    let fault = frames.process(0).unwrap_err().fault().unwrap();
    assert_eq!((fault.kind, fault.offset as usize), (FaultKind::Truncated, DEBUG_CIE.len() + first.len()));
    assert_eq!(frames.record_of(&fault).map(|record| record.offset), Some(DEBUG_CIE.len() as u64));
    assert_eq!(rest(&frames, 0x3000), (Some(24), 1));
    assert_eq!(rest(&frames, 0x2000).0, None);
}

/// A fault at the end of an FDE has the offset at which the FDE ends in the file.
#[test]
fn a_fault_at_the_end_of_an_fde_before_a_record_of_length_0() {
    let folder = Folder::new("end-of-fde");
    let fde = ".long 22\n .long 0\n .quad _start\n .quad 4\n .byte 0x0a, 0\n";
    let cie = ".long 12\n .long -1\n .byte 1, 0, 1, 0x78, 16, 0x0c, 7, 8\n";
    folder.write("a.s", format!(".globl _start\n_start: .skip 4\n.section .debug_frame\n{}{}.long 0\n", cie, fde));
    folder.run("as a.s -o a.o && ld a.o -o linked");
    let ran = crate::common::run::dwcheck_elf(&folder, "check linked");
    assert!(ran.lines()[0].starts_with("linked: .debug_frame+0x10: Unrestored: the end of the program, FDE "));
    assert!(ran.lines()[1].starts_with("    at 0x2a: "), "{}", ran.out);
}

/// Links a function with these directives between its instructions.
fn function(folder: &Folder, directives: &str) {
    let text = format!(
        ".globl _start\n_start: .cfi_startproc\n nop\n{}\n nop\n .cfi_endproc\n\
         after: .cfi_startproc\n nop\n .cfi_endproc\n",
        directives
    );
    folder.write("a.s", text);
    folder.run("as a.s -o a.o && ld a.o -o linked");
}

/// If the process was made from other bytes than those of the section, its rows differ from gimli's. The
/// difference shows both rows.
#[test]
fn a_wrong_row_of_the_library_is_a_difference() {
    let folder = Folder::new("difference");
    function(&folder, ".cfi_def_cfa_offset 16");
    let bytes = folder.bytes("linked");
    let program = Program::read(&bytes).unwrap();
    let frames = Frames::all(&program).next().unwrap().unwrap();
    let agreement = validate_rows(&frames, &frames.process(0).unwrap()).unwrap();
    assert_eq!((agreement.fdes, agreement.rows), (2, 3));
    let mut changed = frames.bytes().to_vec();
    let place = place_of(&changed, &[0x0e, 16]);
    changed[place + 1] = 24;
    let mut process = dwcheck::Process::new(frames.target());
    process.add(&changed, frames.format().module(&changed, 0)).unwrap();
    let difference = validate_rows(&frames, &process).unwrap_err();
    match &difference.what {
        What::Row { number: 1, gimli, library } => {
            assert!(gimli.contains("cfa=r7+16") && library.contains("cfa=r7+24"), "{}", difference)
        }
        other => panic!("{:?}", other),
    }
    process.clear();
    assert!(matches!(validate_rows(&frames, &process).unwrap_err().what, What::Row { number: 0, .. }));
}
