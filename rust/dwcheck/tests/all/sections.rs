//! Tests of `check`, `report` and `FrameSection`. Most sections and what they contain are from docs/WORKED.md.

use crate::common::*;
use dwcheck::{
    check, report, DebugFrame, DebugLoclists, EhFrame, Error, ExpressionKind, FaultKind,
    FrameSection, RecordKind, Section, Target,
};

fn frame(bytes: &[u8]) -> Option<(&'static str, u32)> {
    refusal(check(
        DebugFrame(bytes),
        DebugLoclists(&[]),
        Target::LITTLE_64,
    ))
}

fn lists(bytes: &[u8]) -> Option<(&'static str, u32)> {
    refusal(check(
        DebugFrame(&[]),
        DebugLoclists(bytes),
        Target::LITTLE_64,
    ))
}

#[test]
fn good_sections_are_accepted() {
    assert_eq!(frame(&[]), None);
    for section in [row_1(), x(), with_program("60")] {
        assert_eq!(
            check(
                DebugFrame(&section),
                DebugLoclists(&row_16()),
                Target::LITTLE_64
            ),
            Ok(())
        );
        assert_eq!(
            check(DebugFrame(&section), DebugLoclists(&l()), Target::LITTLE_64),
            Ok(())
        );
    }
    // row 19 of docs/WORKED.md, and then location lists: one table with one list
    let wide = "ffffffff 1400000000000000 ffffffffffffffff 04 00 08 00 01 78 10 0c0708 9001";
    assert_eq!(frame(&hex(wide)), None);
    let table = "ffffffff 1100000000000000 0500 08 00 01000000 0800000000000000 00";
    assert_eq!(lists(&hex(table)), None);
}

#[test]
fn other_targets() {
    let big = hex("00000010 ffffffff 04 00 04 00 04 7c 0e 0c0d00 0000
         00000014 00000000 00008000 00000010 42 0e08 8e01 000000");
    assert_eq!(
        check(DebugFrame(&big), DebugLoclists(&[]), Target::BIG_32),
        Ok(())
    );
    assert!(check(DebugFrame(&big), DebugLoclists(&[]), Target::LITTLE_32).is_err());
    // the CIE has an address size of 8, which is wrong for a 32-bit target
    let wrong = refusal(check(
        DebugFrame(&row_1()),
        DebugLoclists(&[]),
        Target::LITTLE_32,
    ));
    assert_eq!(wrong, Some(("AddressSize", 10)));
}

#[test]
fn row_1_cut() {
    let section = row_1();
    for length in 0..=section.len() {
        let want = match length {
            0 | 24 | 56 => None,
            1..=3 => Some(("Truncated", 0)),
            4..=23 => Some(("Truncated", 4)),
            25..=27 => Some(("Truncated", 24)),
            _ => Some(("Truncated", 28)),
        };
        assert_eq!(frame(&section[..length]), want, "{} bytes", length);
    }
}

#[test]
fn row_1_changed() {
    let table = [
        (0, 0x15, Some(("Truncated", 29))),
        (0, 0xff, Some(("Truncated", 4))),
        (4, 0x00, Some(("NoSuchCie", 4))),
        (9, 0x7a, Some(("Augmentation", 9))),
        (10, 0x04, Some(("AddressSize", 10))),
        (11, 0x01, Some(("SegmentSize", 11))),
        (12, 0x80, Some(("LocationPastEnd", 48))),
        (15, 0x41, Some(("NotInCie", 15))),
        (28, 0x18, Some(("NoSuchCie", 28))),
        (47, 0xff, None),
        (49, 0x1f, Some(("UnknownInstruction", 49))),
        (52, 0xff, None),
        (54, 0x0f, Some(("Truncated", 56))),
        (55, 0x80, Some(("Truncated", 55))),
    ];
    for (place, byte, want) in table {
        let mut section = row_1();
        section[place] = byte;
        assert_eq!(frame(&section), want, "{:#x} at {}", byte, place);
        // adding the section to a process is refused with the same fault
        let added = add_alone(&section);
        assert_eq!(refusal(added), want, "{:#x} at {}", byte, place);
    }
}

#[test]
fn row_16_changed() {
    let table = [
        (0, 0x11, Some(("NoEnd", 21))),
        (4, 0x04, Some(("ListVersion", 4))),
        (6, 0x04, Some(("AddressSize", 6))),
        (8, 0x01, Some(("UnknownEntry", 16))),
        (12, 0x01, Some(("UnknownEntry", 12))),
        (13, 0x11, Some(("BackRange", 12))),
        (15, 0x00, Some(("UnknownEntry", 16))),
        (16, 0x12, Some(("Underflow", 16))),
        (21, 0x05, Some(("Truncated", 22))),
    ];
    for (place, byte, want) in table {
        let mut section = row_16();
        section[place] = byte;
        assert_eq!(lists(&section), want, "{:#x} at {}", byte, place);
    }
}

#[test]
fn frame_sections_that_are_refused() {
    let overlap = [row_1(), fde(0x101f, 1)].concat();
    assert_eq!(frame(&overlap), Some(("Overlap", 56)));
    let two = [row_1(), fde(0x2000, 1), fde(0x1010, 1)].concat();
    assert_eq!(frame(&two), Some(("Overlap", 88)));
    assert_eq!(frame(&[row_1(), fde(0x1020, 1)].concat()), None);
    assert_eq!(frame(&hex("f0ffffff")), Some(("ReservedLength", 0)));
    for (program, name, at) in [
        ("0b", "RestoreWithoutRemember", 48),
        ("0a", "Unrestored", 56),
        ("61", "LocationPastEnd", 48),
        ("05 808004 01", "RegisterNumber", 48),
    ] {
        assert_eq!(frame(&with_program(program)), Some((name, at)));
    }
}

#[test]
fn location_lists_that_are_refused() {
    for (section, name, at) in [
        (
            "0d000000 0500 08 00 00000000 04 10 00 00 00",
            "BackRange",
            12,
        ),
        ("0a000000 0500 08 00 00000000 05 00", "NoEnd", 14),
        (
            "0d000000 0500 08 00 01000000 05000000 00",
            "BadOffsetEntry",
            12,
        ),
        (
            "0d000000 0500 08 00 00000000 0500 0500 00",
            "SecondDefault",
            14,
        ),
        ("0a000000 0500 08 00 00000000 01 00", "UnknownEntry", 12),
        ("0c000000 0500 08 00 00000000 05 01 12 00", "Underflow", 14),
        ("08000000 0400 08 00 00000000", "ListVersion", 4),
    ] {
        assert_eq!(lists(&hex(section)), Some((name, at)), "{}", section);
    }
}

#[test]
fn faults_as_text() {
    let mut frame = row_1();
    frame[28] = 4;
    let error = check(DebugFrame(&frame), DebugLoclists(&[]), Target::LITTLE_64).unwrap_err();
    assert_eq!(error.to_string(), "frame: 9 NoSuchCie at 0x0000001c");
    let back = hex("0d000000 0500 08 00 00000000 04 10 00 00 00");
    let error = check(DebugFrame(&[]), DebugLoclists(&back), Target::LITTLE_64).unwrap_err();
    assert_eq!(error.to_string(), "lists: 52 BackRange at 0x0000000c");
    let fault = error.fault().unwrap();
    assert_eq!(fault.section, Section::Lists);
    assert_eq!((fault.number(), fault.kind), (52, FaultKind::BackRange));
    assert_eq!(Error::NoMemory.to_string(), "out of memory");
    let boxed: Box<dyn std::error::Error + Send + Sync> = Box::new(error);
    assert_eq!(boxed.to_string(), fault.to_string());
}

/// Cuts sections at every length, and changes each byte to a few other values: every check returns,
/// and adding a changed section to a process gives the same result as `check`.
#[test]
fn each_small_change_has_an_answer() {
    for section in [row_1(), x(), row_16(), l()] {
        for length in 0..section.len() {
            let _ = check(
                DebugFrame(&section[..length]),
                DebugLoclists(&section[length..]),
                Target::LITTLE_64,
            );
        }
        for place in 0..section.len() {
            for byte in [0, 1, 0x7f, 0x80, 0xff, section[place] ^ 0x40] {
                let mut changed = section.clone();
                changed[place] = byte;
                let _ = check(
                    DebugFrame(&changed),
                    DebugLoclists(&changed),
                    Target::BIG_32,
                );
                let both = check(DebugFrame(&changed), DebugLoclists(&[]), Target::LITTLE_64);
                assert_eq!(both, add_alone(&changed));
            }
        }
    }
}

#[test]
fn a_report_has_the_counts_and_expressions_of_both_sections() {
    let (frame, lists) = (x(), row_16());
    let report = report(DebugFrame(&frame), DebugLoclists(&lists), Target::LITTLE_64).unwrap();
    assert_eq!((report.cies, report.fdes, report.rows), (1, 1, 1));
    assert_eq!((report.tables, report.lists), (1, 1));
    let all: Vec<_> = report
        .expressions
        .iter()
        .map(|e| (e.section, e.offset, e.length, e.kind, e.operations, e.depth))
        .collect();
    let (register, location) = (ExpressionKind::FrameRegister, ExpressionKind::Location);
    assert_eq!(
        all,
        [
            (Section::Frame, 0x33, 2, Some(register), 1, 1),
            (Section::Frame, 0x38, 0, Some(register), 0, 1),
            (Section::Lists, 0x10, 1, Some(location), 1, 0),
            (Section::Lists, 0x13, 2, Some(location), 2, 1),
        ]
    );
}

#[test]
fn a_report_has_all_of_many_expressions() {
    // entries of one list, more than the first call has room for
    let mut lists = hex("00000000 0500 08 00 00000000");
    for entry in 0..1000u16 {
        lists.extend([4, (entry & 0x7f) as u8, 0x7f, 1, 0x50]);
    }
    lists.push(0);
    let length = (lists.len() - 4) as u32;
    lists[..4].copy_from_slice(&length.to_le_bytes());
    let report = report(DebugFrame(&[]), DebugLoclists(&lists), Target::LITTLE_64).unwrap();
    let offsets: Vec<_> = report.expressions.iter().map(|e| e.offset).collect();
    let want: Vec<_> = (0..1000).map(|entry| 12 + 5 * entry + 4).collect();
    assert_eq!(offsets, want);
}

#[test]
fn a_report_on_a_refused_section_is_its_fault() {
    let refused = report(
        DebugFrame(&row_1()[..24 + 4]),
        DebugLoclists(&[]),
        Target::LITTLE_64,
    );
    let fault = refused.unwrap_err().fault().unwrap();
    assert_eq!((fault.kind, fault.offset), (FaultKind::Truncated, 28));
}

/// The `.eh_frame` section of `common`, with these bytes.
fn eh_section(bytes: &[u8]) -> FrameSection<'_> {
    FrameSection::eh_frame(bytes, EhFrame::at(0x2000), Target::LITTLE_64)
}

/// The records of `.eh_frame` as readelf prints them. There is a record of length 0 after the first
/// FDE, and only the second CIE has the letter S.
#[test]
fn records_are_read_one_after_another() {
    let bytes = eh_frame();
    let records: Vec<_> = eh_section(&bytes).records().map(Result::unwrap).collect();
    let places = records
        .iter()
        .map(|one| (one.offset, one.next, one.program, one.is_signal_frame));
    let expected = [
        (0, 32, 25, false),
        (32, 72, 53, false),
        (72, 76, 72, false),
        (76, 100, 94, true),
        (100, 132, 117, true),
    ];
    assert_eq!(places.collect::<Vec<_>>(), expected);
    let cie = RecordKind::Cie {
        version: 1,
        code_alignment_factor: 1,
        data_alignment_factor: -8,
        return_register: 16,
    };
    let fde = |cie, addresses| RecordKind::Fde { cie, addresses };
    let kinds = [
        cie.clone(),
        fde(0, 0x1000..0x1009),
        RecordKind::Empty,
        cie,
        fde(76, 0x1009..0x100c),
    ];
    assert_eq!(
        records.into_iter().map(|one| one.kind).collect::<Vec<_>>(),
        kinds
    );
    assert_eq!(eh_section(&bytes).record(132), Ok(None));
    let debug = row_1();
    let debug = FrameSection::debug_frame(&debug, Target::LITTLE_64);
    assert_eq!(
        debug.record(24).unwrap().unwrap().kind,
        fde(0, 0x1000..0x1020)
    );
}

/// A record that can't be read is the last one. The others can still be read by their offsets.
#[test]
fn a_record_that_cannot_be_read() {
    let mut bytes = eh_frame();
    bytes[84] = 2; // the version of the second CIE
    let mut records = eh_section(&bytes).records();
    assert_eq!(records.by_ref().filter(|one| one.is_ok()).count(), 3);
    assert_eq!(records.next(), None);
    assert_eq!(
        refusal(eh_section(&bytes).record(76)),
        Some(("Version", 84))
    );
    // the FDE's CIE can't be read, so its pointer leads to none
    assert_eq!(
        refusal(eh_section(&bytes).record(100)),
        Some(("NoSuchCie", 104))
    );
    assert!(eh_section(&bytes).record(32).is_ok());
    assert_eq!(refusal(eh_section(&bytes).check()), Some(("Version", 84)));
}

#[test]
fn a_section_is_checked_without_a_process() {
    let bytes = eh_frame();
    let contents = eh_section(&bytes).check().unwrap();
    assert_eq!((contents.cies, contents.fdes), (2, 2));
    assert_eq!((contents.rows, contents.expressions), (9, 2));
    let debug = FrameSection::debug_frame(&bytes, Target::LITTLE_64);
    assert!(debug.check().is_err(), "another format");
    let empty = FrameSection::debug_frame(&[], Target::LITTLE_64);
    assert_eq!(empty.check().unwrap().fdes, 0);
}

/// Each fault of a section is also that of its record, or of the check of what the records say.
#[test]
fn the_check_refuses_what_a_record_refuses() {
    let whole = eh_frame();
    for place in 0..whole.len() {
        for byte in [0, 1, 0x7f, 0x80, 0xff] {
            let mut bytes = whole.clone();
            bytes[place] = byte;
            let section = eh_section(&bytes);
            if let Some(Err(error)) = section.records().find(|one| one.is_err()) {
                let checked = section.check().unwrap_err().fault().unwrap();
                let read = error.fault().unwrap();
                // an FDE may lead to a CIE that isn't one of the records before it
                assert!(
                    checked.offset <= read.offset,
                    "{:#x} at {}: {} {}",
                    byte,
                    place,
                    checked,
                    read
                );
            }
        }
    }
}
