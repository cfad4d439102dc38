//! Tests of adding modules to a process, finding them, and removing them.

use crate::common::*;
use dwcheck::{
    CfaRule, EhFrame, Error, FaultKind, Module, ModuleId, Process, Rule, Section, Target,
};
use std::ops::RangeInclusive;

/// Adds row 1's section, loaded at `load_address`, for a range of addresses. The section covers 0x1000
/// up to 0x101f.
fn add_for(
    process: &mut Process,
    load_address: u64,
    range: RangeInclusive<u64>,
) -> Result<ModuleId, Error> {
    process.add(&row_1(), Module::at(load_address).range(range))
}

#[test]
fn modules_come_and_go() {
    let mut process = Process::new(Target::LITTLE_64);
    let (first, second) = {
        let section = row_1();
        let first = add(&mut process, &section, 0x100000).unwrap();
        let second = Module::at(0u64.wrapping_sub(0x1000)).cookie(7);
        (first, process.add(&section, second).unwrap())
    };
    assert_eq!((first.number(), second.number()), (1, 2));
    assert_eq!((first.to_string(), first < second), ("1".into(), true));
    let row = process.row(0x10).unwrap();
    assert_eq!(row.load_address, 0u64.wrapping_sub(0x1000));
    assert_eq!((row.id, row.cookie), (second, 7));
    let row = process.row(0x101010).unwrap();
    assert_eq!((row.id, row.cookie, row.load_address), (first, 0, 0x100000));
    assert!(process.remove(first));
    assert!(!process.remove(first));
    assert_eq!(process.row(0x101010), None);
    assert_eq!(process.module_at(0x101010), None);
    assert!(process.row(0x10).is_some());
    // an id isn't given again, until the process is cleared
    let third = add(&mut process, &row_1(), 0x100000).unwrap();
    assert_eq!(third.number(), 3);
    process.clear();
    process.clear();
    assert_eq!(process.row(0x10), None);
    assert!(!process.remove(third));
    assert_eq!(add(&mut process, &row_1(), 0), Ok(first));
}

#[test]
fn the_module_of_an_address() {
    let mut process = Process::new(Target::LITTLE_64);
    let first = add(&mut process, &row_1(), 0x10000).unwrap();
    let module = Module::at(0x20000).range(0x21000..=0x21fff).cookie(9);
    let second = process.add(&row_1(), module).unwrap();
    for address in [0x11000, 0x11010, 0x1101f] {
        let found = process.module_at(address).unwrap();
        assert_eq!((found.id, found.cookie), (first, 0));
        assert_eq!(found.load_address, 0x10000);
        assert_eq!(found.range, 0x11000..=0x1101f);
        assert!(process.row(address).is_some());
    }
    for address in [0x21000, 0x2101f, 0x21020, 0x21fff] {
        let found = process.module_at(address).unwrap();
        assert_eq!((found.id, found.cookie), (second, 9));
        assert_eq!(found.range, 0x21000..=0x21fff);
        assert_eq!(process.row(address).is_some(), address < 0x21020);
    }
    for address in [0, 0x10fff, 0x11020, 0x20fff, 0x22000, u64::MAX] {
        assert_eq!(process.module_at(address), None);
        assert_eq!(process.row(address), None);
    }
}

#[test]
fn ranges_that_are_refused() {
    let mut process = Process::new(Target::LITTLE_64);
    let empty = RangeInclusive::new(0x11001, 0x11000);
    assert_eq!(add_for(&mut process, 0x10000, empty), Err(Error::Range));
    // sections that cover no address, with a CIE and without
    for section in [&[][..], &row_1()[..24]] {
        assert_eq!(add(&mut process, section, 0), Err(Error::Range));
        let module = Module::at(0).range(0x5000..=0x5000);
        let id = process.add(section, module).unwrap();
        assert_eq!(process.row(0x5000), None);
        assert!(process.remove(id));
    }
    // a module that would begin at the highest address and go on at 0
    let high = 0u64.wrapping_sub(0x1001);
    assert_eq!(add(&mut process, &row_1(), high), Err(Error::Range));
    let first = add(&mut process, &row_1(), 0x10000).unwrap();
    for range in [0..=0x11000, 0x11005..=0x11005, 0x1101f..=u64::MAX] {
        let overlaps = add_for(&mut process, 0x20000, range);
        assert_eq!(overlaps, Err(Error::Overlaps(first)));
    }
    assert!(add_for(&mut process, 0x20000, 0..=0x10fff).is_ok());
    assert!(add_for(&mut process, 0x20000, 0x11020..=u64::MAX).is_ok());
    assert_eq!(process.row(0x11010).unwrap().id, first);
    assert!(process.row(0x21010).is_some());
}

#[test]
fn ranges_of_32_bits() {
    let section = hex("00000010 ffffffff 04 00 04 00 04 7c 0e 0c0d00 0000
         00000014 00000000 00008000 00000010 42 0e08 8e01 000000");
    let mut process = Process::new(Target::BIG_32);
    assert_eq!(process.target(), Target::BIG_32);
    let past = Module::at(0).range(0..=1 << 32);
    assert_eq!(process.add(&section, past), Err(Error::Range));
    let whole = Module::at(0).range(0..=0xffff_ffff);
    process.add(&section, whole).unwrap();
    assert!(process.row(0x8000).is_some());
    assert_eq!(process.row(0x1_0000_8000), None);
}

#[test]
fn errors_as_text() {
    let mut process = process_at(&row_1(), 0);
    let error = add(&mut process, &row_1(), 0).unwrap_err();
    let text = "the range shares addresses with module 1";
    assert_eq!((error.to_string().as_str(), error.fault()), (text, None));
    let error = add(&mut process, &[], 0).unwrap_err();
    assert_eq!(error.to_string(), "no range of addresses to answer for");
}

#[test]
fn room_is_a_bound_and_no_request() {
    let section = row_1();
    let mut process = Process::new(Target::LITTLE_64);
    let refused = process.add(&section, Module::at(0).room(10));
    assert_eq!(refused, Err(Error::NoRoom));
    assert_eq!(process.row(0x1000), None);
    let bounded = Module::at(0).room(usize::MAX);
    process.add(&section, bounded).unwrap();
    assert!(process.row(0x1000).is_some());
    // adding a section that is refused changes nothing
    let refused = add(&mut process, &section[..5], 0x5000);
    assert_eq!(refusal(refused), Some(("Truncated", 4)));
    assert!(process.row(0x1000).is_some());
}

#[test]
fn an_eh_frame_module_has_the_rows_that_readelf_prints() {
    let mut process = Process::new(Target::LITTLE_64);
    let module = Module::at(0x40_0000).eh_frame(EhFrame::at(0x2000));
    let id = process.add(&eh_frame(), module).unwrap();
    assert_eq!(
        process.module_at(0x40_1000).unwrap().range,
        0x40_1000..=0x40_100b
    );
    let row = process.row(0x40_1003).unwrap();
    assert_eq!((row.id, row.addresses), (id, 0x1001..0x1004));
    let cfa = CfaRule::RegisterAndOffset {
        register: 7,
        offset: 16,
    };
    assert_eq!(row.cfa, cfa);
    assert_eq!(row.rules, [(6, Rule::Offset(-16)), (16, Rule::Offset(-8))]);
    assert_eq!(process.row(0x40_100c), None);
    // only the second function's CIE has the letter S
    let signals =
        [0x1009, 0x40_1008, 0x40_1009, 0x40_100b, 0x40_100c].map(|a| process.is_signal_frame(a));
    assert_eq!(signals, [false, false, true, true, false]);
}

#[test]
fn the_bytes_of_an_expression_are_those_of_its_rule() {
    let mut process = Process::new(Target::LITTLE_64);
    let module = Module::at(0).eh_frame(EhFrame::at(0x2000));
    process.add(&eh_frame(), module).unwrap();
    // DW_OP_breg7 8, DW_OP_deref; DW_OP_plus_uconst 8
    assert_eq!(process.rule_bytes(0x1009, None), Some(hex("770806")));
    assert_eq!(process.rule_bytes(0x1009, Some(3)), Some(hex("2308")));
    for (address, register) in [(0x1009, Some(16)), (0x100b, Some(3)), (0x1000, None)] {
        assert_eq!(
            process.rule_bytes(address, register),
            None,
            "{:#x}",
            address
        );
    }
    assert_eq!(process.rule_bytes(0x2000, None), None);
}

#[test]
fn a_fault_of_eh_frame_is_at_its_own_offset() {
    let mut process = Process::new(Target::LITTLE_64);
    let mut section = eh_frame();
    *section.last_mut().unwrap() = 0x3f; // no instruction
    let module = Module::at(0).eh_frame(EhFrame::at(0x2000));
    match process.add(&section, module) {
        Err(Error::Refused(fault)) => {
            assert_eq!(
                (fault.kind, fault.offset),
                (FaultKind::UnknownInstruction, 0x83)
            );
        }
        other => panic!("{:?}", other),
    }
    // the same bytes aren't a `.debug_frame` section
    assert!(matches!(
        process.add(&eh_frame(), Module::at(0)),
        Err(Error::Refused(_))
    ));
    assert_eq!(process.row(0x1000), None);
}

#[test]
fn only_aarch64_has_its_instructions() {
    // pacibsp and autibsp, by GNU as and ld
    let section = hex("14000000 00000000 01 7a524200 04 78 1e 01 1b 0c1f00 000000
         20000000 1c000000 e0efffff 18000000 00 41 2d 41 0e10 9d02 9e01 42 dedd 0e00 41 2d 000000");
    let module = |section| Module::at(0).eh_frame(section);
    let mut process = Process::new(Target::LITTLE_64);
    assert!(process
        .add(&section, module(EhFrame::at(0x2000).aarch64()))
        .is_ok());
    let mut process = Process::new(Target::LITTLE_64);
    assert!(process.add(&section, module(EhFrame::at(0x2000))).is_err());
}

#[test]
fn modules_with_both_sections() {
    let mut process = Process::new(Target::LITTLE_64);
    // .debug_frame covers 0x1000..0x1020, and .eh_frame 0x1018..0x1024, from 0x1021 on with a signal frame
    let section = EhFrame::at(0x2018);
    let module = Module::at(0).cookie(3);
    let id = process.add_both(&row_1(), &eh_frame(), section.clone(), module.clone());
    let found = process.module_at(0x1023).unwrap();
    assert_eq!((Ok(found.id), found.cookie), (id, 3));
    assert_eq!(found.range, 0x1000..=0x1023);
    assert_eq!(process.row(0x1018).unwrap().addresses, 0x1004..0x1020);
    assert_eq!(process.row(0x1020).unwrap().addresses, 0x1020..0x1021);
    assert!(process.is_signal_frame(0x1021) && !process.is_signal_frame(0x101f));
    assert_eq!(process.row(0x1024), None);
    assert_eq!(
        process.add_both(&row_1(), &eh_frame(), section.clone(), module.clone()),
        Err(Error::Overlaps(found.id))
    );
    // a fault says of which section it is
    let (mut debug_cut, mut eh_cut) = (row_1(), eh_frame());
    debug_cut.pop();
    eh_cut.pop();
    let module = module.range(0x9000..=0x9fff);
    for (debug_frame, its_section) in [(&debug_cut, Section::Frame), (&row_1(), Section::EhFrame)] {
        match process.add_both(debug_frame, &eh_cut, section.clone(), module.clone()) {
            Err(Error::Refused(fault)) => {
                assert_eq!(
                    (fault.kind, fault.section),
                    (FaultKind::Truncated, its_section)
                );
            }
            other => panic!("{:?}", other),
        }
    }
}
