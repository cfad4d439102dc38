//! Tests of `EhFrameInPlace`, beside `Process`, whose rows are those that readelf prints (modules.rs).

use crate::common::*;
use dwcheck::{
    Abi, Block, Cursor, EhFrame, EhFrameInPlace, Error, FaultKind, Module, Process, Registers, Row,
    State, Stop, Target,
};

const LOAD: u64 = 0x40_0000;

/// The `.eh_frame_hdr` of [`eh_frame`], which is at 0x3000: its FDEs are at 32 and at 100.
fn header() -> Vec<u8> {
    hex("01 1b 03 3b fcefffff 02000000 00e0ffff 20f0ffff 09e0ffff 64f0ffff")
}

fn in_place<'a>(section: &'a [u8], header: &'a [u8]) -> EhFrameInPlace<'a> {
    let eh_frame = EhFrame::at(0x2000);
    EhFrameInPlace::new(section, eh_frame, header, 0x3000, Target::LITTLE_64).loaded_at(LOAD)
}

fn added(section: &[u8]) -> Process {
    let mut process = Process::new(Target::LITTLE_64);
    let module = Module::at(LOAD).eh_frame(EhFrame::at(0x2000));
    process.add(section, module).expect("an accepted section");
    process
}

/// What a row says, but for the module's id.
fn rules_of(row: Row) -> impl PartialEq + std::fmt::Debug {
    let place = (row.load_address, row.addresses, row.return_register);
    (place, row.cfa, row.rules)
}

#[test]
fn rows_in_place_are_those_of_an_added_module() {
    let (section, header) = (eh_frame(), header());
    let (place, process) = (in_place(&section, &header), added(&section));
    let without_header = in_place(&section, &[]);
    for address in (LOAD + 0xff0)..(LOAD + 0x1020) {
        let row = place.row(address).unwrap();
        assert_eq!(row.map(rules_of), process.row(address).map(rules_of));
        assert_eq!(without_header.row(address), place.row(address));
        let is_signal_frame = place.is_signal_frame(address).unwrap();
        assert_eq!(is_signal_frame, process.is_signal_frame(address));
    }
}

#[test]
fn the_bytes_of_expressions_are_in_the_section() {
    let (section, header) = (eh_frame(), header());
    let row = in_place(&section, &header)
        .row(LOAD + 0x1009)
        .unwrap()
        .unwrap();
    match row.cfa {
        dwcheck::CfaRule::Expression(span) => {
            assert_eq!(span.of(&section), Some(&[0x77, 8, 6][..]))
        }
        other => panic!("{:?}", other),
    }
}

#[test]
fn steps_in_place_are_those_of_a_process() {
    let (section, header) = (eh_frame(), header());
    let (place, process) = (in_place(&section, &header), added(&section));
    // The function has pushed nothing yet, and returns to the signal frame, whose CFA is in the word at
    // its stack pointer plus 8; what it interrupted isn't covered.
    let words = [LOAD + 0x100a, 0, 0x7f20, LOAD + 0x5000];
    let stack: Vec<u8> = words.iter().flat_map(|word| word.to_le_bytes()).collect();
    let (registers, memory) = (Registers::from([(7, 0x7f00)]), [Block::new(0x7f00, &stack)]);
    let state = State {
        registers: &registers,
        memory: &memory,
        abi: Abi::X86_64,
    };
    let mut cursor = Cursor::new(LOAD + 0x1000, &state).unwrap();
    let mut other = cursor.clone();
    for (cfa, address) in [(0x7f08, LOAD + 0x100a), (0x7f20, LOAD + 0x5000)] {
        let frame = place.step(&mut cursor, &state).unwrap().expect("a frame");
        assert_eq!(frame.cfa().and_then(|cfa| cfa.value()), Some(cfa));
        assert_eq!(cursor.address(), address);
        assert_eq!(process.step(&mut other, &state), Ok(Some(frame)));
        assert_eq!(
            (other.address(), other.is_exact()),
            (address, cursor.is_exact())
        );
    }
    assert!(cursor.is_exact());
    assert_eq!(
        place.step(&mut cursor, &state).unwrap().unwrap().cfa(),
        None
    );
    assert_eq!(cursor.stop(), Some(Stop::NotCovered));
    assert_eq!(place.step(&mut cursor, &state), Ok(None));
}

#[test]
fn what_cannot_be_looked_up_is_an_error() {
    let (mut section, header) = (eh_frame(), header());
    let cut = &header[..header.len() - 1];
    assert_eq!(
        in_place(&section, cut).row(LOAD + 0x1000),
        Err(Error::NoTable)
    );
    *section.last_mut().unwrap() = 0x3f; // no instruction, in the second FDE
    let place = in_place(&section, &header);
    let fault = place
        .row(LOAD + 0x1009)
        .unwrap_err()
        .fault()
        .expect("a fault");
    assert_eq!(
        (fault.kind, fault.offset),
        (FaultKind::UnknownInstruction, section.len() as u32 - 1)
    );
    assert!(place.row(LOAD + 0x1008).unwrap().is_some());
    let (registers, abi) = (Registers::new(), Abi::X86_64);
    let state = State {
        registers: &registers,
        memory: &[],
        abi,
    };
    let mut cursor = Cursor::new(LOAD + 0x1009, &state).unwrap();
    assert_eq!(place.step(&mut cursor, &state), Err(Error::Refused(fault)));
    assert_eq!((cursor.address(), cursor.stop()), (LOAD + 0x1009, None));
}
