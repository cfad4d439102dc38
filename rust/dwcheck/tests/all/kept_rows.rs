//! Walks with rows that are kept.

use dwcheck::{
    Block, Cursor, EhFrame, EhFrameInPlace, Filled, KeptRows, KeptStop, RegisterFrame,
    RegisterPlace, StackPlace, Target,
};

/// A CIE and an FDE of 0x1009 to 0x100b, at 0x2000: the CFA is rsp plus 8, the return address just below.
const SECTION: [u8; 44] = [
    0x14, 0, 0, 0, 0, 0, 0, 0, 1, b'z', b'R', 0, 1, 0x78, 0x10, 1, 0x1b, 0x0c, 7, 8, 0x90, 1, 0, 0,
    0x10, 0, 0, 0, 0x1c, 0, 0, 0, 0xe9, 0xef, 0xff, 0xff, 3, 0, 0, 0, 0, 0, 0, 0,
];

/// Its .eh_frame_hdr, at 0x3000.
const HEADER: [u8; 20] = [
    1, 0x1b, 3, 0x3b, 0xfc, 0xef, 0xff, 0xff, 1, 0, 0, 0, 9, 0xe0, 0xff, 0xff, 0x18, 0xf0, 0xff,
    0xff,
];

fn module() -> EhFrameInPlace<'static> {
    EhFrameInPlace::new(
        &SECTION,
        EhFrame::at(0x2000),
        &HEADER,
        0x3000,
        Target::LITTLE_64,
    )
    .loaded_at(0x40_0000)
}

/// The words of a stack: a return address in the FDE, and then 0.
fn stack() -> Vec<u8> {
    [0x40_100a_u64, 0, 0]
        .iter()
        .flat_map(|word| word.to_le_bytes())
        .collect()
}

#[test]
fn a_walk_stops_where_a_row_is_missing_and_goes_on_once_it_is_filled_in() {
    let bytes = stack();
    let memory = [Block::new(0x7000, &bytes)];
    let mut rows = Box::new(KeptRows::new());
    let mut place = StackPlace::first(0x40_1009, 0x7000, 0);
    let mut addresses = [0; 8];

    assert_eq!(
        rows.walk(!0, &mut place, &memory, &mut addresses),
        (0, KeptStop::Missing)
    );
    assert_eq!(place.looked_up(), Some(0x40_1009));
    assert_eq!(rows.fill(5, &module(), 0x40_1009), Ok(Filled::Kept));
    assert_eq!(
        rows.walk(!0, &mut place, &memory, &mut addresses),
        (2, KeptStop::Missing)
    );
    assert_eq!(addresses[..2], [0x40_1009, 0x40_100a]);
    assert_eq!(place.looked_up(), None);
}

#[test]
fn rows_of_slots_that_are_not_confirmed_or_forgotten_are_not_used() {
    let bytes = stack();
    let memory = [Block::new(0x7000, &bytes)];
    let first = StackPlace::first(0x40_1009, 0x7000, 0);
    let mut rows = Box::new(KeptRows::new());
    let mut addresses = [0; 1];
    assert_eq!(rows.fill(5, &module(), 0x40_1009), Ok(Filled::Kept));

    assert_eq!(
        rows.walk(!(1 << 5), &mut first.clone(), &memory, &mut addresses),
        (0, KeptStop::Missing)
    );
    assert_eq!(
        rows.walk(1 << 5, &mut first.clone(), &memory, &mut addresses),
        (1, KeptStop::Full)
    );
    rows.forget(4);
    assert_eq!(
        rows.walk(1 << 5, &mut first.clone(), &memory, &mut addresses),
        (1, KeptStop::Full)
    );
    rows.forget(5);
    assert_eq!(
        rows.walk(!0, &mut first.clone(), &memory, &mut addresses),
        (0, KeptStop::Missing)
    );
}

#[test]
fn frames_have_their_registers_and_their_cfas() {
    let bytes = stack();
    let memory = [Block::new(0x7000, &bytes)];
    let mut rows = Box::new(KeptRows::new());
    assert_eq!(rows.fill(0, &module(), 0x40_1009), Ok(Filled::Kept));
    let first = RegisterPlace {
        address: 0x40_1009,
        key: 0x40_100a,
        stack_pointer: 0x7000,
        rbx: 3,
        ..RegisterPlace::default()
    };
    let second = RegisterPlace {
        address: 0x40_100a,
        stack_pointer: 0x7008,
        ..first
    };

    let mut place = first;
    let mut frames = [RegisterFrame::default(); 4];
    assert_eq!(
        rows.walk_frames(!0, &mut place, &memory, &mut frames),
        (2, KeptStop::Missing)
    );
    assert_eq!(
        frames[0],
        RegisterFrame {
            place: first,
            cfa: 0x7008
        }
    );
    assert_eq!(
        frames[1],
        RegisterFrame {
            place: second,
            cfa: 0x7010
        }
    );
}

#[test]
fn an_address_without_a_row_is_not_kept() {
    let mut rows = Box::new(KeptRows::new());
    assert_eq!(rows.fill(0, &module(), 0x40_100c), Ok(Filled::NotCovered));
}

#[test]
fn a_cursor_at_a_place_is_at_the_same_frame() {
    let place = RegisterPlace {
        address: 0x40_100a,
        key: 0x40_100a,
        stack_pointer: 0x7008,
        rbx: 3,
        r15: 15,
        ..RegisterPlace::default()
    };
    let cursor = Cursor::at_place(&place).unwrap();
    assert_eq!(cursor.address(), 0x40_100a);
    assert_eq!(cursor.register_place(), Some(place));
    let elsewhere = RegisterPlace { key: 7, ..place };
    assert!(Cursor::at_place(&elsewhere).is_none());
}
