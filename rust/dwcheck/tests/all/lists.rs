//! Tests of `locations`. The location lists and the results are from docs/WORKED.md.

use crate::common::*;
use dwcheck::{
    evaluate, locations, Abi, Context, Error, ExpressionKind, Location, Lookup, Outcome, Registers,
    Section, State, Target,
};

/// The offsets in the section of the expressions of a list that apply at an address. `None` if no
/// list begins at `list`.
fn at(section: &[u8], list: u32, base: u64, address: u64) -> Option<Vec<u64>> {
    let lookup = Lookup {
        list,
        base,
        address,
    };
    let found = locations(section, Target::LITTLE_64, &lookup).unwrap()?;
    Some(found.iter().map(|span| span.offset).collect())
}

/// For each expression of the list at 0xc that applies at an address: its result, and its number of
/// steps.
fn come_to(section: &[u8], base: u64, address: u64) -> Vec<(Outcome, u32)> {
    let lookup = Lookup {
        list: 0xc,
        base,
        address,
    };
    let state = State {
        registers: &Registers::new(),
        memory: &[],
        abi: Abi::NONE,
    };
    let target = Target::LITTLE_64;
    let found = locations(section, target, &lookup).unwrap().unwrap();
    found
        .iter()
        .map(|span| span.of(section).expect("an expression of the section"))
        .map(|e| {
            evaluate(
                e,
                ExpressionKind::Location,
                target,
                &Context::default(),
                &state,
            )
        })
        .map(|found| found.map(|found| (found.outcome, found.steps)).unwrap())
        .collect()
}

#[test]
fn row_16s_list() {
    let section = row_16();
    assert_eq!(at(&section, 0xc, 0x1000, 0x1005), Some(vec![0x10]));
    assert_eq!(at(&section, 0xc, 0x1000, 0x1010), Some(vec![0x13]));
    assert_eq!(at(&section, 0xd, 0x1000, 0x1010), None);
    assert_eq!(at(&section, u32::MAX, 0x1000, 0x1010), None);
    let base = 0xfffffffffffffff8;
    assert_eq!(at(&section, 0xc, base, u64::MAX), Some(vec![0x10]));
    assert_eq!(at(&section, 0xc, base, 4), Some(vec![0x13]));
    let register = Outcome::Location(Location::Register(0));
    assert_eq!(come_to(&section, 0x1000, 0x1005), [(register, 1)]);
    let value = Outcome::Location(Location::Value(0));
    assert_eq!(come_to(&section, 0x1000, 0x1010), [(value, 2)]);
}

#[test]
fn ls_list() {
    let section = l();
    assert_eq!(at(&section, 0xc, 0, 0x2000), Some(vec![0x19]));
    assert_eq!(at(&section, 0xc, 0, 0x2008), Some(vec![0x19, 0x25]));
    assert_eq!(at(&section, 0xc, 0, 0x2010), Some(vec![0x25]));
    assert_eq!(at(&section, 0xc, 0, 0x2018), Some(vec![]));
    let registers: Vec<_> = come_to(&section, 0, 0x2008);
    let want = [0, 1].map(|n| (Outcome::Location(Location::Register(n)), 1));
    assert_eq!(registers, want);
}

/// Ranges may overlap, so any number of expressions of a list may apply at an address.
#[test]
fn many_expressions_hold() {
    for count in [15, 16, 17, 127, 128, 129, 1000] {
        let mut section = vec![0; 12];
        section[4] = 5;
        section[6] = 8;
        for _ in 0..count {
            section.extend(hex("04 00 10 01 50"));
        }
        section.push(0);
        let length = section.len() as u32 - 4;
        section[..4].copy_from_slice(&length.to_le_bytes());
        let want: Vec<u64> = (0..count).map(|i| 16 + 5 * i).collect();
        assert_eq!(at(&section, 0xc, 0x1000, 0x100f), Some(want));
        assert_eq!(at(&section, 0xc, 0x1000, 0x1010), Some(vec![]));
    }
}

#[test]
fn sections_that_are_refused() {
    let lookup = Lookup {
        list: 0xc,
        base: 0,
        address: 0,
    };
    for (section, name, at) in [
        (
            "0d000000 0500 08 00 00000000 04 10 00 00 00",
            "BackRange",
            12,
        ),
        ("0a000000 0500 08 00 00000000 05 00", "NoEnd", 14),
        ("0c000000 0500 08 00 00000000 05 01 12 00", "Underflow", 14),
    ] {
        let refused = locations(&hex(section), Target::LITTLE_64, &lookup);
        let fault = match refused {
            Err(Error::Refused(fault)) => fault,
            other => panic!("{:?}", other),
        };
        assert_eq!(
            (fault.name(), fault.offset, fault.section),
            (name, at, Section::Lists)
        );
    }
    assert_eq!(locations(&[], Target::LITTLE_64, &lookup), Ok(None));
}
