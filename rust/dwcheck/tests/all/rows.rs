//! Tests of `Process::row`. Most sections and their rows are from docs/WORKED.md.

use crate::common::*;
use dwcheck::{CfaRule, Module, Process, Row, Rule, Span, Target};

fn cfa(register: u16, offset: i64) -> CfaRule {
    CfaRule::RegisterAndOffset { register, offset }
}

fn row(section: &[u8], address: u64) -> Row {
    process_at(section, 0).row(address).expect("a row")
}

#[test]
fn rows_of_row_1() {
    let process = process_at(&row_1(), 0);
    let rows = [
        (0x1000..0x1001, cfa(7, 8), vec![(16, Rule::Offset(-8))]),
        (
            0x1001..0x1004,
            cfa(7, 16),
            vec![(6, Rule::Offset(-16)), (16, Rule::Offset(-8))],
        ),
        (
            0x1004..0x1020,
            cfa(6, 16),
            vec![(6, Rule::Offset(-16)), (16, Rule::Offset(-8))],
        ),
    ];
    for (addresses, cfa, rules) in rows {
        for address in addresses.clone() {
            let row = process.row(address).expect("a row");
            assert_eq!(row.addresses, addresses);
            assert_eq!((row.cfa, &row.rules), (cfa, &rules));
            assert_eq!((row.load_address, row.return_register), (0, 16));
        }
    }
    for address in [0, 0xfff, 0x1020, u64::MAX] {
        assert_eq!(process.row(address), None);
    }
}

#[test]
fn each_kind_of_rule() {
    let found = row(&with_program("0710 41 d0"), 0x1000);
    assert_eq!(found.rules, [(16, Rule::Undefined)]);
    let found = row(&with_program("090305 0806 140702"), 0x1000);
    assert_eq!(found.rule(3), Some(Rule::Register(5)));
    assert_eq!(found.rule(6), Some(Rule::SameValue));
    assert_eq!(found.rule(7), Some(Rule::ValOffset(-16)));
    assert_eq!(found.rule(16), Some(Rule::Offset(-8)));
    assert_eq!(found.rule(4), None);
    let found = row(&with_program("11067e 137e"), 0x101f);
    assert_eq!(found.cfa, cfa(7, 16));
    assert_eq!(found.rule(6), Some(Rule::Offset(16)));
}

#[test]
fn rules_that_are_expressions() {
    let section = x();
    let found = row(&section, 0x1000);
    let (saved, value) = match (found.rule(6), found.rule(7)) {
        (Some(Rule::Expression(saved)), Some(Rule::ValExpression(value))) => (saved, value),
        other => panic!("{:?}", other),
    };
    assert_eq!(
        (saved.offset, saved.of(&section)),
        (0x33, Some(&[0x23, 8][..]))
    );
    assert_eq!((value.offset, value.of(&section)), (0x38, Some(&[][..])));
    // row 25 of docs/WORKED.md
    let section = with_program("0f 03 770806");
    let span = Span {
        offset: 0x32,
        length: 3,
    };
    assert_eq!(row(&section, 0x101f).cfa, CfaRule::Expression(span));
    assert_eq!(span.of(&section), Some(&[0x77, 8, 6][..]));
}

#[test]
fn spans_are_within_the_section() {
    let whole = |offset, length| Span { offset, length };
    let section = [1, 2, 3];
    assert_eq!(whole(0, 3).of(&section), Some(&section[..]));
    assert_eq!(whole(3, 0).of(&section), Some(&[][..]));
    assert_eq!(whole(4, 0).of(&section), None);
    assert_eq!(whole(1, u64::MAX).of(&section), None);
    assert_eq!(whole(u64::MAX, 1).of(&section), None);
}

#[test]
fn older_cies_and_many_registers() {
    let cie = "14000000 ffffffff 03 00 01 78 9001 0c0708 9001 0000000000";
    let section = hex(&format!("{} {} 41 0e10 8602 43 0d06", cie, H1));
    assert_eq!(row(&section, 0x1000).return_register, 144);
    // a program that makes registers 0 to 126 undefined; the CIE's rule for register 16 is
    // replaced, so there are 127 rules
    let program: String = (0..127)
        .map(|register| format!("07{:02x} ", register))
        .collect();
    let mut section = hex(&format!("{} {} {}", C1, H1, program));
    section.resize(section.len() + 6, 0);
    section[24] = (section.len() - 28) as u8;
    section[25] = ((section.len() - 28) >> 8) as u8;
    let found = row(&section, 0x1000);
    assert_eq!(found.rules.len(), 127);
    assert!(found.rules.iter().all(|(_, rule)| *rule == Rule::Undefined));
}

#[test]
fn many_fdes() {
    let mut section = hex(C1);
    for i in (0..1000).rev() {
        section.extend(fde(0x1000 + 0x20 * i, 0x10));
    }
    let process = process_at(&section, 0);
    assert_eq!(process.row(0x100f).unwrap().addresses, 0x1000..0x1010);
    assert_eq!(process.row(0x8cef).unwrap().addresses, 0x8ce0..0x8cf0);
    assert_eq!(process.row(0x1010), None);
    assert_eq!(process.row(0x8cf0), None);
}

#[test]
fn other_targets() {
    let section = hex("00000010 ffffffff 04 00 04 00 04 7c 0e 0c0d00 0000
         00000014 00000000 00008000 00000010 42 0e08 8e01 000000");
    let mut process = Process::new(Target::BIG_32);
    process.add(&section, Module::at(0xffff_8000)).unwrap();
    // the rows begin at 0x8000 and 0x8008 as linked; the load address is -0x8000 modulo 2^32, so as
    // loaded they begin at 0 and 8
    assert_eq!(process.row(0).unwrap().cfa, cfa(13, 0));
    let found = process.row(0xf).unwrap();
    assert_eq!(found.addresses, 0x8008..0x8010);
    assert_eq!((found.cfa, found.return_register), (cfa(13, 8), 14));
    assert_eq!(found.rules, [(14, Rule::Offset(-4))]);
    assert_eq!(found.load_address, 0xffff_8000);
    // addresses of 2^32 and more have no row
    assert_eq!(process.row(1 << 32), None);
}
