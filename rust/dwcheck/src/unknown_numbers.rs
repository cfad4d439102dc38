//! Tests of decoding numbers that the library never gives in this version, but may give in a newer
//! one. Each of them has to be decoded without a panic, mostly to a variant called `Other`.

use crate::caller::{Answer, Caller};
use crate::fault::{Error, Fault, FaultKind, Section};
use crate::ffi;
use crate::row::{CfaRule, Row, Rule};
use crate::walk::Stop;

#[test]
fn statuses() {
    let fault = ffi::Fault {
        number: 1000,
        offset: u32::MAX,
        within: 1000,
        reserved: 1,
    };
    let refused = Fault {
        kind: FaultKind::Other(1000),
        offset: u32::MAX,
        section: Section::Other(1000),
    };
    assert_eq!(
        refused.to_string(),
        "unknown section: 1000 Unknown at 0xffffffff"
    );
    for (status, want) in [
        (0, Ok(())),
        (1, Err(Error::Refused(refused))),
        (2, Err(Error::NoMemory)),
        (3, Err(Error::NoRoom)),
        (4, Err(Error::Other(4))),
        (5, Err(Error::TooLong)),
        (8, Err(Error::Other(8))),
        (9, Err(Error::Range)),
        (10, Err(Error::NoPlace)),
        (11, Err(Error::NoTable)),
        (1000, Err(Error::Other(1000))),
    ] {
        assert_eq!(Error::check(status, fault), want);
    }
}

#[test]
fn answers_and_reasons() {
    for kind in [0, 5, u32::MAX] {
        assert_eq!(Answer::of(kind, 7), Answer::Other(kind));
        assert_eq!(Answer::of(kind, 7).value(), None);
    }
    assert_eq!(Stop::of(5), Stop::Other(5));
}

#[test]
fn callers() {
    let register = |number| ffi::Register {
        value: 7,
        kind: ffi::ANSWER_VALUE,
        number,
    };
    let raw = ffi::Caller {
        count: u64::MAX,
        ..ffi::Caller::default()
    };
    let caller = Caller::of(&raw, &[register(1), register(0x10000), register(2)]);
    let value = Answer::Value(7);
    assert_eq!(caller.registers, [(1, value), (2, value)]);
    assert_eq!(caller.cfa, Answer::Other(0));
}

#[test]
fn rows() {
    let rule = |kind, offset| ffi::Rule {
        kind,
        offset,
        length: u64::MAX,
        ..ffi::Rule::default()
    };
    let mut raw = ffi::Row {
        count: u32::MAX,
        cfa: rule(ffi::RULE_OFFSET, 0),
        ..ffi::Row::default()
    };
    let rules = [
        rule(0, 0),
        rule(8, 0),
        rule(ffi::RULE_EXPRESSION, -1),
        rule(ffi::RULE_EXPRESSION, i64::MAX),
    ];
    let mut row = Row::empty();
    row.set(&raw, &rules).unwrap();
    assert_eq!(row.cfa, CfaRule::Other(ffi::RULE_OFFSET));
    let found: Vec<Rule> = row.rules.iter().map(|(_, rule)| *rule).collect();
    assert_eq!(found[..3], [Rule::Other(0), Rule::Other(8), Rule::Other(6)]);
    match found[3] {
        Rule::Expression(span) => assert_eq!(span.of(&[1, 2]), None),
        other => panic!("{:?}", other),
    }
    raw.return_reg = 0x10000;
    assert_eq!(row.set(&raw, &rules), None);
}
