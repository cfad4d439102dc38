//! Tests that faults have the numbers and names of the table in docs/PROFILE.md, and that the
//! constants of `Abi` have the registers of the table of `keep` and `sp` in docs/OUTPUT.md. The
//! tables are copied here.

use dwcheck::{Abi, FaultKind};

#[rustfmt::skip]
const FAULTS: [(u32, &str); 47] = [
    (1, "Truncated"), (2, "LebRange"), (3, "ReservedLength"), (4, "Version"), (5, "Augmentation"),
    (6, "AddressSize"), (7, "SegmentSize"), (9, "NoSuchCie"), (10, "RegisterNumber"),
    (11, "RangePastTop"), (12, "UnknownInstruction"), (13, "NotInCie"), (14, "LocationBack"),
    (15, "LocationPastEnd"), (16, "RestoreWithoutRemember"), (17, "Unrestored"),
    (18, "RememberTooDeep"), (19, "CfaNotRegister"), (20, "OffsetRange"), (21, "TooManyRules"),
    (22, "NoCfa"), (23, "Overlap"), (30, "UnknownOperation"), (31, "NotInFrame"), (32, "BadSize"),
    (33, "Backward"), (34, "TargetNotStart"), (35, "Underflow"), (36, "TooDeep"), (37, "Mismatch"),
    (38, "Unreachable"), (39, "NotAlone"), (40, "EndsEmpty"), (41, "TooManyPieces"),
    (42, "PieceSize"), (50, "ListVersion"), (51, "UnknownEntry"), (52, "BackRange"),
    (53, "SecondDefault"), (54, "NoEnd"), (55, "BadOffsetEntry"), (60, "Memory"),
    (61, "SectionTooLong"), (62, "AbiTooLarge"), (63, "AbiTwice"), (70, "CertLength"),
    (71, "CertState"),
];

#[test]
fn faults_have_their_numbers_and_names() {
    for number in 0..1000 {
        let kind = FaultKind::from_number(number);
        assert_eq!(kind.number(), number);
        match FAULTS.iter().find(|known| known.0 == number) {
            Some((_, name)) => {
                assert_eq!(kind.name(), *name);
                assert_eq!(kind.to_string(), *name);
            }
            None => {
                assert_eq!(kind, FaultKind::Other(number));
                assert_eq!(kind.to_string(), "Unknown");
            }
        }
    }
    assert_eq!(FaultKind::from_number(u32::MAX).number(), u32::MAX);
}

/// The register numbers in a text such as `19 to 29, and 30`.
fn registers(text: &str) -> Vec<u16> {
    let mut all = Vec::new();
    for part in text.replace("and ", "").split(", ") {
        let ends: Vec<u16> = part.split(" to ").map(|end| end.parse().unwrap()).collect();
        all.extend(ends[0]..=ends[ends.len() - 1]);
    }
    all
}

#[test]
fn abis_are_those_of_the_table() {
    for (abi, kept, stack_pointer) in [
        (Abi::X86_64, "3, 6, 12 to 15", Some(7)),
        (Abi::I386, "3, 5, 6, 7", Some(4)),
        (Abi::AARCH64, "19 to 29, and 30", Some(31)),
        (Abi::ARM, "4 to 11, and 14", Some(13)),
        (Abi::POWERPC, "14 to 31, and 65", Some(1)),
        (Abi::S390X, "6 to 13, 15, and 14", None),
        (Abi::RISCV, "8, 9, 18 to 27, and 1", Some(2)),
        (Abi::MIPS, "16 to 23, 30, and 31", Some(29)),
    ] {
        assert_eq!(abi.kept, registers(kept), "{}", kept);
        assert_eq!(abi.stack_pointer, stack_pointer, "{}", kept);
    }
    assert_eq!(Abi::NONE, Abi::default());
}
