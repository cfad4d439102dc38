//! Tests of `evaluate`. The expressions and their results are from docs/WORKED.md.

use crate::common::hex;
use dwcheck::{
    evaluate, Abi, Block, Context, Error, Evaluation, ExpressionKind, Location, Outcome, Piece,
    PieceSize, Registers, Section, State, Target,
};

use ExpressionKind::{FrameCfa, FrameRegister};

/// What an expression is run with: registers, memory and a context.
#[derive(Default)]
struct Machine {
    registers: Registers,
    memory: Vec<(u64, Vec<u8>)>,
    context: Context,
}

impl Machine {
    fn reg(mut self, number: u16, content: u64) -> Machine {
        self.registers.set(number, content);
        self
    }

    fn mem(mut self, base: u64, bytes: &str) -> Machine {
        self.memory.push((base, hex(bytes)));
        self
    }

    fn cfa(mut self, cfa: u64) -> Machine {
        self.context.cfa = Some(cfa);
        self
    }

    fn frame(mut self, base: u64) -> Machine {
        self.context.frame_base = Some(base);
        self
    }

    fn run(
        &self,
        kind: ExpressionKind,
        expression: &str,
        target: Target,
    ) -> Result<Evaluation, Error> {
        let memory: Vec<Block<'_>> = self
            .memory
            .iter()
            .map(|(base, bytes)| Block::new(*base, bytes))
            .collect();
        let state = State {
            registers: &self.registers,
            memory: &memory,
            abi: Abi::NONE,
        };
        evaluate(&hex(expression), kind, target, &self.context, &state)
    }

    fn locate(&self, expression: &str) -> (Outcome, u32) {
        let found = self.run(ExpressionKind::Location, expression, Target::LITTLE_64);
        let found = found.unwrap();
        (found.outcome, found.steps)
    }
}

fn locate(expression: &str) -> (Outcome, u32) {
    Machine::default().locate(expression)
}

fn address(address: u64) -> Outcome {
    Outcome::Location(Location::Address(address))
}

fn register(register: u16) -> Outcome {
    Outcome::Location(Location::Register(register))
}

fn value(value: u64) -> Outcome {
    Outcome::Location(Location::Value(value))
}

fn bytes(location: Location, size: u32) -> Piece {
    let size = PieceSize::Bytes(size);
    Piece { location, size }
}

#[test]
fn locations_without_pieces() {
    assert_eq!(locate("32 33 22"), (address(5), 3));
    assert_eq!(locate("31 32 28 0000"), (address(1), 3));
    assert_eq!(locate("31 32 33 17 1c"), (address(u64::MAX), 5));
    assert_eq!(locate("03 5c04d08000000000"), (address(0x80d0045c), 1));
    assert_eq!(locate("31 32 9f"), (value(2), 3));
    assert_eq!(locate("53"), (register(3), 1));
    assert_eq!(locate("9036"), (register(54), 1));
    assert_eq!(locate(""), (Outcome::Location(Location::Nowhere), 0));
    let bytes = Outcome::Location(Location::Bytes(vec![0xca, 0xfe]));
    assert_eq!(locate("9e 02 cafe"), (bytes, 1));
    let none = Outcome::Location(Location::Bytes(vec![]));
    assert_eq!(locate("9e 00"), (none, 1));
}

#[test]
fn what_is_handed_in() {
    let machine = Machine::default().reg(7, 0x7f00);
    assert_eq!(machine.locate("7708"), (address(0x7f08), 1));
    let machine = Machine::default().mem(0x1000, "3412");
    assert_eq!(machine.locate("0a0010 9402"), (address(0x1234), 2));
    let big = machine.run(ExpressionKind::Location, "0a1000 9402", Target::BIG_64);
    assert_eq!(big.unwrap().outcome, address(0x3412));
    let machine = Machine::default().frame(0x7f40);
    assert_eq!(machine.locate("914e"), (address(0x7f0e), 1));
    let mut machine = Machine::default().cfa(0x7f50);
    machine.context.object = Some(0x8000);
    assert_eq!(machine.locate("9c"), (address(0x7f50), 1));
    assert_eq!(machine.locate("97"), (address(0x8000), 1));
    assert_eq!(locate("97"), (Outcome::Unreadable { at: 0 }, 1));
    let machine = Machine::default()
        .reg(54, 0x7f00)
        .mem(0x7f20, "5c04d08000000000");
    assert_eq!(machine.locate("923620 06"), (address(0x80d0045c), 2));
    let machine = Machine::default().reg(1, 0x20).reg(2, 3);
    assert_eq!(machine.locate("7100 7200 22 9f"), (value(0x23), 4));
}

#[test]
fn what_has_no_answer() {
    assert_eq!(locate("7700"), (Outcome::Unreadable { at: 0 }, 1));
    assert_eq!(locate("914e"), (Outcome::Unreadable { at: 0 }, 1));
    assert_eq!(locate("31 30 1b"), (Outcome::DivisionByZero { at: 2 }, 3));
    let ends = Machine::default()
        .mem(u64::MAX, "05")
        .mem(0, "00000000000000");
    let (outcome, steps) = ends.locate("0effffffffffffffff 06");
    assert_eq!((outcome, steps), (Outcome::Unreadable { at: 9 }, 2));
}

#[test]
fn pieces() {
    let both = vec![bytes(Location::Register(0), 4), bytes(Location::Nowhere, 4)];
    assert_eq!(locate("50 9304 9304"), (Outcome::Pieces(both), 3));
    let one = vec![bytes(Location::Value(1), 4)];
    assert_eq!(locate("31 9f 9304"), (Outcome::Pieces(one), 3));
    let bits = vec![Piece {
        location: Location::Register(0),
        size: PieceSize::Bits { size: 8, offset: 4 },
    }];
    assert_eq!(locate("50 9d0804"), (Outcome::Pieces(bits), 2));
    let huge = vec![bytes(Location::Nowhere, u32::MAX)];
    assert_eq!(locate("93ffffffff0f"), (Outcome::Pieces(huge), 1));
    let many = vec![bytes(Location::Nowhere, 0); 32];
    let (outcome, steps) = locate(&"9300".repeat(32));
    assert_eq!((outcome, steps), (Outcome::Pieces(many), 32));
    let machine = Machine::default().frame(0x7f40);
    let three = vec![
        bytes(Location::Register(0), 4),
        bytes(Location::Nowhere, 4),
        bytes(Location::Address(0x7f34), 4),
    ];
    let (outcome, steps) = machine.locate("50 9304 9304 9174 9304");
    assert_eq!((outcome, steps), (Outcome::Pieces(three), 5));
}

/// If several pieces are bytes (implicit_value followed by piece), each gets its own bytes.
#[test]
fn pieces_of_bytes() {
    let pieces = vec![
        bytes(Location::Bytes(vec![0xca, 0xfe]), 2),
        bytes(Location::Register(3), 4),
        bytes(Location::Bytes(vec![1, 2, 3]), 3),
    ];
    let (outcome, steps) = locate("9e 02 cafe 9302 53 9304 9e 03 010203 9303");
    assert_eq!((outcome, steps), (Outcome::Pieces(pieces), 6));
}

#[test]
fn rules_of_frames() {
    let machine = Machine::default().cfa(0x10);
    let found = machine
        .run(FrameRegister, "12 22", Target::LITTLE_64)
        .unwrap();
    assert_eq!((found.outcome, found.steps), (Outcome::Value(0x20), 2));
    let bare = Machine::default();
    let found = bare.run(FrameRegister, "12 22", Target::LITTLE_64).unwrap();
    assert_eq!(
        (found.outcome, found.steps),
        (Outcome::Unreadable { at: 0 }, 0)
    );
    let machine = Machine::default()
        .reg(7, 0x7f00)
        .mem(0x7f08, "5512400000000000");
    let found = machine
        .run(FrameCfa, "77 08 06", Target::LITTLE_64)
        .unwrap();
    assert_eq!((found.outcome, found.steps), (Outcome::Value(0x401255), 2));
}

#[test]
fn expressions_that_are_refused() {
    for (kind, expression, name, at) in [
        (ExpressionKind::Location, "12", "Underflow", 0),
        (ExpressionKind::Location, "30 28 0100 31 32", "Mismatch", 5),
        (ExpressionKind::Location, "30 2f fcff", "Backward", 1),
        (
            ExpressionKind::Location,
            "31 28 0100 0a0500",
            "TargetNotStart",
            1,
        ),
        (ExpressionKind::Location, "50 31", "NotAlone", 1),
        (
            ExpressionKind::Location,
            "30 2f 0100 31 9f",
            "Unreachable",
            4,
        ),
        (ExpressionKind::Location, "31 28 0100 13 32", "Underflow", 4),
        (ExpressionKind::Location, "08", "Truncated", 1),
        (ExpressionKind::Location, "18", "UnknownOperation", 0),
        (ExpressionKind::Location, "938080808010", "PieceSize", 0),
        (FrameCfa, "12 22", "Underflow", 0),
        (FrameCfa, "9c", "NotInFrame", 0),
    ] {
        let refused = Machine::default().run(kind, expression, Target::LITTLE_64);
        let fault = refused.unwrap_err().fault().unwrap();
        assert_eq!((fault.name(), fault.offset), (name, at), "{}", expression);
        assert_eq!(fault.section, Section::Expression);
    }
    let deep = Machine::default().run(FrameCfa, &"30".repeat(129), Target::LITTLE_64);
    assert_eq!(
        deep.unwrap_err().to_string(),
        "expression: 36 TooDeep at 0x00000080"
    );
    let small = Machine::default().run(FrameCfa, "30 9408", Target::LITTLE_32);
    assert_eq!(small.unwrap_err().fault().unwrap().name(), "BadSize");
}
