//! Tests that every call returns, and that calls agree, on random input and damaged sections. They
//! are meant to run under valgrind, too.

use crate::common::*;
use dwcheck::{
    evaluate, Abi, Block, Context, ExpressionKind, Frame, Module, Process, Registers, State, Target,
};

/// A generator of pseudorandom numbers, which are the same in each run of the tests.
struct Numbers(u64);

impl Numbers {
    fn next(&mut self) -> u64 {
        self.0 = self
            .0
            .wrapping_mul(6364136223846793005)
            .wrapping_add(1442695040888963407);
        self.0 ^ self.0 >> 29
    }

    fn below(&mut self, end: usize) -> usize {
        (self.next() >> 8) as usize % end
    }

    fn bytes(&mut self, length: usize) -> Vec<u8> {
        (0..length).map(|_| self.next() as u8).collect()
    }

    fn target(&mut self) -> Target {
        let all = [
            Target::LITTLE_64,
            Target::LITTLE_32,
            Target::BIG_64,
            Target::BIG_32,
        ];
        all[self.below(4)]
    }

    /// An address of one of three kinds: any; 0 or one of the 31 highest; or one from 0x1000 to
    /// 0x103f. The sections have rows from 0x1000 to 0x101f.
    fn address(&mut self) -> u64 {
        match self.below(3) {
            0 => self.next(),
            1 => 0u64.wrapping_sub(self.next() % 32),
            _ => 0x1000 + self.next() % 0x40,
        }
    }
}

/// A section that would be accepted, but with up to two bytes changed.
fn changed(numbers: &mut Numbers) -> Vec<u8> {
    let mut section = if numbers.below(2) == 0 { row_1() } else { x() };
    for _ in 0..numbers.below(3) {
        let place = numbers.below(section.len());
        section[place] = numbers.next() as u8;
    }
    section
}

/// Calls everything that takes an address, and sees that the answers agree.
fn ask_all(process: &Process, address: u64, state: &State<'_>, expression: &[u8]) {
    let row = process.row(address);
    let module = process.module_at(address);
    if let Some(row) = &row {
        let module = module.as_ref().expect("a module with the row");
        assert_eq!((module.id, module.cookie), (row.id, row.cookie));
    }
    assert!(module.map_or(true, |module| module.range.contains(&address)));
    compare_walks(process, address, state);
    let context = Context {
        cfa: Some(address),
        ..Context::default()
    };
    for kind in [
        ExpressionKind::FrameCfa,
        ExpressionKind::FrameRegister,
        ExpressionKind::Location,
    ] {
        let _ = evaluate(expression, kind, Target::LITTLE_64, &context, state);
    }
}

/// All walks give the same frames, the first of which has a caller if it has a row.
fn compare_walks(process: &Process, address: u64, state: &State<'_>) {
    let caller = process.unwind(address, state);
    let walk = process.backtrace(address, state, 70);
    assert_eq!(caller.is_err(), walk.is_err());
    let steps: Result<Vec<_>, _> = process.steps(address, state).take(70).collect();
    match (&walk, steps) {
        (Ok(walk), Ok(steps)) => {
            let steps = steps
                .into_iter()
                .map(|step| (step.address, step.caller.map(|c| c.cfa)));
            assert!(steps.eq(walk.into_iter().map(|frame| (frame.address(), frame.cfa()))));
        }
        (walk, steps) => assert!(walk.is_err() && steps.is_err()),
    }
    if let Ok(caller) = caller {
        assert_eq!(process.row(address).is_some(), caller.is_some());
    }
    let mut slots = [Frame::default(); 2];
    assert_eq!(
        walk.is_err(),
        process.backtrace_into(address, state, &mut slots).is_err()
    );
}

/// How many random calls are made. Under valgrind, which is slow, `run.sh` asks for fewer.
fn rounds() -> usize {
    match std::env::var("DWCHECK_ROUNDS") {
        Ok(rounds) => rounds.parse().unwrap(),
        Err(_) => 2000,
    }
}

#[test]
fn every_call_has_an_answer() {
    let mut numbers = Numbers(7);
    for _ in 0..rounds() {
        let mut process = Process::new(numbers.target());
        for _ in 0..numbers.below(3) {
            let section = changed(&mut numbers);
            let mut module = Module::at(numbers.address()).cookie(numbers.next());
            if numbers.below(2) == 0 {
                module = module.range(numbers.address()..=numbers.address());
            }
            let _ = process.add(&section, module.room(numbers.below(1 << 20)));
            let _ = process.add(&section, Module::at(0));
        }
        let registers: Registers = (0..numbers.below(40))
            .map(|_| {
                (
                    numbers.next() as u16 >> numbers.below(16),
                    numbers.address(),
                )
            })
            .collect();
        let (base, length) = (numbers.address(), numbers.below(64));
        let stack = numbers.bytes(length);
        let memory = [Block::new(base, &stack), Block::new(0x1000, &stack)];
        let kept: Vec<u16> = (0..numbers.below(4))
            .map(|_| numbers.next() as u16 % 20)
            .collect();
        let state = State {
            registers: &registers,
            memory: &memory[..numbers.below(3)],
            abi: Abi::new(&kept, Some(numbers.next() as u16 % 20)),
        };
        let expression = numbers.bytes(length % 7);
        ask_all(&process, numbers.address(), &state, &expression);
    }
}
