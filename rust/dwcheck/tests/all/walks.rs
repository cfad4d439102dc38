//! Tests of `unwind`, `backtrace` and `steps`. Most sections and their results are from
//! docs/WORKED.md.

use crate::common::*;
use dwcheck::{
    Abi, Answer, Backtrace, Block, Cache, Cursor, Error, Frame, Process, Registers, Section, State,
    Step, Stop, Target,
};

fn words(words: &[u64]) -> Vec<u8> {
    words.iter().flat_map(|word| word.to_le_bytes()).collect()
}

/// The address of each frame of a walk, and its CFA, `None` if the CFA has no value.
fn shown(walk: &Backtrace) -> Vec<(u64, Option<u64>)> {
    walk.into_iter()
        .map(|frame| (frame.address(), frame.cfa().and_then(Answer::value)))
        .collect()
}

fn value(value: u64) -> Option<Answer> {
    Some(Answer::Value(value))
}

#[test]
fn callers_of_row_1() {
    let process = process_at(&row_1(), 0);
    let registers = Registers::from([(6, 0x7f00)]);
    let (low, high) = (words(&[0x8000]), words(&[0x1234]));
    let memory = [Block::new(0x7f00, &low), Block::new(0x7f08, &high)];
    let mut state = State {
        registers: &registers,
        memory: &memory,
        abi: Abi::NONE,
    };
    let caller = process.unwind(0x1010, &state).unwrap().unwrap();
    assert_eq!(caller.cfa, Answer::Value(0x7f10));
    assert_eq!(
        caller.registers,
        [(6, Answer::Value(0x8000)), (16, Answer::Value(0x1234))]
    );
    assert_eq!(caller.return_address, Answer::Value(0x1234));
    assert_eq!(caller.register(16), value(0x1234));
    assert_eq!(caller.register(7), None);
    assert_eq!(caller.known(), Registers::from([(6, 0x8000), (16, 0x1234)]));
    assert_eq!(process.unwind(0x1020, &state), Ok(None));

    state.memory = &[];
    let caller = process.unwind(0x1010, &state).unwrap().unwrap();
    assert_eq!(caller.cfa, Answer::Value(0x7f10));
    assert_eq!(
        caller.registers,
        [(6, Answer::Unreadable), (16, Answer::Unreadable)]
    );
    assert_eq!(caller.return_address, Answer::Unreadable);
    assert_eq!(caller.known(), Registers::new());

    let nothing = Registers::new();
    state.registers = &nothing;
    let caller = process.unwind(0x1010, &state).unwrap().unwrap();
    assert_eq!(caller.cfa, Answer::Unreadable);
}

#[test]
fn callers_by_expressions() {
    let process = process_at(&x(), 0);
    let registers = Registers::from([(7, 0x7f00)]);
    let (above, at) = (words(&[5]), words(&[0x1234]));
    let memory = [Block::new(0x7f10, &above), Block::new(0x7f00, &at)];
    let state = State {
        registers: &registers,
        memory: &memory,
        abi: Abi::NONE,
    };
    let caller = process.unwind(0x1000, &state).unwrap().unwrap();
    assert_eq!(caller.cfa, Answer::Value(0x7f08));
    assert_eq!(
        caller.registers,
        [
            (6, Answer::Value(5)),
            (7, Answer::Value(0x7f08)),
            (16, Answer::Value(0x1234))
        ]
    );
}

#[test]
fn callers_under_an_abi() {
    let process = process_at(&row_1(), 0);
    let registers = Registers::from([(6, 5), (7, 0x7f08)]);
    let stack = words(&[0x1234]);
    let memory = [Block::new(0x7f08, &stack)];
    let mut state = State {
        registers: &registers,
        memory: &memory,
        abi: Abi::new(&[6], Some(7)),
    };
    let caller = process.unwind(0x1000, &state).unwrap().unwrap();
    assert_eq!(
        caller.registers,
        [
            (6, Answer::Value(5)),
            (7, Answer::Value(0x7f10)),
            (16, Answer::Value(0x1234))
        ]
    );
    state.abi = Abi::NONE;
    let caller = process.unwind(0x1000, &state).unwrap().unwrap();
    assert_eq!(caller.registers, [(16, Answer::Value(0x1234))]);
}

#[test]
fn abis_that_are_refused() {
    let process = process_at(&row_1(), 0);
    let refused = |kept: &[u16], stack_pointer| {
        let state = State {
            registers: &Registers::new(),
            memory: &[],
            abi: Abi::new(kept, stack_pointer),
        };
        let unwound = process.unwind(0x1000, &state).err();
        assert_eq!(process.backtrace(0x1000, &state, 9).err(), unwound);
        let fault = unwound?.fault().unwrap();
        assert_eq!(fault.section, Section::Abi);
        Some((fault.name(), fault.offset))
    };
    let many: Vec<u16> = (0..128).collect();
    assert_eq!(refused(&[6, 7, 6], None), Some(("AbiTwice", 2)));
    assert_eq!(refused(&[6, 7, 6], Some(7)), Some(("AbiTwice", 2)));
    assert_eq!(refused(&[7], Some(7)), Some(("AbiTwice", 1)));
    assert_eq!(refused(&[7], Some(6)), None);
    assert_eq!(refused(&[], Some(65535)), None);
    assert_eq!(refused(&many, None), Some(("AbiTooLarge", 127)));
    assert_eq!(refused(&[0; 128], Some(0)), Some(("AbiTooLarge", 127)));
    assert_eq!(refused(&many[..127], Some(127)), None);
    assert_eq!(refused(&many[..127], Some(126)), Some(("AbiTwice", 127)));
    for abi in [Abi::AARCH64, Abi::ARM, Abi::I386, Abi::MIPS, Abi::POWERPC] {
        assert_eq!(refused(abi.kept, abi.stack_pointer), None);
    }
    for abi in [Abi::RISCV, Abi::S390X, Abi::X86_64] {
        assert_eq!(refused(abi.kept, abi.stack_pointer), None);
    }
}

#[test]
fn a_walk_and_its_ends() {
    let process = process_at(&row_1(), 0);
    let registers = Registers::from([(6, 0x7f00)]);
    let (first, second) = (words(&[0x7f40, 0x1020]), words(&[0, 0x2000]));
    let memory = [Block::new(0x7f00, &first), Block::new(0x7f40, &second)];
    let walk = |memory: &[Block<'_>], limit| {
        let state = State {
            registers: &registers,
            memory,
            abi: Abi::NONE,
        };
        let walk = process.backtrace(0x1010, &state, limit).unwrap();
        (shown(&walk), walk.stop)
    };
    let frames = [
        (0x1010, Some(0x7f10)),
        (0x1020, Some(0x7f50)),
        (0x2000, None),
    ];
    for limit in [4, 9, 65, usize::MAX] {
        assert_eq!(walk(&memory, limit), (frames.to_vec(), Stop::NotCovered));
    }
    for limit in 0..=3 {
        assert_eq!(
            walk(&memory, limit),
            (frames[..limit].to_vec(), Stop::Limit)
        );
    }
    let short = [memory[0], Block::new(0x7f40, &second[..8])];
    assert_eq!(
        walk(&short, 9),
        (frames[..2].to_vec(), Stop::ReturnUnreadable)
    );
    assert_eq!(walk(&short, 2), (frames[..2].to_vec(), Stop::Limit));
    let only = [Block::new(0x7f08, &first[8..])];
    let (found, stop) = walk(&only, 9);
    assert_eq!((&found[..1], found[1]), (&frames[..1], (0x1020, None)));
    assert_eq!(stop, Stop::ReturnUnreadable);
}

#[test]
fn walks_with_a_cache() {
    let (first, second) = (words(&[0x7f40, 0x1020]), words(&[0, 0x2000]));
    let memory = [Block::new(0x7f00, &first), Block::new(0x7f40, &second)];
    let registers = Registers::from([(6, 0x7f00)]);
    let state = State {
        registers: &registers,
        memory: &memory,
        abi: Abi::NONE,
    };
    let mut process = Process::new(Target::LITTLE_64);
    let module = add(&mut process, &row_1(), 0).unwrap();
    let other = process_at(&row_1(), 0x7000);
    let mut cache = Cache::new();
    let mut walk = |process: &Process| {
        let mut slots = [Frame::default(); 9];
        let whole = process.backtrace(0x1010, &state, 9).unwrap();
        let (frames, stop) = process
            .backtrace_cached(0x1010, &state, &mut slots, &mut cache)
            .unwrap();
        assert_eq!((frames, stop), (whole.frames.as_slice(), whole.stop));
        frames.len()
    };
    assert_eq!([walk(&process), walk(&process)], [3, 3]);
    assert_eq!([walk(&other), walk(&process)], [1, 3]);
    assert!(process.remove(module));
    assert_eq!(walk(&process), 1);
}

#[test]
fn a_cursor_keeps_registers_and_goes_on_from_a_copy() {
    let process = process_at(&row_1(), 0);
    let registers = Registers::from([(3, 5), (6, 0x7f00), (12, 7), (95, 9)]);
    let stack = words(&[0x7f40, 0x1020]);
    let memory = [Block::new(0x7f00, &stack)];
    let state = State {
        registers: &registers,
        memory: &memory,
        abi: Abi::new(&[3, 6], Some(7)),
    };
    let mut cursor = Cursor::new(0x1010, &state).unwrap();
    let copy = cursor.clone();
    assert_eq!(
        (cursor.register(95), cursor.register(12)),
        (Some(9), Some(7))
    );
    let frame = process.step(&mut cursor, &state).unwrap().unwrap();
    assert_eq!((frame.address(), frame.cfa()), (0x1010, value(0x7f10)));
    assert_eq!((cursor.address(), cursor.stop()), (0x1020, None));
    // 3 is callee-saved, 6 was saved in memory, 7 is the CFA, and the others aren't known.
    let found: Vec<_> = (0..200)
        .filter_map(|n| Some((n, cursor.register(n)?)))
        .collect();
    assert_eq!(found, [(3, 5), (6, 0x7f40), (7, 0x7f10), (16, 0x1020)]);

    // The caller's own return address isn't in memory: the walk ends, and its registers stay.
    let frame = process.step(&mut cursor, &state).unwrap().unwrap();
    assert_eq!((frame.address(), frame.cfa()), (0x1020, value(0x7f50)));
    assert_eq!(
        (cursor.address(), cursor.stop()),
        (0x1020, Some(Stop::ReturnUnreadable))
    );
    assert_eq!(cursor.register(6), Some(0x7f40));
    assert_eq!(process.step(&mut cursor, &state), Ok(None));

    let mut again = copy;
    assert!(process.step(&mut again, &state).unwrap().is_some());
    assert_eq!(again.address(), 0x1020);
    // At 0x1020 itself there is no row.
    again.set_interrupted();
    assert_eq!(
        process.step(&mut again, &state).unwrap().unwrap().cfa(),
        None
    );
    assert_eq!(again.stop(), Some(Stop::NotCovered));
}

#[test]
fn registers_without_a_place_are_refused_by_a_cursor() {
    let process = Process::new(Target::LITTLE_64);
    let mut state = State {
        registers: &Registers::from([(96, 1)]),
        memory: &[],
        abi: Abi::NONE,
    };
    assert_eq!(Cursor::new(0, &state).err(), Some(Error::NoPlace));
    assert_eq!(process.frames(0, &state).err(), Some(Error::NoPlace));
    let nothing = Registers::new();
    state.registers = &nothing;
    let mut cursor = Cursor::at_caller(0, &state).unwrap();
    // There is no address before 0 that could be looked up.
    assert_eq!(
        process
            .step(&mut cursor, &state)
            .unwrap()
            .unwrap()
            .address(),
        0
    );
    assert_eq!(cursor.stop(), Some(Stop::NotCovered));
}

#[test]
fn frames_end_after_an_error() {
    // def_cfa r7 + 16, offset r16, and offset_extended r97 (DWARF 5, 6.4.2.3)
    let process = process_at(&with_program("0c0710 9001 056102"), 0);
    let registers = Registers::from([(7, 0x7f00)]);
    let stack = words(&[5, 0x1010]);
    let memory = [Block::new(0x7f00, &stack)];
    let state = State {
        registers: &registers,
        memory: &memory,
        abi: Abi::X86_64,
    };
    let mut frames = process.frames(0x1010, &state).unwrap();
    assert_eq!(frames.next(), Some(Err(Error::NoPlace)));
    assert_eq!(frames.next(), None);
    assert_eq!(frames.cursor().address(), 0x1010);
}

#[test]
fn walks_into_slots() {
    let process = process_at(&row_1(), 0);
    let registers = Registers::from([(6, 0x7f00)]);
    let stack = words(&[0, 0x2000]);
    let memory = [Block::new(0x7f00, &stack)];
    let state = State {
        registers: &registers,
        memory: &memory,
        abi: Abi::X86_64,
    };
    let mut slots = [Frame::default(); 3];
    let (frames, stop) = process.backtrace_into(0x1010, &state, &mut slots).unwrap();
    assert_eq!((frames.len(), stop), (2, Stop::NotCovered));
    assert_eq!(frames[0].cfa(), value(0x7f10));
    assert_eq!((frames[1].address(), frames[1].cfa()), (0x2000, None));
    let (frames, stop) = process.backtrace_into(0x1010, &state, &mut []).unwrap();
    assert_eq!((frames.len(), stop), (0, Stop::Limit));
}

/// The section of [`with_program`], but with 0 as the initial location of its FDE.
fn from_0(program: &str) -> Vec<u8> {
    let mut section = with_program(program);
    section[33] = 0;
    section
}

/// Walks through the section of [`from_0`], from the frame at address 3, where register 7 is 0x10.
/// Also compares the walk with `steps` and with `frames`.
fn walk_from_3(program: &str, limit: usize) -> Backtrace {
    let process = process_at(&from_0(program), 0);
    let registers = Registers::from([(7, 0x10)]);
    let state = State {
        registers: &registers,
        memory: &[],
        abi: Abi::NONE,
    };
    let walk = process.backtrace(3, &state, limit).unwrap();
    let steps = process.steps(3, &state).take(limit).map(Result::unwrap);
    assert!(steps.eq_frames(&walk));
    let mut frames = process.frames(3, &state).unwrap();
    let taken: Result<Vec<Frame>, Error> = frames.by_ref().take(limit).collect();
    assert_eq!(taken.as_ref(), Ok(&walk.frames));
    if walk.frames.len() < limit {
        assert_eq!(frames.cursor().stop(), Some(walk.stop));
        assert_eq!(frames.next(), None);
    }
    walk
}

/// For comparing the frames of `steps` with those of a walk.
trait EqFrames {
    fn eq_frames(self, walk: &Backtrace) -> bool;
}

impl<T: Iterator<Item = Step>> EqFrames for T {
    fn eq_frames(self, walk: &Backtrace) -> bool {
        self.map(|step| (step.address, step.caller.map(|caller| caller.cfa)))
            .eq(walk.into_iter().map(|frame| (frame.address(), frame.cfa())))
    }
}

#[test]
fn walks_that_go_on() {
    for limit in [1, 63, 64, 65, 256, 257, 65535] {
        let walk = walk_from_3("0f 01 3f 14 10 01", limit);
        assert_eq!((walk.frames.len(), walk.stop), (limit, Stop::Limit));
        let frames = shown(&walk);
        assert_eq!(frames[0], (3, Some(0xf)));
        assert!(frames[1..].iter().all(|frame| *frame == (7, Some(0xf))));
    }
}

#[test]
fn walks_that_end() {
    let walk = walk_from_3("0f 01 3f 16 10 01 30", 9);
    assert_eq!(shown(&walk), [(3, Some(0xf)), (0, None)]);
    assert_eq!(walk.stop, Stop::NotCovered);
    assert_eq!(walk_from_3("0f 01 3f 16 10 01 30", 2).stop, Stop::Limit);
    for (program, stop, answer) in [
        ("07 10", Stop::ReturnUndefined, Answer::Undefined),
        (
            "16 10 03 31301b",
            Stop::ReturnDivisionByZero,
            Answer::DivisionByZero,
        ),
    ] {
        let process = process_at(&from_0(program), 0);
        let state = State {
            registers: &Registers::from([(7, 0x10)]),
            memory: &[],
            abi: Abi::NONE,
        };
        let caller = process.unwind(3, &state).unwrap().unwrap();
        assert_eq!(caller.return_address, answer);
        assert_eq!(caller.registers, [(16, answer)]);
        let walk = walk_from_3(program, 9);
        assert_eq!((shown(&walk), walk.stop), (vec![(3, Some(0x18))], stop));
        assert_eq!(walk_from_3(program, 1).stop, Stop::Limit);
    }
    assert_eq!(
        Stop::ReturnDivisionByZero.to_string(),
        "return division by zero"
    );
}

/// A process that has row 1's section at two load addresses, and the frames (addresses and CFAs) of
/// the walk through both modules. The walk begins at 0x201010, with 0x7000 in register 6 and
/// `STACK` in memory at 0x7000.
fn two_modules() -> (Process, [(u64, Option<u64>); 3]) {
    let mut process = process_at(&row_1(), 0x100000);
    add(&mut process, &row_1(), 0x200000).unwrap();
    let frames = [
        (0x201010, Some(0x7010)),
        (0x101010, Some(0x7030)),
        (0x5000, None),
    ];
    (process, frames)
}

const STACK: [u64; 6] = [0x7020, 0x101010, 0, 0, 0, 0x5000];

/// If a return address is 0, its frame is not covered, because there is no address before 0. The
/// second module here covers the highest address, 2^64 - 1, and must not be found instead.
#[test]
fn a_frame_at_0_is_not_covered() {
    let mut process = process_at(&from_0("0f 01 3f 16 10 01 30"), 0);
    add(&mut process, &row_1(), 0u64.wrapping_sub(0x1020)).unwrap();
    assert!(process.row(u64::MAX).is_some());
    let state = State {
        registers: &Registers::from([(7, 0x10)]),
        memory: &[],
        abi: Abi::NONE,
    };
    let walk = process.backtrace(3, &state, 9).unwrap();
    assert_eq!(shown(&walk), [(3, Some(0xf)), (0, None)]);
    let steps = process.steps(3, &state).take(9).map(Result::unwrap);
    assert!(steps.eq_frames(&walk));
}

#[test]
fn walks_through_modules() {
    let (process, frames) = two_modules();
    let (registers, stack) = (Registers::from([(6, 0x7000)]), words(&STACK));
    let memory = [Block::new(0x7000, &stack)];
    let state = State {
        registers: &registers,
        memory: &memory,
        abi: Abi::NONE,
    };
    let walk = process.backtrace(0x201010, &state, 9).unwrap();
    assert_eq!(
        (shown(&walk), walk.stop),
        (frames.to_vec(), Stop::NotCovered)
    );

    // the same walk by steps, with registers
    let steps: Vec<_> = process
        .steps(0x201010, &state)
        .take(9)
        .map(Result::unwrap)
        .collect();
    assert!(steps.iter().cloned().eq_frames(&walk));
    let register = |n: usize, number| steps[n].caller.as_ref().unwrap().register(number);
    assert_eq!(
        [register(0, 6), register(0, 16)],
        [value(0x7020), value(0x101010)]
    );
    assert_eq!([register(1, 6), register(1, 16)], [value(0), value(0x5000)]);
    assert_eq!(steps[2].caller, None);
}

#[test]
fn single_calls_through_modules() {
    let (process, _) = two_modules();
    let (registers, stack) = (Registers::from([(6, 0x7000)]), words(&STACK));
    let memory = [Block::new(0x7000, &stack)];
    let mut state = State {
        registers: &registers,
        memory: &memory,
        abi: Abi::NONE,
    };
    let first = process.unwind(0x201010, &state).unwrap().unwrap();
    let known = first.known();
    assert_eq!(known, Registers::from([(6, 0x7020), (16, 0x101010)]));
    // the caller is looked up at its return address minus one
    state.registers = &known;
    let second = process.unwind(0x10100f, &state).unwrap().unwrap();
    assert_eq!(
        (second.cfa, second.register(6)),
        (Answer::Value(0x7030), value(0))
    );
    assert_eq!(second.return_address, Answer::Value(0x5000));
    assert_eq!(process.unwind(0x4fff, &state), Ok(None));
}

#[test]
fn without_a_module_nothing_is_covered() {
    let process = Process::new(Target::LITTLE_64);
    let state = State {
        registers: &Registers::from([(65535, 1)]),
        memory: &[Block::new(u64::MAX, &[1, 2, 3])],
        abi: Abi::X86_64,
    };
    for address in [0, 0x10, u64::MAX] {
        let walk = process.backtrace(address, &state, usize::MAX).unwrap();
        assert_eq!(
            (shown(&walk), walk.stop),
            (vec![(address, None)], Stop::NotCovered)
        );
        assert_eq!(process.unwind(address, &state), Ok(None));
    }
}

/// Memory blocks may overlap, be empty, or run past the highest address.
#[test]
fn blocks_anywhere() {
    let bytes = words(&[0x7f40, 0x1020, 3, 4]);
    let empty = Block::new(5, &[]);
    let top = Block::new(u64::MAX - 3, &bytes);
    let memory = [
        empty,
        top,
        Block::new(0x7f00, &bytes),
        Block::new(0x7f08, &bytes),
    ];
    let process = process_at(&row_1(), 0);
    for base in [0, 0x7f00, u64::MAX - 7, u64::MAX - 16, u64::MAX] {
        let state = State {
            registers: &Registers::from([(6, base), (7, base)]),
            memory: &memory,
            abi: Abi::X86_64,
        };
        for address in 0x1000..0x1020 {
            let result = process.backtrace(address, &state, 5);
            assert!(!matches!(result, Err(Error::Other(_))));
        }
        let caller = process.unwind(0x1010, &state).unwrap().unwrap();
        let want = match base {
            0x7f00 => Answer::Value(0x1020),
            _ => Answer::Unreadable,
        };
        assert_eq!(caller.return_address, want, "{:#x}", base);
    }
}
