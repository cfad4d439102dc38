//! Changes bytes of the debug information of ELF files at random, and reads each changed copy: all location
//! lists are checked, and variables are looked up at addresses all over the code. Nothing may panic, take
//! longer than `SECONDS` for a copy. Prints the seed and the number of each copy that does, and then what came
//! of all of them. With `ulimit -v`, a copy that takes too much memory ends the process.
//!
//! ```text
//! cargo build --release --example damage_debug_info
//! (ulimit -v 1048576; damage_debug_info COUNT SEED FILE..)
//! ```
use dwcheck::{Block, Registers};
use dwcheck_elf::debug_files::DebugFiles;
use dwcheck_elf::inspect::{Check, Verdict};
use dwcheck_elf::lists::inspect_lists;
use dwcheck_elf::program::Program;
use dwcheck_elf::variables::{Frame, Shape, Step, Variables};
use object::{Object, ObjectSection};
use std::collections::BTreeMap;
use std::env::args;
use std::ops::Range;
use std::panic::catch_unwind;
use std::process::ExitCode;
use std::time::{Duration, Instant};

/// The sections whose bytes are changed.
const SECTIONS: [&str; 12] = [
    ".debug_info",
    ".debug_abbrev",
    ".debug_loclists",
    ".debug_loc",
    ".debug_str",
    ".debug_line",
    ".debug_line_str",
    ".debug_addr",
    ".debug_rnglists",
    ".debug_ranges",
    ".debug_str_offsets",
    ".debug_types",
];

/// The longest time that a copy may take.
const SECONDS: u64 = 10;

/// At how many addresses variables are looked up in each copy.
const ADDRESSES: u64 = 12;

/// Pseudorandom numbers, the same for a seed (xorshift).
struct Numbers(u64);

impl Numbers {
    fn of(seed: u64) -> Self {
        let mut numbers = Numbers(seed.wrapping_mul(0x9e37_79b9_7f4a_7c15) | 1);
        (0..8).for_each(|_| _ = numbers.below(2));
        numbers
    }

    fn below(&mut self, limit: usize) -> usize {
        self.0 ^= self.0 << 13;
        self.0 ^= self.0 >> 7;
        self.0 ^= self.0 << 17;
        (self.0 % limit.max(1) as u64) as usize
    }

    /// Changes one to eight places of sections: a bit, a byte, or a number of 2, 4 or 8 bytes.
    fn damage(&mut self, bytes: &mut [u8], sections: &[Range<usize>]) {
        const BYTES: [u8; 10] = [0, 1, 0x7f, 0x80, 0xff, 0xfe, 0x10, 0x9b, 0xa3, 0x28];
        const NUMBERS: [u64; 6] = [0, 1, u64::MAX, 1 << 32, 0xffff_fff0, 0x7fff_ffff];
        for _ in 0..[1, 1, 2, 3, 8][self.below(5)] {
            let section = sections[self.below(sections.len())].clone();
            let at = section.start + self.below(section.len());
            match self.below(4) {
                0 => bytes[at] ^= 1 << self.below(8),
                1 => bytes[at] = BYTES[self.below(BYTES.len())],
                2 => bytes[at] = self.below(256) as u8,
                _ => {
                    let end = section.end.min(at + [2, 4, 8][self.below(3)]);
                    let number = NUMBERS[self.below(NUMBERS.len())].to_le_bytes();
                    bytes[at..end].iter_mut().zip(number).for_each(|(byte, new)| *byte = new);
                }
            }
        }
    }
}

/// A file before it is changed: its bytes, the places of the sections that are changed, and addresses of code.
struct Whole {
    bytes: Vec<u8>,
    sections: Vec<Range<usize>>,
    addresses: Vec<u64>,
}

impl Whole {
    fn read(path: &str) -> Self {
        let bytes = std::fs::read(path).unwrap_or_else(|error| panic!("{}: {}", path, error));
        let file = object::File::parse(&*bytes).unwrap_or_else(|error| panic!("{}: {}", path, error));
        let range = |name: &&str| {
            let (begin, size) = file.section_by_name(name)?.file_range().filter(|(_, size)| *size > 0)?;
            Some(begin as usize..(begin + size) as usize)
        };
        let sections: Vec<_> = SECTIONS.iter().filter_map(range).collect();
        assert!(!sections.is_empty(), "{}: no debug information", path);
        let text = file.section_by_name(".text").map_or(0..0, |text| text.address()..text.address() + text.size());
        let step = ((text.end - text.start) / ADDRESSES).max(1) as usize;
        let addresses = text.step_by(step).collect();
        Whole { bytes, sections, addresses }
    }
}

/// Reads everything that a copy has. Returns what came of it in words.
fn read(bytes: &[u8], addresses: &[u64]) -> &'static str {
    let program = match Program::read(bytes) {
        Ok(program) => program,
        Err(_) => return "no ELF file",
    };
    let sections = inspect_lists(&program, None, None, Check { all: true, doubtful: true, ..Check::default() });
    let files = DebugFiles::default();
    if let Ok(variables) = Variables::read(&program, None, &files) {
        addresses.iter().for_each(|address| look_up(&program, &variables, *address));
    }
    let is_unread = |verdict: &Verdict| matches!(verdict, Verdict::Unread(_));
    match sections.iter().map(|section| &section.verdict).max_by_key(|verdict| is_unread(verdict)) {
        Some(verdict) if is_unread(verdict) => "lists unread",
        _ if sections.iter().any(|section| matches!(section.verdict, Verdict::Refused(_))) => "lists refused",
        _ => "lists accepted",
    }
}

/// Shows the variables at an address, with registers that lead into a small stack, whose words are small numbers and
/// pointers into it.
fn look_up(program: &Program<'_>, variables: &Variables<'_>, address: u64) {
    const STACK: u64 = 0x7000;
    let registers: Registers = (0..33).map(|number| (number, STACK + 0x100 + 8 * u64::from(number))).collect();
    let word = |number: u64| if number % 3 == 0 { number / 7 } else { STACK + number * 136 % 4096 };
    let stack: Vec<u8> = (0..512u64).flat_map(|number| word(number).to_le_bytes()).collect();
    let memory = [Block::new(STACK, &stack)];
    let step = |address, is_after_call| Step {
        address,
        is_after_call,
        registers: registers.clone(),
        cfa: Some(STACK + 0x200),
    };
    let steps = [step(address, false), step(address + 5, true)];
    let frame = Frame {
        target: program.target(),
        load: 0,
        steps: &steps,
        memory: &memory,
        file: None,
        thread_pointer: Some(STACK),
    };
    let functions = variables.at(&frame, Shape { depth: 3, pointers: 3, ..Shape::default() });
    let text: String = functions.iter().map(|function| format!("{}{}", function, function.json())).collect();
    assert!(text.len() < 100_000_000, "{}", text.len());
}

fn main() -> ExitCode {
    let words: Vec<String> = args().skip(1).collect();
    let number = |place: usize| words.get(place).and_then(|word| word.parse().ok());
    let (count, seed): (u64, u64) = match (number(0), number(1), words.len()) {
        (Some(count), Some(seed), 3..) => (count, seed),
        _ => panic!("give COUNT SEED FILE.."),
    };
    let files: Vec<_> = words[2..].iter().map(|path| Whole::read(path)).collect();
    let (mut came, mut problems, mut longest) = (BTreeMap::new(), 0, Duration::ZERO);
    for copy in 0..count {
        let mut numbers = Numbers::of(seed.wrapping_mul(1_000_000_007).wrapping_add(copy));
        let file = &files[numbers.below(files.len())];
        let mut bytes = file.bytes.clone();
        numbers.damage(&mut bytes, &file.sections);
        let begin = Instant::now();
        let found = catch_unwind(|| read(&bytes, &file.addresses)).unwrap_or("PANIC");
        let took = begin.elapsed();
        longest = longest.max(took);
        *came.entry(found).or_insert(0) += 1;
        if found == "PANIC" || took > Duration::from_secs(SECONDS) {
            problems += 1;
            println!("seed {} copy {}: {} after {:?}", seed, copy, found, took);
        }
    }
    let came: Vec<_> = came.into_iter().map(|(what, count)| format!("{} {}", what, count)).collect();
    println!("copies {} problems {} longest {:?}: {}", count, problems, longest, came.join(", "));
    ExitCode::from(u8::from(problems > 0))
}
