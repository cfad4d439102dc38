//! Changes SFrame sections at random, and checks each. All happens in one process.
//!
//!     damaged_sframe COUNT SEED PROGRAM..
//!
//! Bytes are changed anywhere, in the header or in the index; fields get numbers that programs don't expect, such as
//! versions and flags that don't exist and counts of 2^32 - 1; entries of the index are copied, so that functions
//! overlap; some sections are cut short; and some are read as big-endian ones, or for another machine. The rows of those
//! that are accepted are read, and looked up at addresses of each function. If one takes more than a second, the program
//! says which one and ends with status 1; a panic ends it, too. At the end it says how many were accepted, how often each
//! rule was broken, and the longest time that one took. A case depends on the seed and its number alone.

#[path = "../../examples/numbers.rs"]
mod numbers;

use dwcheck_elf::program::Program;
use dwcheck_elf::sframe::{SframeError, SframeSection};
use dwcheck_elf::target::Order;
use numbers::Numbers;
use std::borrow::Cow;
use std::collections::BTreeMap;
use std::time::{Duration, Instant};

/// The longest that one section may take.
const LONGEST: Duration = Duration::from_secs(1);

/// Where the fields of the header are, and how many bytes they have.
const FIELDS: [(usize, usize); 12] =
    [(0, 2), (2, 1), (3, 1), (4, 1), (5, 1), (6, 1), (7, 1), (8, 4), (12, 4), (16, 4), (20, 4), (24, 4)];

/// The bytes of the header.
const HEADER: usize = 28;

/// A number that programs often don't expect.
fn odd(numbers: &mut Numbers) -> u64 {
    const ODD: [u64; 10] = [0, 1, 2, 3, 4, 0x7f, 0x80, 0xffff, 1 << 31, u32::MAX as u64];
    ODD[numbers.below(ODD.len())]
}

/// Writes a number into bytes, as far as they go.
fn put(bytes: &mut [u8], place: usize, size: usize, number: u64) {
    let end = (place + size).min(bytes.len());
    if let Some(field) = bytes.get_mut(place..end) {
        let number = number.to_le_bytes();
        field.iter_mut().zip(number).for_each(|(byte, new)| *byte = new);
    }
}

/// Damages a section in one of several ways.
fn damage(bytes: &mut Vec<u8>, numbers: &mut Numbers) {
    let length = bytes.len();
    match numbers.below(7) {
        0 => bytes[numbers.below(length)] = numbers.below(256) as u8,
        1 => {
            let (place, size) = FIELDS[numbers.below(FIELDS.len())];
            put(bytes, place, size, odd(numbers));
        }
        2 => put(bytes, HEADER + numbers.below(length - HEADER), 1 << numbers.below(4), odd(numbers)),
        3 => bytes.truncate(numbers.below(length)),
        4 => {
            // An entry of the index, or a part of one, where another one is.
            let size = [16, 17, 20][numbers.below(3)];
            let (from, to) = (HEADER + size * numbers.below(8), HEADER + size * numbers.below(8));
            if from.max(to) + size <= length {
                bytes.copy_within(from..from + size, to);
            }
        }
        5 => bytes[numbers.below(HEADER.min(length))] ^= 1 << numbers.below(8),
        _ => {
            let (place, run) = (numbers.below(length), 1 + numbers.below(16));
            (place..(place + run).min(length)).for_each(|at| bytes[at] = numbers.below(256) as u8);
        }
    }
}

/// Checks a section and looks up rows. The name of what was found.
fn checked(section: &SframeSection<'_>) -> &'static str {
    let sframe = match section.check() {
        Ok(sframe) => sframe,
        Err(SframeError::Refused(fault)) => return fault.kind.name(),
        Err(SframeError::Machine(_)) => return "machine",
    };
    for function in sframe.functions() {
        let rows = sframe.rows(function).collect::<Vec<_>>();
        let is_inside = |row: &dwcheck_elf::sframe::SframeRow| {
            row.row.begin < row.row.end && function.begin <= row.row.begin && row.row.end <= function.end
        };
        assert!(rows.iter().all(is_inside), "a row outside of its function");
        assert!(rows.windows(2).all(|pair| pair[0].row.end == pair[1].row.begin), "rows with gaps");
        let last = function.end.saturating_sub(1).max(function.begin);
        for address in [function.begin, last] {
            let found = sframe.row(address);
            let is_there = found.map_or(true, |row| (row.row.begin..row.row.end).contains(&address));
            assert!(is_there, "a row that isn't that of its address");
        }
    }
    "accepted"
}

fn main() {
    let mut words = std::env::args().skip(1);
    let mut number = || words.next().and_then(|word| word.parse::<u64>().ok());
    let (count, seed) = match (number(), number()) {
        (Some(count), Some(seed)) => (count, seed),
        _ => panic!("damaged_sframe COUNT SEED PROGRAM.."),
    };
    let files: Vec<_> = words.map(|path| std::fs::read(path).expect("a file that can be read")).collect();
    let programs: Vec<_> = files.iter().map(|data| Program::read(data).expect("an ELF file")).collect();
    let read = |program| SframeSection::read(program).expect("a section that can be read").expect("an SFrame section");
    let sections: Vec<_> = programs.iter().map(read).collect();
    let mut found: BTreeMap<&str, u64> = BTreeMap::new();
    let mut longest = Duration::ZERO;
    for case in 0..count {
        let mut numbers = Numbers::of(seed, case);
        let mut section = sections[numbers.below(sections.len())].clone();
        let mut bytes = section.source.bytes.into_owned();
        for _ in 0..1 + numbers.below(3) {
            if bytes.len() > HEADER {
                damage(&mut bytes, &mut numbers);
            }
        }
        section.source.bytes = Cow::Owned(bytes);
        match numbers.below(16) {
            0 => section.target.order = Order::Big,
            1 => section.machine = [62, 183, 22, 3][numbers.below(4)],
            2 => section.is_object = true,
            _ => {}
        }
        let start = Instant::now();
        *found.entry(checked(&section)).or_insert(0) += 1;
        let took = start.elapsed();
        longest = longest.max(took);
        if took > LONGEST {
            println!("case {} took {:?}", case, took);
            std::process::exit(1);
        }
    }
    found.iter().for_each(|(name, count)| println!("{} {}", name, count));
    println!("sections {} longest {:?}", count, longest);
}
