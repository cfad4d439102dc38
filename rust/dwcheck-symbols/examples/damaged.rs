//! Reads symbol files whose bytes were changed at random, in one process: `damaged COUNT SEED SYMBOLS..`. Each has to give
//! an answer to each question, also with a damaged index, and none takes long.

#[path = "../../examples/numbers.rs"]
mod numbers;

use dwcheck_symbols::{Index, Stamp, SymbolFile};
use numbers::Numbers;
use std::error::Error;
use std::time::{Duration, Instant};

/// Words that are often wrong.
const ODD: [&str; 12] = [
    "0",
    "1",
    "-1",
    "ffffffffffffffff",
    "10000000000000000",
    "18446744073709551615",
    "STACK CFI ",
    "INLINE 0 1 0 0 ",
    "FUNC ",
    ".cfa: ",
    "\r",
    "\n",
];

/// How long the answers of one file may take.
const LONGEST: Duration = Duration::from_secs(5);

/// How many addresses are asked for.
const ASKED: usize = 20;

/// A copy in which some bytes are others, words are put in, or parts are repeated. Some copies are cut off.
fn changed(numbers: &mut Numbers, whole: &[u8]) -> Vec<u8> {
    let mut bytes = whole.to_vec();
    for _ in 0..1 + numbers.below(8) {
        let at = numbers.below(bytes.len());
        match numbers.below(4) {
            0 => bytes[at] = numbers.below(256) as u8,
            1 => bytes[at] ^= 1 << numbers.below(8),
            2 => drop(bytes.splice(at..at, ODD[numbers.below(ODD.len())].bytes())),
            _ => {
                let end = (at + numbers.below(400)).min(bytes.len());
                bytes.extend_from_within(at..end);
            }
        }
    }
    if numbers.below(10) == 0 {
        bytes.truncate(numbers.below(bytes.len()));
    }
    bytes
}

/// An index in which a number is another one.
fn changed_index(numbers: &mut Numbers, index: &Index<'_>) -> Vec<u8> {
    let mut bytes = index.bytes().to_vec();
    let at = numbers.below(bytes.len() - 8) / 8 * 8;
    let number = [0, 1, u64::MAX, 1 << 63, numbers.any(), numbers.any() & 0xffff][numbers.below(6)];
    bytes[at..at + 8].copy_from_slice(&number.to_le_bytes());
    bytes
}

/// Asks a symbol file for some addresses, and returns how many have an answer.
fn ask(symbols: &SymbolFile<'_>, numbers: &mut Numbers) -> usize {
    let covered: Vec<_> = symbols.covered().take(1 << 16).collect();
    let mut answers = 0;
    for _ in 0..ASKED {
        let range = covered.get(numbers.below(covered.len())).cloned().unwrap_or(0..1);
        let address = range.start.wrapping_add(numbers.below(64) as u64);
        let row = symbols.row(address);
        if let (Some(row), Some(architecture)) = (&row, symbols.architecture()) {
            assert!((row.begin..row.end).contains(&address));
            answers += row.rules.expressions(architecture).len();
        }
        if let Some(position) = symbols.position(address) {
            assert!(position.begin <= address);
            answers += 1 + position.inlined.len();
        }
    }
    answers
}

fn main() -> Result<(), Box<dyn Error>> {
    let words: Vec<_> = std::env::args().skip(1).collect();
    let (count, seed) = match words.as_slice() {
        [count, seed, _, ..] => (count.parse::<usize>()?, seed.parse::<u64>()?),
        _ => return Err("usage: damaged COUNT SEED SYMBOLS..".into()),
    };
    let files = words[2..].iter().map(std::fs::read).collect::<Result<Vec<_>, _>>()?;
    let (mut read, mut answers, mut indexes) = (0, 0, 0);
    for number in 0..count {
        let mut numbers = Numbers::of(seed, number as u64);
        let bytes = changed(&mut numbers, &files[number % files.len()]);
        let begin = Instant::now();
        if let Ok(symbols) = SymbolFile::read(&bytes) {
            answers += ask(&symbols, &mut numbers);
            assert!(symbols.rows().count() <= bytes.len());
            let index = changed_index(&mut numbers, symbols.index());
            if let Ok(index) = Index::kept(&index, &bytes, Stamp::default()) {
                ask(&SymbolFile::with_index(&bytes, index)?, &mut numbers);
                indexes += 1;
            }
            read += 1;
        }
        assert!(begin.elapsed() < LONGEST, "file {} takes {:?}", number, begin.elapsed());
    }
    println!(
        "files {} read {} answers {} with another index {} refused {}",
        count,
        read,
        answers,
        indexes,
        count - read
    );
    Ok(())
}
