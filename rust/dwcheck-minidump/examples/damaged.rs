//! Reads minidumps whose bytes were changed at random, in one process: `damaged COUNT SEED MINIDUMP..`. Each has to give an
//! answer, of which no more is copied than the file has. bench/elf/damage.py does the same with the whole program.

#[path = "../../examples/numbers.rs"]
mod numbers;

use dwcheck_minidump::Minidump;
use numbers::Numbers;
use std::error::Error;

/// Numbers that are often wrong: counts, sizes and offsets.
const ODD: [u32; 10] = [0, 1, 2, 0xff, 0xffff, 1_000_000, 0x3fff_ffff, 0x7fff_ffff, 0xffff_fff0, u32::MAX];

/// A copy in which some numbers of 4 bytes are others, mostly in the first part. Some copies are cut off.
fn changed(numbers: &mut Numbers, whole: &[u8]) -> Vec<u8> {
    let mut bytes = whole.to_vec();
    for _ in 0..1 + numbers.below(6) {
        let end = if numbers.below(3) == 0 { bytes.len() } else { bytes.len().min(6000) };
        let at = numbers.below(end.saturating_sub(4)) / 4 * 4;
        let size = bytes.len() as u32;
        let number = match numbers.below(4) {
            0 => ODD[numbers.below(ODD.len())],
            1 => size.wrapping_sub(numbers.below(64) as u32),
            2 => numbers.below(size as usize) as u32,
            _ => numbers.any() as u32,
        };
        bytes[at..at + 4].copy_from_slice(&number.to_le_bytes());
    }
    if numbers.below(20) == 0 {
        bytes.truncate(numbers.below(whole.len()));
    }
    bytes
}

/// How many bytes of names and annotations were copied.
fn copied_bytes(dump: &Minidump<'_>) -> usize {
    let threads = dump.threads.iter().map(|thread| thread.name.as_ref().map_or(0, String::len));
    let modules = dump.modules.iter().map(|module| module.name.len());
    let annotations = dump.annotations.iter().map(|one| one.name.len() + one.value.len());
    threads.chain(modules).chain(annotations).sum()
}

fn main() -> Result<(), Box<dyn Error>> {
    let words: Vec<_> = std::env::args().skip(1).collect();
    let (count, seed) = match words.as_slice() {
        [count, seed, _, ..] => (count.parse::<usize>()?, seed.parse::<u64>()?),
        _ => return Err("usage: damaged COUNT SEED MINIDUMP..".into()),
    };
    let files = words[2..].iter().map(std::fs::read).collect::<Result<Vec<_>, _>>()?;
    let (mut read, mut problems) = (0, 0);
    for number in 0..count {
        let bytes = changed(&mut Numbers::of(seed, number as u64), &files[number % files.len()]);
        if let Ok(dump) = Minidump::read(&bytes) {
            // A character of UTF-16 has 2 bytes there, and up to 3 bytes here.
            assert!(
                copied_bytes(&dump) <= 2 * bytes.len(),
                "{} bytes are copied of {}",
                copied_bytes(&dump),
                bytes.len()
            );
            assert!(dump.memory.iter().all(|range| range.bytes.len() <= bytes.len()));
            assert!(dump.problems().iter().all(|problem| !problem.to_string().is_empty()));
            problems += usize::from(!dump.problems().is_empty());
            read += 1;
        }
    }
    println!("files {} read {} with problems {} refused {}", count, read, problems, count - read);
    Ok(())
}
