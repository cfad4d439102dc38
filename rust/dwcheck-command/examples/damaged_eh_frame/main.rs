//! Damages small `.eh_frame` sections at random, checks each by the library, and compares all rows of those that are
//! accepted with gimli's. All happens in memory, in one process.
//!
//! ```text
//! damaged_eh_frame CASES SEED JOBS [FILE ..]
//! ```
//!
//! The sections are taken from the programs FILE, of any processor, and as many are made for four targets. A byte or a
//! few of each are changed, or it is cut off, or moved to another address. The check must give an answer in bounded
//! time: either all rows are those that gimli reads, or there is a fault, with a known number and an offset inside of
//! the section, and adding the section to a process is refused with the same fault. What gimli itself doesn't read
//! (`Limit` in beside.rs) is counted. A case that goes wrong is printed as a line for `eh_frame_answers` of the crate
//! dwcheck, and the status is then 1. A case depends on the seed, its number and the files.

mod beside;
mod check;
mod counts;
mod damage;
mod made;
mod numbers;
mod problem;
mod sections;

use counts::Counts;
use dwcheck::{Process, Target};
use numbers::Numbers;
use problem::Problem;
use rayon::prelude::*;
use sections::Section;
use std::error::Error;
use std::panic::{catch_unwind, AssertUnwindSafe};
use std::process::ExitCode;
use std::time::{Duration, Instant};

/// The longest that one case may take.
const LONGEST: Duration = Duration::from_secs(20);
/// How many cases a thread takes at a time.
const IN_A_BATCH: u64 = 5_000;
/// The least number of sections that are made.
const MADE: usize = 2_000;

/// Small sections from that of a program.
fn read_pieces(name: &str, numbers: &mut Numbers) -> Result<Vec<Section>, Box<dyn Error>> {
    let bytes = std::fs::read(name)?;
    Ok(sections::pieces(&bytes, numbers)?)
}

/// The sections of the programs, and made ones.
fn seeds(seed: u64, names: &[String]) -> Vec<Section> {
    let mut numbers = Numbers::of(seed, u64::MAX);
    let mut found = Vec::new();
    for name in names {
        match read_pieces(name, &mut numbers) {
            Ok(pieces) => found.extend(pieces),
            Err(why) => eprintln!("{}: {}", name, why),
        }
    }
    let count = MADE.max(found.len());
    found.extend((0..count).map(|_| made::section(&mut numbers)));
    found
}

/// Damages and checks one section.
fn case(seeds: &[Section], numbers: &mut Numbers, process: &mut Process, counts: &mut Counts) {
    let mut section = seeds[numbers.below(seeds.len())].clone();
    damage::damage(&mut section, numbers);
    if process.target() != section.target {
        *process = Process::new(section.target);
    }
    let begun = Instant::now();
    let outcome = catch_unwind(AssertUnwindSafe(|| check::outcome(&section, process)));
    let took = begun.elapsed();
    process.clear();
    let outcome = outcome.unwrap_or(Err(Problem::Panic));
    let outcome = if took > LONGEST { Err(Problem::TooSlow(took)) } else { outcome };
    counts.add(&section, outcome, took);
}

fn batch(seeds: &[Section], seed: u64, first: u64, last: u64) -> Counts {
    let mut counts = Counts::default();
    let mut process = Process::new(Target::LITTLE_64);
    for number in first..last {
        case(seeds, &mut Numbers::of(seed, number), &mut process, &mut counts);
    }
    counts
}

/// The most memory that this process ever had.
fn most_memory() -> String {
    let status = std::fs::read_to_string("/proc/self/status").unwrap_or_default();
    let line = status.lines().find_map(|line| line.strip_prefix("VmHWM:"));
    line.unwrap_or("unknown").trim().to_string()
}

fn main() -> ExitCode {
    let words: Vec<String> = std::env::args().skip(1).collect();
    let number = |place: usize| words.get(place).and_then(|word| word.parse::<u64>().ok());
    let (cases, seed, jobs) = match (number(0), number(1), number(2)) {
        (Some(cases), Some(seed), Some(jobs)) => (cases, seed, jobs),
        _ => {
            eprintln!("usage: damaged_eh_frame CASES SEED JOBS [FILE ..]");
            return ExitCode::from(2);
        }
    };
    let seeds = seeds(seed, &words[3..]);
    println!("{} sections", seeds.len());
    let pool = rayon::ThreadPoolBuilder::new().num_threads(jobs as usize).build().expect("threads");
    let starts: Vec<u64> = (0..cases).step_by(IN_A_BATCH as usize).collect();
    let batches = starts.par_iter().with_max_len(1);
    let counts = pool.install(|| {
        let counts = batches.map(|first| batch(&seeds, seed, *first, cases.min(first + IN_A_BATCH)));
        counts.reduce(Counts::default, Counts::and)
    });
    println!("{}\nmost memory {}", counts, most_memory());
    ExitCode::from(u8::from(counts.problems > 0))
}
