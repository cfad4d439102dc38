//! Changes recordings of perf at random, reads each by the library, and writes its profile in one of the formats. All
//! happens in one process. Every other recording is a file that is mapped, the others are in memory.
//!
//!     damaged_recordings COUNT SEED RECORDING..
//!
//! Bytes are changed anywhere or in the header, and records get other sizes, kinds, numbers, times and places, or are
//! dropped, copied and exchanged. If one takes more than 20 seconds, the program says which one and ends with status
//! 1; a panic or memory that can't be had ends it, too. At the end it says how many were read, how many of them were
//! damaged as the reader noticed, how many samples they had, and the most memory and time that one took.

#[path = "../../examples/numbers.rs"]
mod numbers;

use dwcheck_elf::mapped::Bytes;
use dwcheck_profile::script::{self, ScriptOptions};
use dwcheck_profile::{firefox, folded, html, pprof, speedscope, top, Damage};
use dwcheck_profile::{Names, Options, Profile, Recording, SearchPaths};
use numbers::Numbers;
use std::alloc::{GlobalAlloc, Layout, System};
use std::fs::File;
use std::io::{self, Write};
use std::path::Path;
use std::sync::atomic::{AtomicUsize, Ordering};
use std::time::{Duration, Instant};

/// The longest that one recording may take.
const LONGEST: Duration = Duration::from_secs(20);

/// Counts the bytes that are allocated.
struct Counted;

static NOW: AtomicUsize = AtomicUsize::new(0);
static MOST: AtomicUsize = AtomicUsize::new(0);

// SAFETY: all calls go to the system's allocator as they are.
unsafe impl GlobalAlloc for Counted {
    unsafe fn alloc(&self, layout: Layout) -> *mut u8 {
        let now = NOW.fetch_add(layout.size(), Ordering::Relaxed) + layout.size();
        MOST.fetch_max(now, Ordering::Relaxed);
        System.alloc(layout)
    }

    unsafe fn dealloc(&self, memory: *mut u8, layout: Layout) {
        NOW.fetch_sub(layout.size(), Ordering::Relaxed);
        System.dealloc(memory, layout)
    }
}

#[global_allocator]
static ALLOCATOR: Counted = Counted;

/// A number that programs often don't expect.
fn odd(numbers: &mut Numbers) -> u64 {
    const ODD: [u64; 12] =
        [0, 1, 7, 8, 0xffff, 1 << 31, 0xffff_ffff, 1 << 32, 1 << 47, 1 << 63, u64::MAX - 7, u64::MAX];
    match numbers.below(3) {
        0 => numbers.below(1 << 16) as u64,
        _ => ODD[numbers.below(ODD.len())],
    }
}

/// The ranges of a recording's records, as far as their sizes lead.
fn records(bytes: &[u8]) -> Vec<(usize, usize)> {
    let word =
        |at: usize| bytes.get(at..at + 8).map_or(0, |word| u64::from_le_bytes(word.try_into().unwrap()) as usize);
    // A recording that went through a pipe has no other parts.
    let (mut at, end) = if word(8) == 16 { (16, bytes.len()) } else { (word(40), word(40) + word(48)) };
    let mut found = Vec::new();
    while let Some(size) = bytes.get(at + 6..at + 8).map(|size| usize::from(u16::from_le_bytes([size[0], size[1]]))) {
        if size < 8 || at + size > end.min(bytes.len()) {
            break;
        }
        found.push((at, at + size));
        at += size;
    }
    found
}

/// Changes a recording.
fn damage(numbers: &mut Numbers, bytes: &mut Vec<u8>) {
    let records = records(bytes);
    for _ in 0..1 + numbers.below(6) {
        let (begin, end) = records[numbers.below(records.len())];
        match numbers.below(12) {
            0 => put(bytes, begin + 6, &(odd(numbers) as u16).to_le_bytes()),
            1 => put(bytes, begin, &(numbers.below(90) as u32).to_le_bytes()),
            2 => put(bytes, begin + 4, &(odd(numbers) as u16).to_le_bytes()),
            3..=5 => {
                let at = begin + 8 * (1 + numbers.below(((end - begin) / 8).min(24)));
                put(bytes, at, &odd(numbers).to_le_bytes());
            }
            6 => {
                let at = begin + 8 + 4 * numbers.below((end - begin) / 4);
                put(bytes, at, &(odd(numbers) as u32).to_le_bytes());
            }
            7 => {
                let at = 8 * numbers.below(50);
                put(bytes, at, &odd(numbers).to_le_bytes());
            }
            8 => {
                let other = records[numbers.below(records.len())];
                let copy = bytes.get(other.0..other.1).unwrap_or(&[]).to_vec();
                put(bytes, begin, &copy);
            }
            9 => {
                let at = numbers.below(bytes.len());
                put(bytes, at, &[numbers.below(256) as u8]);
            }
            10 => {
                let at = numbers.below(400);
                put(bytes, at, &[numbers.below(256) as u8]);
            }
            _ if numbers.below(4) == 0 => bytes.truncate(numbers.below(bytes.len())),
            _ => {}
        }
    }
}

/// Writes bytes over others, as far as these reach.
fn put(bytes: &mut [u8], at: usize, new: &[u8]) {
    for (old, new) in bytes.iter_mut().skip(at).zip(new) {
        *old = *new;
    }
}

/// What came of a recording.
#[derive(Clone, Copy, Default)]
struct Result {
    is_read: bool,
    is_damaged: bool,
    samples: usize,
}

/// Opens a recording: a file with these bytes, or the bytes themselves.
fn open(bytes: &[u8], is_file: bool) -> std::result::Result<Recording<'static>, Damage> {
    if !is_file {
        return Recording::of_bytes(Bytes::from(bytes.to_vec()));
    }
    let path = std::env::temp_dir().join(format!("damaged-{}.perf", std::process::id()));
    std::fs::write(&path, bytes)?;
    let recording = Recording::of_file(&File::open(&path)?);
    std::fs::remove_file(&path)?;
    recording
}

/// Reads a recording, and writes its profile in a format.
fn profile(bytes: &[u8], root: &Path, number: usize) -> Result {
    let format = number / 2;
    let mut recording = match open(bytes, number % 2 == 0) {
        Ok(recording) => recording,
        Err(_) => return Result::default(),
    };
    let search_paths = SearchPaths { root: root.to_path_buf(), cache: None, ..SearchPaths::default() };
    let profile = Profile::read(&mut recording, &Options { search_paths, ..Options::default() }, |_| true);
    let names = Names::read(&profile, &Default::default());
    let event = profile.sampled_events().first().copied().unwrap_or(0);
    let out = &mut io::sink();
    let written = match format % 7 {
        0 => folded::write_folded(&profile, &names, event, out),
        1 => script::write_script(&profile, &names, ScriptOptions { stops: true }, out),
        2 => html::write_html(&profile, &names, &[event], "title", out),
        3 => speedscope::write_speedscope(&profile, &names, event, out),
        4 => pprof::write_pprof(&profile, &names, out),
        5 => firefox::write_firefox(&profile, &names, event, "title", out),
        _ => top::write_top(&profile, &names, event, 10, out),
    };
    written.expect("a sink takes everything");
    Result { is_read: true, is_damaged: profile.damage.is_some(), samples: profile.samples.len() }
}

/// Ends the program if the same recording is being read for too long.
fn watch(current: &'static AtomicUsize) {
    std::thread::spawn(move || {
        let (mut last, mut since) = (usize::MAX, Instant::now());
        loop {
            std::thread::sleep(Duration::from_millis(500));
            let now = current.load(Ordering::Relaxed);
            if now != last {
                (last, since) = (now, Instant::now());
            } else if since.elapsed() > LONGEST {
                println!("number {} takes too long", now);
                std::process::exit(1);
            }
        }
    });
}

fn main() {
    static CURRENT: AtomicUsize = AtomicUsize::new(0);
    let words: Vec<String> = std::env::args().skip(1).collect();
    let number = |place: usize| words.get(place).and_then(|word| word.parse::<usize>().ok());
    let (count, seed) = number(0).zip(number(1)).expect("damaged_recordings COUNT SEED RECORDING..");
    let wholes: Vec<_> =
        words[2..].iter().map(|path| std::fs::read(path).unwrap_or_else(|e| panic!("{path}: {e}"))).collect();
    let root = Path::new(&words[2]).parent().unwrap_or_else(|| Path::new("."));
    watch(&CURRENT);
    let (mut read, mut damaged, mut samples, mut slowest, mut largest) = (0, 0, 0, Duration::ZERO, 0);
    for at in 0..count {
        CURRENT.store(at, Ordering::Relaxed);
        let mut numbers = Numbers::of(seed as u64, at as u64);
        let mut bytes = wholes[numbers.below(wholes.len())].clone();
        damage(&mut numbers, &mut bytes);
        let (before, start) = (NOW.load(Ordering::Relaxed), Instant::now());
        MOST.store(before, Ordering::Relaxed);
        let result = profile(&bytes, root, at);
        read += usize::from(result.is_read);
        damaged += usize::from(result.is_damaged);
        samples += result.samples;
        slowest = slowest.max(start.elapsed());
        largest = largest.max(MOST.load(Ordering::Relaxed) - before);
        if at % 10_000 == 9_999 {
            println!("{}", at + 1);
            let _ = io::stdout().flush();
        }
    }
    println!("recordings {} read {} cut short {} samples {}", count, read, damaged, samples);
    println!("at most {:.1} MB and {} ms for one", largest as f64 / 1e6, slowest.as_millis());
    let status = std::fs::read_to_string("/proc/self/status").unwrap_or_default();
    status.lines().filter(|line| line.starts_with("VmHWM")).for_each(|line| println!("{}", line));
}
