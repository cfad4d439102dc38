//! Times dwcheck's libraries and gimli, and prints both times in nanoseconds and their ratio.

use crate::{ours, theirs};
use std::collections::HashMap;
use std::hint::black_box;
use std::sync::atomic::{AtomicBool, Ordering};
use std::time::Duration;

unsafe extern "C" {
    fn clock_gettime(clock: i32, time: &mut Time) -> i32;
}

/// The C library's `struct timespec`: seconds and nanoseconds.
#[repr(C)]
#[derive(Default)]
struct Time(i64, i64);

/// The processor time of this thread, in nanoseconds. Other work on the machine hardly adds to it.
fn now() -> f64 {
    const THREAD: i32 = 3;
    let mut time = Time::default();
    assert_eq!(unsafe { clock_gettime(THREAD, &mut time) }, 0);
    time.0 as f64 * 1e9 + time.1 as f64
}

fn time_of<T>(work: impl FnOnce() -> T) -> f64 {
    let start = now();
    black_box(work());
    now() - start
}

/// Runs `ours` and `theirs` several times, and returns the least time of each. The runs alternate,
/// so that other work on the machine affects both.
fn least_of_both<T, U>(runs: usize, mut ours: impl FnMut() -> T, mut theirs: impl FnMut() -> U) -> (f64, f64) {
    (0..runs).fold((f64::MAX, f64::MAX), |least, _| {
        (least.0.min(time_of(&mut ours)), least.1.min(time_of(&mut theirs)))
    })
}

fn least<T>(runs: usize, mut work: impl FnMut() -> T) -> f64 {
    (0..runs).map(|_| time_of(&mut work)).fold(f64::MAX, f64::min)
}

fn line(name: &str, ours: f64, theirs: Option<f64>) {
    match theirs {
        Some(theirs) => println!("{name:<60} {ours:14.1} {theirs:14.1} {:6.2}", ours / theirs),
        None => println!("{name:<60} {ours:14.1}"),
    }
}

fn frame(name: &str, bytes: &[u8]) {
    if ours::check(bytes) == 0 {
        println!("{name}: refused, or it has no FDE");
        return;
    }
    let section = theirs::Section::new(bytes);
    let (check, rows) = least_of_both(25, || ours::check(bytes), || section.rows());
    line(&format!("{name}: check; gimli runs all rows"), check, Some(rows));
    let (into, rows) = least_of_both(15, || ours::rows_into(bytes), || section.rows());
    line(&format!("{name}: all rows into one place"), into - check, Some(rows));
    let (iterated, rows) = least_of_both(9, || ours::rows(bytes), || section.rows());
    line(&format!("{name}: all rows by iterators with contexts of their own"), iterated - check, Some(rows));
    let (borrowing, rows) = least_of_both(9, || ours::rows_in(bytes), || section.rows());
    line(&format!("{name}: all rows by new iterators in one context"), borrowing - check, Some(rows));
    let (again, rows) = least_of_both(9, || ours::rows_again(bytes), || section.rows());
    line(&format!("{name}: all rows by the iterator in one place"), again - check, Some(rows));
    let addresses = section.addresses();
    let each = |many: f64, once: f64| (many - once) / 4.0 / addresses.len() as f64;
    let (many, found) = least_of_both(9, || ours::look_up(bytes, &addresses, 5), || section.look_up(&addresses));
    let once = least(9, || ours::look_up(bytes, &addresses, 1));
    let found = found / addresses.len() as f64;
    line(&format!("{name}: look-up; gimli with an index of its user's"), each(many, once), Some(found));
    let many = least(9, || ours::unwind(bytes, &addresses, 5));
    let once = least(9, || ours::unwind(bytes, &addresses, 1));
    line(&format!("{name}: unwind"), each(many, once), None);
    table(name, bytes, &section, &addresses, check);
}

/// The C library's `struct mallinfo2`. The number at index 4 is how many bytes are allocated in
/// mappings of their own, and the number at index 7 how many other bytes are allocated.
#[repr(C)]
struct MallocInfo([usize; 10]);

unsafe extern "C" {
    fn mallinfo2() -> MallocInfo;
}

/// The number of bytes that are allocated in the main thread's heap and in mappings.
fn allocated() -> usize {
    let found = unsafe { mallinfo2() };
    found.0[4] + found.0[7]
}

/// Runs `work`, and meanwhile looks again and again how many bytes are allocated. Returns the
/// number that was seen most often, minus the bytes that were allocated before.
fn held_by<T>(work: impl FnOnce() -> T) -> usize {
    let before = allocated();
    let done = AtomicBool::new(false);
    std::thread::scope(|scope| {
        let samples = scope.spawn(|| {
            let mut samples: HashMap<usize, usize> = HashMap::new();
            while !done.load(Ordering::Relaxed) {
                *samples.entry(allocated()).or_default() += 1;
                std::thread::sleep(Duration::from_micros(200));
            }
            samples
        });
        black_box(work());
        done.store(true, Ordering::Relaxed);
        let samples = samples.join().expect("samples");
        let most = samples.into_iter().max_by_key(|sample| sample.1).expect("a sample").0;
        most.saturating_sub(before)
    })
}

/// Times how a section's table is compiled, and look-ups in it. The checked section is freed before
/// the first look-up. `check` is the time of the check alone.
fn table(name: &str, bytes: &[u8], section: &theirs::Section<'_>, addresses: &[u64], check: f64) {
    const TIMES: u32 = 40;
    let each = |many: f64, once: f64| (many - once) / f64::from(TIMES) / addresses.len() as f64;
    let compile = |count| ours::look_up_by_table(bytes, &addresses[..count], 1);
    let (compiled, rows) = least_of_both(25, || compile(0), || section.rows());
    line(&format!("{name}: compile; gimli runs all rows"), compiled - check, Some(rows));
    let (many, found) =
        least_of_both(15, || ours::look_up_by_table(bytes, addresses, TIMES + 1), || section.look_up(addresses));
    let once = least(15, || ours::look_up_by_table(bytes, addresses, 1));
    let found = found / addresses.len() as f64;
    line(&format!("{name}: look-up by table; gimli with an index of its user's"), each(many, once), Some(found));
    let many = least(15, || ours::unwind_by_table(bytes, addresses, TIMES + 1));
    let once = least(15, || ours::unwind_by_table(bytes, addresses, 1));
    line(&format!("{name}: unwind by table"), each(many, once), None);
    let held = held_by(|| ours::look_up_by_table(bytes, addresses, 1000));
    println!("{name}: a table of {held} bytes, {:.2} of its section's {}", held as f64 / bytes.len() as f64, bytes.len());
}

/// Times the check of an `.eh_frame` section, and the check with the section's table. The section is taken
/// to lie at an address of its own, so FDEs that are encoded relative to their places are where the file
/// has them.
fn eh_frame(name: &str, bytes: &[u8]) {
    const ADDRESS: u64 = 1 << 30;
    if ours::compile_eh_frame(bytes, ADDRESS) == 0 {
        println!("{name}: refused, or it has copies of FDEs, or no FDE");
        return;
    }
    let (compiled, check) =
        least_of_both(25, || ours::compile_eh_frame(bytes, ADDRESS), || ours::check_eh_frame(bytes, ADDRESS));
    line(&format!("{name}: check with its table; here the check alone"), compiled, Some(check));
}

fn lists(name: &str, bytes: &[u8]) {
    if ours::check_lists(bytes) == 0 {
        println!("{name}: refused, or it has no expression");
        return;
    }
    let (check, read) = least_of_both(25, || ours::check_lists(bytes), || theirs::all_lists(bytes));
    line(&format!("{name}: check; gimli reads entries and operations"), check, Some(read));
}

/// The time of one repetition, where work(n) does something once and then repeats something else n
/// times. What it does once isn't counted.
fn each(work: impl Fn(u32) -> u64) -> f64 {
    const TIMES: u32 = 20_000;
    (least(9, || work(TIMES + 1)) - least(9, || work(1))) / f64::from(TIMES)
}

fn expression(name: &str, bytes: &[u8]) {
    let theirs = least(15, || (0..10_000).fold(0u64, |sum, _| sum.wrapping_add(theirs::evaluate(bytes)))) / 10_000.0;
    line(&format!("evaluate {name}; gimli with fixed places"), each(|times| ours::evaluate(bytes, times)), Some(theirs));
    line(&format!("check {name} without states"), each(|times| ours::check_expression(bytes, times)), None);
    line(&format!("certify {name}"), each(|times| ours::certify(bytes, times)), None);
}

fn expressions() {
    let two = [0x22, 0x1e, 0x27, 0x1c, 0x21, 0x22, 0x1e, 0x1a, 0x22, 0x24];
    // 60 operations: a literal, then 29 times a literal and an operation with two operands, then
    // `neg`
    let mut sixty = vec![0x31u8];
    for i in 0..29 {
        sixty.extend([0x31 + i as u8 % 7, two[i % 10]]);
    }
    sixty.push(0x1f);
    expression("7708", &[0x77, 0x08]);
    expression("plt", &[0x77, 0x08, 0x80, 0x00, 0x3f, 0x1a, 0x3b, 0x2a, 0x33, 0x24, 0x22]);
    expression("sixty", &sixty);
}

pub fn run(sections: &[(String, Vec<u8>)]) {
    println!("{:<60} {:>14} {:>14} {:>6}", "nanoseconds", "dwcheck", "gimli", "ratio");
    for (name, bytes) in sections {
        if name.ends_with(".lists") {
            lists(name, bytes);
        } else if name.ends_with(".eh_frame") {
            eh_frame(name, bytes);
        } else {
            frame(name, bytes);
        }
    }
    expressions();
}
