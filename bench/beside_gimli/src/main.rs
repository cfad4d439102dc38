//! Calls dwcheck's libraries and gimli in one process, to compare their speed or their results.
//!   beside times SECTION ..     times both
//!   beside differ FRAMES LISTS EXPRESSIONS SEED SECTION ..
//!                               makes this many random cases of each kind from the sections, and
//!                               compares what both read
//!   beside in_place PROGRAM ..  times look-ups in the `.eh_frame` of programs where it lies
//!   beside rows SECTION         lets only gimli compute all rows of a frame section
//!   beside read SECTION         lets only gimli read all rows and rules, or all entries of lists,
//!                               and all expressions
//! A SECTION is a raw, little-endian section with addresses of 8 bytes: `.debug_loclists` if its
//! name ends with `.lists`, else `.debug_frame`. `times` also takes `.eh_frame` sections, whose names
//! end with `.eh_frame`; of these both times are dwcheck's.

mod cases;
mod differ;
mod encoded;
mod in_place;
mod limits;
mod meaning;
mod ours;
mod random;
mod target;
mod theirs;
mod times;

fn sections(paths: &[String]) -> Vec<(String, Vec<u8>)> {
    let name = |path: &str| path.rsplit('/').next().unwrap_or(path).to_string();
    paths.iter().map(|path| (name(path), std::fs::read(path).expect("a section"))).collect()
}

fn read((name, bytes): &(String, Vec<u8>)) {
    let target = target::TARGETS[0];
    let answer = if name.ends_with(".lists") {
        meaning::Lists::read(bytes, target).and_then(|lists| lists.answer(0, &[]))
    } else {
        meaning::frame_answer(bytes, target)
    };
    println!("{answer:?}");
}

fn main() {
    let words: Vec<String> = std::env::args().skip(1).collect();
    match words.first().map(String::as_str) {
        Some("times") => times::run(&sections(&words[1..])),
        Some("in_place") => in_place::run(&words[1..]),
        Some("rows") if words.len() == 2 => println!("{}", theirs::all_rows(&sections(&words[1..])[0].1)),
        Some("read") if words.len() == 2 => read(&sections(&words[1..])[0]),
        Some("differ") if words.len() > 5 => {
            let number = |place: usize| words[place].parse().expect("a number");
            let same = differ::run(&sections(&words[5..]), number(1), number(2), number(3), number(4));
            std::process::exit(i32::from(!same));
        }
        _ => panic!("beside times|in_place|rows|read|differ .."),
    }
}
