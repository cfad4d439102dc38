//! Times how long it takes to open the debug information of a program, and to look up the variables of frames
//! once it is open. Each line of standard input has the address of a frame, where the program is loaded, and the
//! path of a state file, as `bench/elf/variables.py --keep` writes them. The state files are read, and the
//! callers of the frames found, before the time is taken.
//!
//! ```text
//! cargo run --release --example variables_times PROGRAM < FOLDER/times
//! ```
use dwcheck::State;
use dwcheck_elf::debug_files::DebugFiles;
use dwcheck_elf::frames::{FrameSection, Frames, Name};
use dwcheck_elf::modules::Modules;
use dwcheck_elf::program::Program;
use dwcheck_elf::state_file::StateFile;
use dwcheck_elf::target::Target;
use dwcheck_elf::variables::{Frame, Shape, Step, Variables};
use std::env::args;
use std::io::{stdin, BufRead};
use std::path::Path;
use std::time::{Duration, Instant};

/// A frame whose variables are looked up.
struct Stop {
    address: u64,
    load: u64,
    state: StateFile,
}

impl Stop {
    fn read(line: &str, target: Target) -> Option<Self> {
        let words: Vec<&str> = line.split(' ').collect();
        let number = |word: &str| u64::from_str_radix(word.trim_start_matches("0x"), 16).ok();
        let state = StateFile::parse(&std::fs::read(words.get(2)?).ok()?, target).ok()?;
        Some(Stop { address: number(words[0])?, load: number(words[1])?, state })
    }

    /// The frame and its caller.
    fn steps(&self, modules: &Modules) -> Vec<Step> {
        let blocks = self.state.blocks();
        let registers = self.state.registers.clone();
        let mut first = Step { address: self.address, is_after_call: false, registers, cfa: None };
        let state = State { registers: &first.registers, ..self.state.state(&blocks) };
        let caller = match modules.process().unwind(self.address, &state) {
            Ok(Some(caller)) => caller,
            _ => return vec![first],
        };
        first.cfa = caller.cfa.value();
        let (second, registers) = (caller.return_address.value(), caller.known());
        let second = second.map(|address| Step { address, is_after_call: true, registers, cfa: None });
        [first].into_iter().chain(second).collect()
    }
}

fn main() {
    let path = args().nth(1).unwrap_or_else(|| panic!("give PROGRAM"));
    let bytes = std::fs::read(&path).unwrap_or_else(|error| panic!("{}: {}", path, error));
    let begin = Instant::now();
    let program = Program::read(&bytes).unwrap_or_else(|error| panic!("{}: {}", path, error));
    let files = DebugFiles::default();
    let variables = Variables::read(&program, None, &files).unwrap_or_else(|error| panic!("{}: {}", path, error));
    let opened = begin.elapsed();
    let source = program.eh_frame().unwrap().expect("no .eh_frame");
    let section = FrameSection { format: program.format(Name::EhFrame, &source), source };
    let frames = Frames::of(section).unwrap();
    let (mut times, mut found) = (Vec::new(), 0);
    for line in stdin().lock().lines().map_while(Result::ok) {
        let stop = Stop::read(&line, program.target()).unwrap_or_else(|| panic!("{}", line));
        let mut modules = Modules::new(program.target());
        modules.add(Path::new(&path), &program, std::slice::from_ref(&frames), stop.load).unwrap();
        let (steps, memory) = (stop.steps(&modules), stop.state.blocks());
        let (target, load) = (program.target(), stop.load);
        let frame = Frame { target, load, steps: &steps, memory: &memory, file: None, thread_pointer: None };
        let begin = Instant::now();
        let functions = variables.at(&frame, Shape::default());
        let text: String = functions.iter().map(ToString::to_string).collect();
        times.push(begin.elapsed());
        found += text.lines().filter(|line| line.starts_with("    ")).count();
    }
    print_times(opened, &mut times, found);
}

fn print_times(opened: Duration, times: &mut [Duration], found: usize) {
    times.sort_unstable();
    let all: Duration = times.iter().sum();
    let at = |part: usize| times.get(part * times.len() / 100).copied().unwrap_or_default();
    let mean = all / times.len().max(1) as u32;
    println!("opened in {:?}; stops {} variables {}", opened, times.len(), found);
    println!(
        "a stop: mean {:?}, median {:?}, 99 of 100 within {:?}, longest {:?}",
        mean,
        at(50),
        at(99),
        times.last().copied().unwrap_or_default()
    );
}
