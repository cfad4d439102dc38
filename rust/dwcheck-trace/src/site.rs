//! The sites: instructions that were stepped, and what was seen and judged at each.

use super::registers::SAVED_COUNT;
use super::rules::Rule;
use super::shadow::FdeId;
use dwcheck_lint::instruction::{Effect, Instruction};
use dwcheck_lint::judge::Verdict;
use dwcheck_lint::register::Registers;
use rustc_hash::FxHashMap;
use std::num::NonZeroU32;

/// An instruction of a file, at one address, wherever the file is loaded.
#[derive(Debug)]
pub struct Site {
    /// The index of its file. `None` if it isn't in a file.
    pub file: Option<usize>,
    /// Its address in the file.
    pub address: u64,
    /// Its bytes' number.
    pub length: u8,
    /// What it does.
    pub effect: Effect,
    /// Its FDE.
    pub fde: Option<FdeId>,
    /// Whether it is the first one of its FDE.
    pub is_entry: bool,
    /// Whether modules may have been loaded or unloaded when a thread gets there.
    pub is_load: bool,
    /// How its row is judged, or why it isn't.
    pub row: Result<Judged, Rule>,
    /// How often it was stepped.
    pub visits: u64,
    /// How often it was judged.
    pub judged: u64,
    /// What was wrong, if something was.
    pub wrong: Option<Box<Wrong>>,
}

/// How a row is judged.
#[derive(Clone, Copy, Debug)]
pub struct Judged {
    /// The index of its frame section.
    pub section: usize,
    /// Where it finds each callee-saved register.
    pub callee_saved: [SavedAt; SAVED_COUNT],
    /// The first address of the row, in the file.
    pub begin: u64,
    /// The registers by which it finds the CFA, the return address and these registers. `None` if it has an
    /// expression for one of them.
    pub reads: Option<Registers>,
    /// The lowest offset from the CFA at which it finds one of them.
    pub lowest: i64,
    /// Whether it describes the frame of a signal.
    pub is_signal: bool,
}

/// Where a row finds the caller's value of a register.
#[derive(Clone, Copy, Debug, PartialEq, Eq)]
pub enum SavedAt {
    /// In the register itself.
    InPlace,
    /// In memory or in another register.
    Elsewhere,
    /// Nowhere, or the function doesn't have to give it back.
    Unknown,
}

impl Judged {
    /// Whether it is the same row as another one in the same file.
    pub fn is_same_row(&self, other: &Judged) -> bool {
        (self.section, self.begin) == (other.section, other.begin)
    }
}

/// What was wrong at an instruction.
#[derive(Clone, Debug)]
pub struct Wrong {
    /// How often something was wrong.
    pub count: u64,
    /// What was wrong.
    pub verdict: Verdict,
    /// Whether a walk up the stack from here lost its way.
    pub breaks_walk: bool,
    /// The instruction that was executed before, if it is next to this one: its address, and what it does.
    pub before: Option<(u64, Effect)>,
    /// Where things were each time when something was wrong.
    pub locations: Locations,
}

/// Where things are in a frame.
#[derive(Clone, Debug, PartialEq, Eq)]
pub struct Locations {
    /// The CFA minus each register, by the registers' DWARF numbers. `None` if it isn't always the same.
    pub distances: [Option<i64>; 16],
    /// For each callee-saved register, which registers have its entry value.
    pub in_registers: [Vec<u16>; SAVED_COUNT],
    /// For each callee-saved register, at which offsets from the CFA its entry value is.
    pub in_slots: [Vec<i64>; SAVED_COUNT],
}

/// How many addresses a block has.
const BLOCK: u64 = 64;

/// The indices of instructions at addresses that follow each other, each plus 1.
type Block = [Option<NonZeroU32>; BLOCK as usize];

/// All instructions that were stepped.
#[derive(Debug, Default)]
pub struct Sites {
    all: Vec<Site>,
    /// The place of an instruction that isn't remembered.
    passing: Option<usize>,
    /// The index of each one, for each block of addresses of a file. Instructions near each other are asked for one
    /// after the other, so what is asked for is mostly in a nearby cache.
    blocks: FxHashMap<(usize, u64), Block>,
}

impl Site {
    /// An instruction of no file.
    pub fn nameless(address: u64, instruction: Instruction) -> Site {
        Site {
            file: None,
            address,
            length: instruction.length,
            effect: instruction.effect,
            fde: None,
            is_entry: false,
            is_load: false,
            row: Err(Rule::NoRow),
            visits: 0,
            judged: 0,
            wrong: None,
        }
    }
}

impl Locations {
    /// Leaves only what is the same at another time.
    pub fn keep_common(&mut self, other: &Locations) {
        for (distance, other) in self.distances.iter_mut().zip(&other.distances) {
            *distance = distance.filter(|distance| Some(*distance) == *other);
        }
        for (registers, other) in self.in_registers.iter_mut().zip(&other.in_registers) {
            registers.retain(|register| other.contains(register));
        }
        for (slots, other) in self.in_slots.iter_mut().zip(&other.in_slots) {
            slots.retain(|slot| other.contains(slot));
        }
    }
}

impl Sites {
    /// The index of an instruction of a file.
    pub fn find(&self, file: usize, address: u64) -> Option<usize> {
        let index = self.blocks.get(&(file, address / BLOCK))?[(address % BLOCK) as usize];
        index.map(|index| index.get() as usize - 1)
    }

    /// Adds an instruction. Returns its index.
    pub fn add(&mut self, site: Site) -> usize {
        let index = self.all.len();
        if let Some(file) = site.file {
            let block = self.blocks.entry((file, site.address / BLOCK)).or_insert([None; BLOCK as usize]);
            block[(site.address % BLOCK) as usize] = u32::try_from(index + 1).ok().and_then(NonZeroU32::new);
        }
        self.all.push(site);
        index
    }

    /// Adds an instruction that isn't remembered: the next one takes its place. Returns its index.
    pub fn add_passing(&mut self, site: Site) -> usize {
        match self.passing {
            Some(index) => {
                self.all[index] = site;
                index
            }
            None => {
                let index = self.add(site);
                self.passing = Some(index);
                index
            }
        }
    }

    /// The instruction with this index.
    pub fn at(&self, index: usize) -> &Site {
        &self.all[index]
    }

    /// The instruction with this index.
    pub fn at_mut(&mut self, index: usize) -> &mut Site {
        &mut self.all[index]
    }

    /// All instructions.
    pub fn iter(&self) -> impl Iterator<Item = &Site> {
        self.all.iter()
    }
}
