//! What jumps between FDEs bring: compilers split functions into parts, each with an FDE.

use crate::state::State;
use std::collections::{BTreeMap, BTreeSet, HashSet};

/// To how many addresses states are brought at most, so that a hostile file can't take all memory.
const MOST_BROUGHT: usize = 100_000;

/// What jumps between FDEs bring.
#[derive(Debug, Default)]
pub struct Crossing {
    /// The states that are brought to addresses.
    pub brought: BTreeMap<u64, State>,
    /// The addresses to which something new was brought.
    news: BTreeSet<u64>,
    /// First addresses of FDEs whose rows are right for one jump at least.
    fits: HashSet<u64>,
    /// First addresses of FDEs all of whose code is reached from its entry, so that nothing has to be
    /// brought to them.
    settled: HashSet<u64>,
}

impl Crossing {
    /// Brings a state to an address in the FDE that begins at `fde`.
    pub fn bring(&mut self, fde: u64, address: u64, state: &State) {
        if self.settled.contains(&fde) {
            return;
        }
        let is_full = self.brought.len() >= MOST_BROUGHT;
        let has_changed = match self.brought.get_mut(&address) {
            Some(known) => known.merge(state, address.wrapping_sub(fde) as u32),
            None if is_full => false,
            None => self.brought.insert(address, state.clone()).is_none(),
        };
        if has_changed {
            self.news.insert(address);
        }
    }

    /// Notes that nothing more has to be brought to an FDE.
    pub fn settle(&mut self, fde: u64) {
        self.settled.insert(fde);
    }

    /// The addresses to which something new was brought since the last call.
    pub fn take_news(&mut self) -> BTreeSet<u64> {
        std::mem::take(&mut self.news)
    }

    /// Notes that the row at the first address of an FDE is right for a jump.
    pub fn fit(&mut self, address: u64) {
        self.fits.insert(address);
    }

    /// Whether the row at the first address of an FDE is right for one jump at least.
    pub fn fits(&self, address: u64) -> bool {
        self.fits.contains(&address)
    }
}
