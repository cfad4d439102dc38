//! Stacks grow downward, so the frames of a walk lead upward.

use dwcheck_types::abi::Abi;
use rustc_hash::FxHashSet;

/// Why a walk ends at a frame whose CFA is known.
#[derive(Clone, Copy, Debug, PartialEq, Eq)]
pub enum NotGrowing {
    /// The frame was there before, with the same CFA.
    Loop,
    /// Its CFA isn't above that of the frame that it called.
    Cfa,
}

/// The CFAs of a walk's frames, each of which has to be above the one before it. Next to a signal frame, the stack may be
/// another one.
#[derive(Debug, Default)]
pub struct Growth {
    /// Where calls don't write to the stack, a frame may take nothing of it.
    may_be_empty: bool,
    /// The CFA that the next one has to exceed.
    floor: Option<u64>,
    /// The addresses and CFAs so far, while each CFA was above the one before it: then no frame was there before.
    risen: Vec<(u64, u64)>,
    /// Those so far, once one wasn't.
    seen: FxHashSet<(u64, u64)>,
}

impl Growth {
    /// Begins a walk.
    pub fn begin(&mut self, abi: &Abi) {
        self.may_be_empty = abi.link_register.is_some();
        self.floor = None;
        self.risen.clear();
        self.seen.clear();
    }

    /// Adds a frame. Returns why the walk ends there, if it does.
    pub fn add(&mut self, address: u64, cfa: u64, is_signal_frame: bool) -> Option<NotGrowing> {
        let rises = self.floor.map_or(self.risen.is_empty(), |floor| floor < cfa);
        if rises && self.seen.is_empty() {
            self.risen.push((address, cfa));
        } else {
            self.seen.extend(self.risen.drain(..));
            if !self.seen.insert((address, cfa)) {
                return Some(NotGrowing::Loop);
            }
        }
        let floor = std::mem::replace(&mut self.floor, Some(cfa).filter(|_| !is_signal_frame));
        let grows = |floor| floor < cfa || self.may_be_empty && floor == cfa;
        match floor {
            Some(floor) if !is_signal_frame && !grows(floor) => Some(NotGrowing::Cfa),
            _ => None,
        }
    }
}

#[cfg(test)]
mod tests {
    use super::*;
    use dwcheck_types::abi::{AARCH64, X86_64};

    /// What is said of frames with these addresses and CFAs, of which some are signal frames.
    fn walk(abi: &Abi, frames: &[(u64, u64, bool)]) -> Vec<Option<NotGrowing>> {
        let mut growth = Growth::default();
        growth.begin(abi);
        frames.iter().map(|(address, cfa, is_signal)| growth.add(*address, *cfa, *is_signal)).collect()
    }

    #[test]
    fn a_cfa_is_above_the_one_before_it() {
        let (loops, falls) = (Some(NotGrowing::Loop), Some(NotGrowing::Cfa));
        assert_eq!(walk(&X86_64, &[(1, 16, false), (1, 32, false), (1, 32, false)]), [None, None, loops]);
        assert_eq!(walk(&X86_64, &[(1, 16, false), (2, 16, false)]), [None, falls]);
        assert_eq!(walk(&X86_64, &[(1, 32, false), (2, 16, false)]), [None, falls]);
        assert_eq!(walk(&AARCH64, &[(1, 16, false), (2, 16, false), (1, 16, false)]), [None, None, loops]);
        assert_eq!(walk(&AARCH64, &[(1, 32, false), (2, 16, false)]), [None, falls]);
    }

    #[test]
    fn a_signal_frame_may_lead_to_another_stack_but_not_back_to_where_the_walk_was() {
        let frames = [(1, 64, false), (2, 80, true), (3, 16, false), (4, 32, false), (1, 64, false)];
        assert_eq!(walk(&X86_64, &frames), [None, None, None, None, Some(NotGrowing::Loop)]);
        assert_eq!(walk(&X86_64, &[(1, 64, false), (2, 16, true), (3, 8, false)]), [None; 3]);
    }
}
