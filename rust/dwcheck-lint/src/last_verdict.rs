//! Remembers the last verdict on a row where a block begins. Most blocks of a function begin with the same row, and
//! with the same in all that it speaks of.

use crate::flow::Flow;
use crate::judge::Verdict;
use crate::register::Registers;
use crate::state::State;

/// A verdict, and what it was given on.
struct Remembered {
    row: usize,
    is_signed: bool,
    state: State,
    verdict: Verdict,
}

/// The last verdict, if there is one.
#[derive(Default)]
pub struct LastVerdict(Option<Remembered>);

impl LastVerdict {
    /// The verdict on a row, by its index, at an address. It depends on these registers, on the slots and on
    /// whether the return address is signed.
    pub fn verdict(&mut self, flow: &Flow<'_, '_>, row: usize, watched: Registers, at: (u64, &State)) -> Verdict {
        let (address, state) = at;
        let is_signed = flow.is_signed(address);
        let is_same = |last: &&Remembered| {
            (last.row, last.is_signed) == (row, is_signed) && last.state.is_same_for(state, watched)
        };
        if let Some(last) = self.0.as_ref().filter(is_same) {
            return last.verdict;
        }
        let verdict = flow.verdict(&flow.rows[row], state, address);
        self.0 = Some(Remembered { row, is_signed, state: state.clone(), verdict });
        verdict
    }
}
