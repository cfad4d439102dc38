//! Memory of which nothing says whether it is code, such as that of a JIT in a minidump without Linux's maps.

use super::{Guess, Guesser, View};

/// The most frames in such memory, one after another, that are followed.
const MOST: usize = 1024;

impl<V: View> Guesser<'_, V> {
    /// The caller of a frame in such memory, by the frame pointer. That counts only if the frame pointers lead on, upward and
    /// through such memory alone, to code after a call: then what is between is most likely code that keeps them.
    pub fn by_chain(&self) -> Option<Guess> {
        let first = self.framed()?;
        let mut guess = first.clone();
        for _ in 0..MOST {
            if guess.address == 0 {
                return None;
            }
            if self.view.is_in_code(guess.address) {
                return Some(first).filter(|_| self.follows_call(guess.address));
            }
            if !self.view.may_be_code(guess.address) {
                return None;
            }
            guess = Guesser { view: self.view, registers: &guess.registers }.framed()?;
        }
        None
    }
}
