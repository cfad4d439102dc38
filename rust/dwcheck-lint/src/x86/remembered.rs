//! Remembers what instructions do that were decoded before, by their bytes.
//!
//! Code repeats itself: most of its instructions have the same bytes as one not far before. An instruction is
//! decoded by its own bytes alone, so the same bytes do the same, unless the address is part of what they say.

use crate::instruction::{Effect, Instruction};

/// The most bytes of an instruction that is remembered.
const LONGEST: usize = 8;

/// How many instructions are remembered, as a power of 2.
const ENTRIES: u32 = 15;

/// For how many beginnings of instructions a length is remembered, as a power of 2.
const LENGTHS: u32 = 14;

/// Instructions that were decoded before.
pub(crate) struct Remembered {
    /// The bytes of instructions, above which the words have zeros. They are apart from the instructions, so that
    /// they stay in a cache of the processor.
    words: Vec<u64>,
    instructions: Vec<Instruction>,
    /// How long the last instruction was that begins with the same bytes, or with some that share its place.
    lengths: Vec<u8>,
}

impl Remembered {
    /// The instruction at the first byte, as `decode` gives it together with whether its address matters.
    pub fn instruction(&mut self, bytes: &[u8], decode: impl FnOnce() -> (Instruction, bool)) -> Instruction {
        let word = match bytes.get(..LONGEST).and_then(|bytes| bytes.try_into().ok()) {
            Some(word) => u64::from_le_bytes(word),
            None => return decode().0,
        };
        if let Some(found) = self.find(word) {
            return found;
        }
        let (instruction, has_address) = decode();
        if !has_address && usize::from(instruction.length) <= LONGEST {
            self.add(word, instruction);
        }
        instruction
    }

    pub fn new() -> Self {
        let none = Instruction { length: 0, effect: Effect::Invalid };
        let (words, instructions) = (vec![0; 1 << ENTRIES], vec![none; 1 << ENTRIES]);
        Remembered { words, instructions, lengths: vec![0; 1 << LENGTHS] }
    }

    fn find(&self, word: u64) -> Option<Instruction> {
        let length = self.lengths[place_in_table(word & 0xff_ffff, LENGTHS)];
        let word = first_bytes_of_word(word, length);
        let place = place_in_table(word, ENTRIES);
        if length == 0 || self.words[place] != word {
            return None;
        }
        Some(self.instructions[place]).filter(|found| found.length == length)
    }

    fn add(&mut self, word: u64, instruction: Instruction) {
        self.lengths[place_in_table(word & 0xff_ffff, LENGTHS)] = instruction.length;
        let word = first_bytes_of_word(word, instruction.length);
        let place = place_in_table(word, ENTRIES);
        self.words[place] = word;
        self.instructions[place] = instruction;
    }
}

/// The first bytes of a word.
fn first_bytes_of_word(word: u64, length: u8) -> u64 {
    word & u64::MAX.checked_shr(64 - 8 * u32::from(length)).unwrap_or(0)
}

/// The place of a word in a table, by the golden ratio, which spreads words that are alike.
fn place_in_table(word: u64, bits: u32) -> usize {
    (word.wrapping_mul(0x9e37_79b9_7f4a_7c15) >> (64 - bits)) as usize
}

#[cfg(test)]
mod tests {
    use super::*;

    #[test]
    fn bytes_that_follow_do_not_matter() {
        let mut remembered = Remembered::new();
        let push = Instruction { length: 1, effect: Effect::PushFlags };
        let mut decoded = |bytes: [u8; 8], effect| {
            let mut is_decoded = false;
            let found = remembered.instruction(&bytes, || {
                is_decoded = true;
                (Instruction { effect, ..push }, false)
            });
            (found, is_decoded)
        };
        assert_eq!(decoded([0x9c, 1, 2, 0, 0, 0, 0, 0], Effect::PushFlags), (push, true));
        assert_eq!(decoded([0x9c, 1, 2, 9, 9, 9, 9, 9], Effect::Stop), (push, false));
        assert!(decoded([0x9d, 1, 2, 9, 9, 9, 9, 9], Effect::Stop).1);
    }
}
