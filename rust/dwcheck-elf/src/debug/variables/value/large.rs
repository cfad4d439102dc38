//! Large integers, as far as writing numbers with a fraction needs them: shifted, times, plus, minus, their digits.

use std::cmp::Ordering;

/// An integer of any size that isn't negative.
#[derive(Clone, Debug, PartialEq, Eq)]
pub(super) struct Large {
    /// Its parts of 32 bits, the least significant one first. The last one isn't 0.
    parts: Vec<u32>,
}

/// The highest power of 10 that a part holds, and which one it is.
const TENS: (u32, u32) = (1_000_000_000, 9);

impl Large {
    /// The same number.
    pub fn new(number: u128) -> Self {
        Large { parts: (0..4).map(|place| (number >> (32 * place)) as u32).collect() }.trimmed()
    }

    /// Without parts at the end that are 0.
    fn trimmed(mut self) -> Self {
        let used = self.parts.iter().rposition(|part| *part != 0).map_or(0, |last| last + 1);
        self.parts.truncate(used);
        self
    }

    /// The number times 2 to the power of `bits`.
    pub fn shifted(&self, bits: u32) -> Large {
        let zeros = vec![0; (bits / 32) as usize];
        Large { parts: zeros.into_iter().chain(self.times(1 << (bits % 32)).parts).collect() }.trimmed()
    }

    /// The number times a small one.
    pub fn times(&self, factor: u32) -> Large {
        let mut carry = 0;
        let mut parts: Vec<u32> = Vec::with_capacity(self.parts.len() + 1);
        for part in &self.parts {
            let product = u64::from(*part) * u64::from(factor) + carry;
            parts.push(product as u32);
            carry = product >> 32;
        }
        parts.push(carry as u32);
        Large { parts }.trimmed()
    }

    /// The number times 10 to the power of `count`.
    pub fn times_tens(self, count: u32) -> Large {
        let whole = (0..count / TENS.1).fold(self, |number, _| number.times(TENS.0));
        whole.times(10u32.pow(count % TENS.1))
    }

    /// The sum of two numbers.
    pub fn plus(&self, other: &Large) -> Large {
        let mut carry = 0;
        let mut parts = Vec::new();
        for place in 0..self.parts.len().max(other.parts.len()) {
            let sum = self.part(place) + other.part(place) + carry;
            parts.push(sum as u32);
            carry = sum >> 32;
        }
        parts.push(carry as u32);
        Large { parts }.trimmed()
    }

    /// The difference to a number that isn't greater.
    fn minus(&self, other: &Large) -> Large {
        let mut borrow = 0;
        let mut parts = Vec::new();
        for place in 0..self.parts.len() {
            let difference = self.part(place).wrapping_sub(other.part(place)).wrapping_sub(borrow);
            parts.push(difference as u32);
            borrow = difference >> 63;
        }
        Large { parts }.trimmed()
    }

    fn part(&self, place: usize) -> u64 {
        self.parts.get(place).copied().map_or(0, u64::from)
    }

    /// How often a number that isn't 0 fits, 9 times at most, and what is left.
    pub fn digit(self, by: &Large) -> (u8, Large) {
        (0..9).fold((0, self), |(count, left), _| if left < *by { (count, left) } else { (count + 1, left.minus(by)) })
    }
}

impl PartialOrd for Large {
    fn partial_cmp(&self, other: &Large) -> Option<Ordering> {
        Some(self.cmp(other))
    }
}

impl Ord for Large {
    fn cmp(&self, other: &Large) -> Ordering {
        let longer = self.parts.len().cmp(&other.parts.len());
        longer.then_with(|| self.parts.iter().rev().cmp(other.parts.iter().rev()))
    }
}
