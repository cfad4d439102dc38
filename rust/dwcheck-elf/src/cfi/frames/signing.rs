//! Where return addresses are signed, on aarch64.
//!
//! A function that is built with `-mbranch-protection` signs its return address: the high bits of
//! the address hold a code that authenticates it. `DW_CFA_AARCH64_negate_ra_state` changes whether
//! the return address is signed from the instruction's location on. A `DW_CFA_restore_state` gives
//! back what a `DW_CFA_remember_state` remembered.

use super::{Kind, Record};
use crate::cfi::instructions::{
    instructions, ADVANCE_LOC1, ADVANCE_LOC2, ADVANCE_LOC4, NEGATE_RA_STATE, NEGATE_RA_STATE_WITH_PC, REMEMBER_STATE,
    RESTORE_STATE, SET_LOC,
};
use dwcheck_types::target::Target;
use std::collections::HashMap;
use std::ops::Range;

/// The ranges of addresses at which the return address is signed, for all FDEs of a section of aarch64, in
/// the order of the FDEs. This takes time in proportion to the section's length.
pub(crate) fn signed_ranges(section: &[u8], records: &[Record], target: Target) -> Vec<Range<u64>> {
    let initial = |record: &Record| match record.kind {
        Kind::Cie { code_alignment_factor: factor, .. } => {
            let signing = Signing::new(0, factor, false).followed(section, record, target);
            Some((record.offset, (factor, signing.is_signed())))
        }
        _ => None,
    };
    let cies: HashMap<u64, (u64, bool)> = records.iter().filter_map(initial).collect();
    let of_fde = |record: &Record| match record.kind {
        Kind::Fde { cie, begin, end, .. } => {
            let (factor, is_signed) = *cies.get(&cie)?;
            Some(Signing::new(begin, factor, is_signed).followed(section, record, target).ranges(end))
        }
        _ => None,
    };
    records.iter().filter_map(of_fde).flatten().collect()
}

/// Follows the instructions of an FDE to find the addresses at which the return address is signed.
#[derive(Clone, Debug)]
struct Signing {
    location: u64,
    /// The code alignment factor, by which the operands of advances are multiplied.
    factor: u64,
    /// Where the return address began to be signed. `None` if it isn't signed.
    since: Option<u64>,
    remembered: Vec<bool>,
    ranges: Vec<Range<u64>>,
}

impl Signing {
    /// The state before the first instruction of a CIE or an FDE, whose location is `begin`.
    fn new(begin: u64, factor: u64, is_signed: bool) -> Self {
        let since = if is_signed { Some(begin) } else { None };
        Signing { location: begin, factor, since, remembered: Vec::new(), ranges: Vec::new() }
    }

    /// Whether the return address is signed after the instructions so far.
    fn is_signed(&self) -> bool {
        self.since.is_some()
    }

    /// Follows an instruction. `rest` begins with its operands; an address in them has the target's
    /// address size.
    fn step(&mut self, code: u8, rest: &[u8], target: Target) {
        let number = |size: u8| target.number(rest.get(..usize::from(size)).unwrap_or(&[]));
        match code {
            0x40..=0x7f => self.advance(u64::from(code & 0x3f)),
            ADVANCE_LOC1 => self.advance(number(1)),
            ADVANCE_LOC2 => self.advance(number(2)),
            ADVANCE_LOC4 => self.advance(number(4)),
            SET_LOC => self.location = number(target.address_size.bytes()),
            REMEMBER_STATE => self.remembered.push(self.is_signed()),
            RESTORE_STATE => {
                let is_signed = self.remembered.pop().unwrap_or_else(|| self.is_signed());
                self.set(is_signed);
            }
            NEGATE_RA_STATE | NEGATE_RA_STATE_WITH_PC => self.set(!self.is_signed()),
            _ => {}
        }
    }

    /// Follows the instructions of a CIE or an FDE.
    fn followed(mut self, section: &[u8], record: &Record, target: Target) -> Self {
        for one in instructions(section, record.program(), target) {
            self.step(one.code, section.get(one.offset + 1..).unwrap_or(&[]), target);
        }
        self
    }

    fn advance(&mut self, count: u64) {
        self.location = self.location.wrapping_add(count.wrapping_mul(self.factor));
    }

    fn set(&mut self, is_signed: bool) {
        match (self.since, is_signed) {
            (None, true) => self.since = Some(self.location),
            (Some(since), false) => {
                self.since = None;
                self.ranges.push(since..self.location);
            }
            _ => {}
        }
    }

    /// The ranges of addresses, up to the FDE's end, at which the return address is signed.
    fn ranges(mut self, end: u64) -> impl Iterator<Item = Range<u64>> {
        self.location = end;
        self.set(false);
        self.ranges.into_iter().filter(|range| range.start < range.end)
    }
}

#[cfg(test)]
mod tests {
    use super::Signing;
    use dwcheck_types::target::{AddressSize, Order, Target};

    /// paciasp; a conditional return with autiasp, around which the state is remembered; autiasp.
    #[test]
    fn a_state_that_is_restored() {
        let target = Target { order: Order::Little, address_size: AddressSize::Eight };
        let mut signing = Signing::new(0x1000, 4, false);
        for (code, operands) in [
            (0x41, &[][..]),
            (0x2d, &[]),
            (0x0a, &[]),
            (0x02, &[3]),
            (0x2d, &[]),
            (0x41, &[]),
            (0x0b, &[]),
            (0x03, &[2, 0]),
            (0x2d, &[]),
        ] {
            signing.step(code, operands, target);
        }
        assert_eq!(signing.ranges(0x1100).collect::<Vec<_>>(), [0x1004..0x1010, 0x1014..0x101c]);
    }
}
