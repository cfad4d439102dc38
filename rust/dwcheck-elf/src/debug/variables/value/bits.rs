//! Reads bit fields: members of structures that have a number of bits.

use super::numbers::{is_signed_type, unsigned_number};
use super::{Part, Shape, Value};
use crate::debug::debug_info::Die;
use crate::debug::variables::location::Locator;
use crate::debug::variables::types::{number_attribute, type_size};
use crate::debug::variables::value_location::{Missing, ValueLocation};
use dwcheck_types::target::Order;

impl<'v, 'a> Locator<'v, 'a> {
    /// The value of a member of this type that has a number of bits.
    pub(super) fn bit_field_value(
        &self,
        member: &Die<'v, 'a>,
        kind: &Die<'v, 'a>,
        part: Part<'_>,
        bits: u64,
    ) -> Result<Value, Missing> {
        let unsupported = Missing::Unsupported("a member of bits at this place");
        if self.machine.target.order == Order::Big || bits > 64 {
            return Err(unsupported);
        }
        let first = first_bit_of_field(member, kind, bits).ok_or_else(|| unsupported.clone())?;
        let (byte, bit) = (usize::try_from(first / 8).map_err(|_| unsupported.clone())?, (first % 8) as u32);
        let length = (u64::from(bit) + bits + 7) / 8;
        let offset = part.offset.saturating_add(byte);
        let bytes = self.machine.bytes(part.place, part.size, offset, length as usize)?;
        let value = unsigned_number(&bytes) >> bit & ((1u128 << bits) - 1);
        let is_negative = bits > 0 && value >> (bits - 1) == 1 && is_signed_type(kind);
        let value = if is_negative { value | u128::MAX << bits } else { value };
        self.value_of_low_bits(kind, value.to_le_bytes().to_vec())
    }

    /// The value of a type with no parts, whose bytes these are, least significant one first.
    fn value_of_low_bits(&self, kind: &Die<'v, 'a>, mut bytes: Vec<u8>) -> Result<Value, Missing> {
        let size = type_size(kind).and_then(|size| usize::try_from(size).ok()).filter(|size| *size <= bytes.len());
        let size = size.ok_or(Missing::Unsupported("a member of bits of this type"))?;
        bytes.truncate(size);
        self.value_of_part(
            kind,
            Part { place: &ValueLocation::Bytes(bytes), size, offset: 0 },
            Shape::default(),
            &mut 0,
        )
    }
}

/// The first bit of a member of bits, counted from the least significant bit of the structure or, in DWARF 4,
/// of the integer that has the member.
pub(super) fn first_bit_of_field(member: &Die<'_, '_>, kind: &Die<'_, '_>, bits: u64) -> Option<u64> {
    if let Some(first) = number_attribute(member, gimli::DW_AT_data_bit_offset) {
        return Some(first);
    }
    let size = number_attribute(member, gimli::DW_AT_byte_size).or_else(|| type_size(kind))?;
    let from_top = number_attribute(member, gimli::DW_AT_bit_offset)?;
    size.checked_mul(8)?.checked_sub(from_top)?.checked_sub(bits)
}
