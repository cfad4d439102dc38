//! Reads enumerations: numbers that have names.

use super::numbers::{low_bytes, signed_number, unsigned_number};
use super::{Part, Value};
use crate::debug::debug_info::Die;
use crate::debug::variables::location::Locator;
use crate::debug::variables::types::{number_attribute, type_of, unqualified_type};
use crate::debug::variables::value_location::Missing;
use gimli::AttributeValue;

impl<'v, 'a> Locator<'v, 'a> {
    /// The name of a constant of an enumeration, a sum of constants, or the number.
    pub(super) fn enumeration_value(&self, kind: &Die<'v, 'a>, part: Part<'_>) -> Result<Value, Missing> {
        let bytes = self.least_significant_first(self.number_bytes(kind, part)?);
        let (value, width) = (unsigned_number(&bytes), bytes.len());
        let is_wanted = |one: &Die<'v, 'a>| {
            let held = number_attribute(one, gimli::DW_AT_const_value);
            held.map_or(false, |held| low_bytes(u128::from(held), width) == value)
        };
        let mut constants = kind.children().into_iter();
        let found = constants.find(|one| one.tag() == Some(gimli::DW_TAG_enumerator) && is_wanted(one));
        let name = found.and_then(|one| one.name());
        let number =
            || if is_unsigned_enumeration(kind) { value.to_string() } else { signed_number(&bytes).to_string() };
        Ok(Value::Scalar(name.or_else(|| sum_of_constants(kind, value)).unwrap_or_else(number)))
    }
}

/// Whether the numbers of an enumeration have no sign, by its own encoding or that of its type. Without either,
/// they have none if no constant is negative, as gdb takes it.
pub(super) fn is_unsigned_enumeration(kind: &Die<'_, '_>) -> bool {
    let own = kind.attribute(gimli::DW_AT_encoding);
    let held = own.or_else(|| unqualified_type(&type_of(kind)?)?.attribute(gimli::DW_AT_encoding));
    match held {
        Some(AttributeValue::Encoding(encoding)) => {
            matches!(encoding, gimli::DW_ATE_unsigned | gimli::DW_ATE_unsigned_char)
        }
        _ => !kind.children().iter().any(is_negative_constant),
    }
}

/// A sum of constants of an enumeration, if these have no bits in common, such as `A|C`.
fn sum_of_constants(kind: &Die<'_, '_>, value: u128) -> Option<String> {
    let (mut all, mut found, mut names) = (0, 0, Vec::new());
    for one in kind.children().iter().filter(|one| one.tag() == Some(gimli::DW_TAG_enumerator)) {
        let bits =
            number_attribute(one, gimli::DW_AT_const_value).filter(|_| !is_negative_constant(one)).map(u128::from)?;
        if all & bits != 0 {
            return None;
        }
        all |= bits;
        if bits != 0 && value & bits == bits {
            found |= bits;
            names.push(one.name()?);
        }
    }
    Some(names.join("|")).filter(|names| found == value && !names.is_empty())
}

/// Whether an entry has a negative number.
fn is_negative_constant(constant: &Die<'_, '_>) -> bool {
    let value = constant.attribute(gimli::DW_AT_const_value);
    value.map_or(false, |value| value.udata_value().is_none() && value.sdata_value().map_or(false, |held| held < 0))
}
