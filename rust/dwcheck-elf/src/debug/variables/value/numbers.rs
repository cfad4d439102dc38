//! Reads numbers of base types: with and without a sign, with a fraction, complex ones, characters.

use super::characters::Characters;
use super::enumerations::is_unsigned_enumeration;
use super::reals::Format;
use super::{Part, Value, MAX_BYTES};
use crate::debug::debug_info::Die;
use crate::debug::variables::location::Locator;
use crate::debug::variables::types::{is_fortran, unqualified_type};
use crate::debug::variables::value_location::Missing;
use dwcheck_types::target::Order;
use gimli::{AttributeValue, DwAte};

const NO_SUCH_ENCODING: Missing = Missing::Unsupported("a type of this encoding");

impl<'v, 'a> Locator<'v, 'a> {
    /// The value of a base type.
    pub(super) fn base_value(&self, kind: &Die<'v, 'a>, part: Part<'_>) -> Result<Value, Missing> {
        let encoding = base_encoding(kind).ok_or(Missing::Unsupported("a type without an encoding"))?;
        if encoding == gimli::DW_ATE_complex_float {
            return self.complex_value(kind, part);
        }
        let bytes = self.least_significant_first(self.number_bytes(kind, part)?);
        let number = match encoding {
            gimli::DW_ATE_float => self.real_value(kind, &bytes),
            _ => number_text(encoding, &bytes),
        };
        number.map(Value::Scalar).ok_or(NO_SUCH_ENCODING)
    }

    /// A complex number: its real part, then its imaginary one.
    fn complex_value(&self, kind: &Die<'v, 'a>, part: Part<'_>) -> Result<Value, Missing> {
        let bytes = self.bytes_up_to(2 * MAX_BYTES, kind, part)?;
        let (real, imaginary) = bytes.split_at(bytes.len() / 2);
        let number =
            |bytes: &[u8]| self.real_value(kind, &self.least_significant_first(bytes.to_vec())).ok_or(NO_SUCH_ENCODING);
        let (real, imaginary) = (number(real)?, number(imaginary)?);
        Ok(Value::Scalar(match is_fortran(kind) {
            true => format!("({},{})", real, imaginary),
            false => format!("{} + {}i", real, imaginary),
        }))
    }

    /// A number with a fraction of a type, least significant byte first. `None` if its format isn't known.
    fn real_value(&self, kind: &Die<'v, 'a>, bytes: &[u8]) -> Option<String> {
        match *bytes {
            [a, b, c, d] => Some(fraction_text(f32::from_le_bytes([a, b, c, d]))),
            [a, b, c, d, e, f, g, h] => Some(fraction_text(f64::from_le_bytes([a, b, c, d, e, f, g, h]))),
            _ => Format::of(self.variables.machine, &kind.name()?)?.text(bytes),
        }
    }

    /// A character, by its number and as text.
    pub(super) fn character_value(
        &self,
        kind: &Die<'v, 'a>,
        part: Part<'_>,
        characters: Characters,
    ) -> Result<Value, Missing> {
        let bytes = self.least_significant_first(self.number_bytes(kind, part)?);
        let number =
            if is_signed_type(kind) { signed_number(&bytes).to_string() } else { unsigned_number(&bytes).to_string() };
        let text = characters.one(unsigned_number(&bytes) as u32);
        Ok(Value::Scalar(text.map_or_else(|| number.clone(), |text| format!("{} {}", number, text))))
    }

    /// The bytes of a number with the least significant one first.
    pub(super) fn least_significant_first(&self, mut bytes: Vec<u8>) -> Vec<u8> {
        if self.machine.target.order == Order::Big {
            bytes.reverse();
        }
        bytes
    }
}

/// How a base type stores its values.
pub(super) fn base_encoding(kind: &Die<'_, '_>) -> Option<DwAte> {
    match kind.attribute(gimli::DW_AT_encoding) {
        Some(AttributeValue::Encoding(encoding)) => Some(encoding),
        _ => None,
    }
}

/// Whether the numbers of a type may be negative.
pub(super) fn is_signed_type(kind: &Die<'_, '_>) -> bool {
    let kind = match unqualified_type(kind) {
        Some(kind) => kind,
        None => return false,
    };
    match base_encoding(&kind) {
        _ if kind.tag() == Some(gimli::DW_TAG_enumeration_type) => !is_unsigned_enumeration(&kind),
        encoding => matches!(encoding, Some(gimli::DW_ATE_signed | gimli::DW_ATE_signed_char)),
    }
}

/// A number of a base type without a fraction, least significant byte first, as text. `None` if the encoding
/// isn't known.
fn number_text(encoding: DwAte, bytes: &[u8]) -> Option<String> {
    Some(match encoding {
        gimli::DW_ATE_boolean => match unsigned_number(bytes) {
            0 => "false".to_string(),
            1 => "true".to_string(),
            other => other.to_string(),
        },
        gimli::DW_ATE_signed | gimli::DW_ATE_signed_char => signed_number(bytes).to_string(),
        gimli::DW_ATE_unsigned | gimli::DW_ATE_unsigned_char | gimli::DW_ATE_address => {
            unsigned_number(bytes).to_string()
        }
        gimli::DW_ATE_UTF | gimli::DW_ATE_UCS | gimli::DW_ATE_ASCII => {
            let code = unsigned_number(bytes);
            match u32::try_from(code).ok().and_then(char::from_u32) {
                Some(found) if code > 0 => format!("{} {:?}", code, found),
                _ => code.to_string(),
            }
        }
        _ => return None,
    })
}

/// A number with a fraction. Very large and very small ones have an exponent, which `Display` doesn't write.
fn fraction_text(number: impl std::fmt::Debug) -> String {
    let text = format!("{:?}", number);
    text.strip_suffix(".0").unwrap_or(&text).to_string()
}

/// The number that bytes hold, the least significant one first.
pub(super) fn unsigned_number(bytes: &[u8]) -> u128 {
    bytes.iter().rev().take(16).fold(0, |number, byte| number << 8 | u128::from(*byte))
}

/// The same for a number that may be negative.
pub(super) fn signed_number(bytes: &[u8]) -> i128 {
    let unused = 128 - 8 * bytes.len().clamp(1, 16) as u32;
    ((unsigned_number(bytes) << unused) as i128) >> unused
}

/// The low bytes of a number.
pub(super) fn low_bytes(number: u128, bytes: usize) -> u128 {
    if bytes >= 16 {
        number
    } else {
        number & ((1u128 << (8 * bytes)) - 1)
    }
}
