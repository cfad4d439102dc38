//! Writes numbers with a fraction for which Rust has no type: those of x87, and those of 128 bits.

use super::large::Large;
use super::numbers::unsigned_number;
use object::elf;
use std::cmp::Ordering;

/// How such a number is stored.
#[derive(Clone, Copy, Debug, PartialEq, Eq)]
pub(super) enum Format {
    /// 64 bits with the one before the point, then 15 of the exponent, and the sign.
    X87,
    /// 112 bits after the point, then 15 of the exponent, and the sign.
    Quad,
}

/// A positive number: `mantissa` times 2 to the power of `exponent`.
#[derive(Clone, Copy, Debug)]
struct Finite {
    mantissa: u128,
    exponent: i32,
    /// Whether the next lower number is only half as far away as the next higher one.
    is_lowest: bool,
}

enum Real {
    Finite(Finite),
    Infinite,
    NotANumber,
}

/// Decimal digits after `0.`, and the power of 10 by which that is multiplied.
struct Decimal {
    digits: Vec<u8>,
    power: i32,
}

/// What the names of types of 128 bits contain on machines where `long double` isn't one. gdb goes by the names, too.
const QUAD: [&str; 7] = ["loat128", "f128", "kind=16", "real*16", "REAL(16)", "COMPLEX(16)", "quad complex"];

/// What is added to exponents.
const BIAS: i32 = 16383;

/// The exponent of what isn't finite.
const HIGHEST: u16 = 0x7fff;

impl Format {
    /// The format of a type with this name that has more than 64 bits, on a machine. `None` if it isn't known.
    pub fn of(machine: u16, name: &str) -> Option<Format> {
        match machine {
            elf::EM_X86_64 | elf::EM_386 if QUAD.iter().any(|part| name.contains(part)) => Some(Format::Quad),
            elf::EM_X86_64 | elf::EM_386 => Some(Format::X87),
            elf::EM_AARCH64 => Some(Format::Quad),
            _ => None,
        }
    }

    /// A number, least significant byte first, as the shortest text for which there is no nearer number. `None`
    /// if it isn't one.
    pub fn text(self, bytes: &[u8]) -> Option<String> {
        let (is_negative, real) = match self {
            Format::X87 => x87_real(bytes)?,
            Format::Quad => quad_real(bytes)?,
        };
        let text = match real {
            Real::Finite(Finite { mantissa: 0, .. }) => "0".to_string(),
            Real::Finite(number) => number.decimal().text(),
            Real::Infinite => "inf".to_string(),
            Real::NotANumber => return Some("NaN".to_string()),
        };
        Some(if is_negative { format!("-{}", text) } else { text })
    }
}

/// The sign, and the exponent with its bias, which two bytes hold.
fn sign_and_exponent(bytes: &[u8]) -> (bool, u16) {
    let both = unsigned_number(bytes) as u16;
    (both >> 15 == 1, both & HIGHEST)
}

/// A number of x87. `None` if it is one that processors refuse: its first bit isn't the one before the point.
fn x87_real(bytes: &[u8]) -> Option<(bool, Real)> {
    let mantissa = unsigned_number(bytes.get(..8)?);
    let (is_negative, exponent) = sign_and_exponent(bytes.get(8..10)?);
    let has_first = mantissa >> 63 == 1;
    let real = match exponent {
        HIGHEST if mantissa == 1 << 63 => Real::Infinite,
        HIGHEST => Real::NotANumber,
        1.. if !has_first => return None,
        _ => {
            let is_lowest = mantissa == 1 << 63 && exponent > 1;
            Real::Finite(Finite { mantissa, exponent: i32::from(exponent.max(1)) - BIAS - 63, is_lowest })
        }
    };
    Some((is_negative, real))
}

/// A number of 128 bits.
fn quad_real(bytes: &[u8]) -> Option<(bool, Real)> {
    let fraction = unsigned_number(bytes.get(..14)?);
    let (is_negative, exponent) = sign_and_exponent(bytes.get(14..16)?);
    let real = match exponent {
        HIGHEST if fraction == 0 => Real::Infinite,
        HIGHEST => Real::NotANumber,
        _ => {
            let mantissa = if exponent > 0 { fraction | 1 << 112 } else { fraction };
            let is_lowest = fraction == 0 && exponent > 1;
            Real::Finite(Finite { mantissa, exponent: i32::from(exponent.max(1)) - BIAS - 112, is_lowest })
        }
    };
    Some((is_negative, real))
}

/// A number that is written digit by digit: `rest` divided by `unit`. Any text between the number less `below` and
/// the number plus `above` stands for it.
struct Digits {
    rest: Large,
    unit: Large,
    below: Large,
    above: Large,
    /// Whether the ends of that range stand for the number too.
    has_ends: bool,
}

impl Digits {
    fn times_tens(self, count: u32) -> Digits {
        Digits {
            rest: self.rest.times_tens(count),
            below: self.below.times_tens(count),
            above: self.above.times_tens(count),
            ..self
        }
    }

    /// Whether the range reaches the next unit.
    fn reaches_unit(&self) -> bool {
        let order = self.rest.plus(&self.above).cmp(&self.unit);
        order == Ordering::Greater || self.has_ends && order == Ordering::Equal
    }

    /// Whether the range reaches down to the digits so far.
    fn reaches_digits(&self) -> bool {
        let order = self.rest.cmp(&self.below);
        order == Ordering::Less || self.has_ends && order == Ordering::Equal
    }

    /// The fewest digits that stand for the number.
    fn all(mut self) -> Vec<u8> {
        let mut digits = Vec::new();
        loop {
            let (digit, rest) = self.rest.digit(&self.unit);
            self.rest = rest;
            let (is_down, is_up) = (self.reaches_digits(), self.reaches_unit());
            if is_down || is_up {
                let is_below_half = self.rest.times(2) < self.unit;
                digits.push(if is_down && (is_below_half || !is_up) { digit } else { digit + 1 });
                return digits;
            }
            digits.push(digit);
            self = self.times_tens(1);
        }
    }
}

impl Finite {
    /// The shortest decimal number that is nearer to this one than to any other, as Burger and Dybvig find it
    /// (Printing floating-point numbers quickly and accurately, 1996).
    fn decimal(self) -> Decimal {
        let (up, down) = (self.exponent.max(0) as u32, self.exponent.min(0).unsigned_abs());
        let finer = u32::from(self.is_lowest);
        let digits = Digits {
            rest: Large::new(self.mantissa).shifted(up + 1 + finer),
            unit: Large::new(1).shifted(down + 1 + finer),
            below: Large::new(1).shifted(up),
            above: Large::new(1).shifted(up + finer),
            has_ends: self.mantissa % 2 == 0,
        };
        let power = self.lowest_power();
        let digits = match power {
            0.. => Digits { unit: digits.unit.clone().times_tens(power.unsigned_abs()), ..digits },
            _ => digits.times_tens(power.unsigned_abs()),
        };
        match digits.reaches_unit() {
            true => Decimal { digits: digits.all(), power: power + 1 },
            false => Decimal { digits: digits.times_tens(1).all(), power },
        }
    }

    /// The power of 10 below which the number is, or one less.
    fn lowest_power(self) -> i32 {
        let bits = 128 - self.mantissa.leading_zeros() as i32 + self.exponent;
        (f64::from(bits - 1) * std::f64::consts::LOG10_2 - 1e-10).ceil() as i32
    }
}

impl Decimal {
    /// The number, with an exponent if it is very large or very small, as Rust writes it with `{:?}`.
    fn text(&self) -> String {
        let digits: String = self.digits.iter().map(|digit| char::from(b'0' + digit)).collect();
        let count = digits.len() as i32;
        match self.power {
            -3..=0 => format!("0.{}{}", "0".repeat(self.power.unsigned_abs() as usize), digits),
            1..=16 if count <= self.power => format!("{}{}", digits, "0".repeat((self.power - count) as usize)),
            1..=16 => format!("{}.{}", &digits[..self.power as usize], &digits[self.power as usize..]),
            _ if count == 1 => format!("{}e{}", digits, self.power - 1),
            _ => format!("{}.{}e{}", &digits[..1], &digits[1..], self.power - 1),
        }
    }
}

#[cfg(test)]
mod tests {
    use super::{Finite, Format};

    /// The parts of a number of type `f64`.
    fn finite(number: f64) -> Finite {
        let bits = number.to_bits();
        let (exponent, fraction) = ((bits >> 52) as i32, u128::from(bits & ((1 << 52) - 1)));
        let mantissa = if exponent > 0 { fraction | 1 << 52 } else { fraction };
        Finite { mantissa, exponent: exponent.max(1) - 1023 - 52, is_lowest: fraction == 0 && exponent > 1 }
    }

    /// Rust writes the shortest text of a number of type `f64`.
    #[test]
    fn the_shortest_text() {
        let powers = (0..52).map(|bit| f64::from_bits(1 << bit)).chain((-1022..1024).map(|power| 2f64.powi(power)));
        let near = powers.clone().flat_map(|number| [1, 2, 3].map(|more| f64::from_bits(number.to_bits() + more)));
        let below = powers.clone().skip(1).map(|number| f64::from_bits(number.to_bits() - 1));
        let tens = (-300..300).map(|power| format!("1.7e{}", power).parse().unwrap());
        let others = [0.1, 0.3, 1e15, 1e16, 123456789.125, 9007199254740993.0, 1e-4, 9.9e-5, f64::MAX];
        for number in powers.chain(near).chain(below).chain(tens).chain(others) {
            let expected = format!("{:?}", number);
            assert_eq!(finite(number).decimal().text(), expected.strip_suffix(".0").unwrap_or(&expected));
        }
    }

    /// Numbers of which processors refuse to take their bytes, and bytes that are too few.
    #[test]
    fn what_is_no_number() {
        assert_eq!(Format::X87.text(&[0, 0, 0, 0, 0, 0, 0, 0x40, 0xff, 0x3f]), None);
        assert_eq!(Format::X87.text(&[0; 9]), None);
        assert_eq!(Format::Quad.text(&[0; 12]), None);
        assert_eq!(Format::X87.text(&[1, 0, 0, 0, 0, 0, 0, 0, 0, 0]).unwrap(), "4e-4951");
    }
}
