//! Reads where calls go on that throw: the call sites of a language-specific data area, in the form
//! that the compilers of C++, Rust, Ada, Go and D write.

use crate::table::Landing;
use dwcheck_types::cursor::Cursor;
use dwcheck_types::target::Target;

/// No value is there.
const OMITTED: u8 = 0xff;

/// How offsets are written.
#[derive(Clone, Copy)]
struct Encoding {
    /// The number of the form (`DW_EH_PE_`).
    form: u8,
    /// How many bytes an address has.
    address_bytes: u8,
}

/// Reads an offset with an encoding that has no base.
fn read_encoded_offset(reader: &mut Cursor<'_>, encoding: Encoding) -> Option<u64> {
    match encoding.form & 0xf {
        0x0 => reader.number(encoding.address_bytes).ok(),
        0x4 => reader.number(8).ok(),
        0x1 => reader.uleb().ok(),
        0x2 => reader.number(2).ok(),
        0x3 => reader.number(4).ok(),
        _ => None,
    }
}

/// Reads the call sites that have a landing pad, of the function that begins at `function`. `area` are
/// the bytes from the area's first one on, and an address has `address_bytes`. Call sites that can't be read are left out.
pub fn landings(area: &[u8], function: u64, address_bytes: u8) -> Vec<Landing> {
    let mut reader = Cursor::new(area, Target::LITTLE_64);
    let mut found = read_call_sites(&mut reader, function, address_bytes).unwrap_or_default();
    found.sort_by_key(|landing| landing.begin);
    found
}

fn read_call_sites(reader: &mut Cursor<'_>, function: u64, address_bytes: u8) -> Option<Vec<Landing>> {
    // Where landing pads begin: compilers leave it out, so that it is the function.
    if reader.byte().ok()? != OMITTED {
        return None;
    }
    if reader.byte().ok()? != OMITTED {
        reader.uleb().ok()?;
    }
    let encoding = Encoding { form: reader.byte().ok()?, address_bytes };
    let length = usize::try_from(reader.uleb().ok()?).ok()?;
    let after = reader.rest().len().saturating_sub(length);
    let mut found = Vec::new();
    while reader.rest().len() > after {
        match read_call_site(reader, encoding, function) {
            Some(Some(landing)) => found.push(landing),
            Some(None) => {}
            None => break,
        }
    }
    Some(found)
}

/// Reads a call site. `Some(None)` if it has no landing pad.
fn read_call_site(reader: &mut Cursor<'_>, encoding: Encoding, function: u64) -> Option<Option<Landing>> {
    let (begin, length) = (read_encoded_offset(reader, encoding)?, read_encoded_offset(reader, encoding)?);
    let pad = read_encoded_offset(reader, encoding)?;
    reader.uleb().ok()?;
    let begin = function.wrapping_add(begin);
    let landing = Landing { begin, end: begin.wrapping_add(length), pad: function.wrapping_add(pad) };
    Some(Some(landing).filter(|_| pad != 0))
}

#[cfg(test)]
mod tests {
    use super::*;

    #[test]
    fn call_sites_with_landing_pads_are_read() {
        let area = [0xff, 0xff, 0x01, 8, 0x10, 5, 0x40, 1, 0x20, 5, 0, 0];
        let landing = Landing { begin: 0x1010, end: 0x1015, pad: 0x1040 };
        assert_eq!(landings(&area, 0x1000, 8), [landing]);
        assert_eq!(landings(&area[..10], 0x1000, 8), [landing]);
        assert_eq!(landings(&[], 0x1000, 8), []);
    }
}
