//! Damages a section.

use crate::numbers::Numbers;
use crate::sections::Section;

/// Bytes that are often something else than the one that they replace.
const TELLING: [u8; 16] = [0, 1, 4, 8, 0x0a, 0x0b, 0x0d, 0x0f, 0x10, 0x16, 0x1b, 0x2d, 0x40, 0x7f, 0x80, 0xff];
/// Lengths and pointers that lead to places where nothing is expected.
const FAR: [u32; 8] = [0, 1, 4, 0x7fff_ffff, 0x8000_0000, 0xffff_fff0, 0xffff_fffe, 0xffff_ffff];

/// Changes a byte or a few of them; or cuts the section off, changes a number of four bytes, or puts the section
/// at another address. Now and then nothing is changed.
pub fn damage(section: &mut Section, numbers: &mut Numbers) {
    match numbers.below(32) {
        0 => {}
        1 => section.bytes.truncate(numbers.below(section.bytes.len() + 1)),
        2 | 3 => change_number(section, numbers),
        4 | 5 => {
            section.eh_frame.address = address(section, numbers);
            change_bytes(section, numbers, 1);
        }
        6..=11 => {
            let count = numbers.choice(&[2, 2, 3, 5]);
            change_bytes(section, numbers, count);
        }
        _ => change_bytes(section, numbers, 1),
    }
}

fn change_bytes(section: &mut Section, numbers: &mut Numbers, count: usize) {
    for _ in 0..count {
        let place = numbers.below(section.bytes.len());
        let byte = section.bytes[place];
        section.bytes[place] = match numbers.below(5) {
            0 => byte ^ 1 << numbers.below(8),
            1 => byte.wrapping_add(1),
            2 => byte.wrapping_sub(1),
            3 => numbers.choice(&TELLING),
            _ => numbers.any() as u8,
        };
    }
}

/// Changes four bytes, mostly those that could be a length or a pointer.
fn change_number(section: &mut Section, numbers: &mut Numbers) {
    let end = section.bytes.len().saturating_sub(3);
    if end == 0 {
        return;
    }
    let place = numbers.below(end) / 4 * 4;
    let near = numbers.below(section.bytes.len() + 8) as u32;
    let number = if numbers.one_of(2) { near } else { numbers.choice(&FAR) };
    let bytes = section.four_bytes(number);
    section.bytes[place..place + 4].copy_from_slice(&bytes);
}

/// An address, mostly near the lowest or the highest one.
fn address(section: &Section, numbers: &mut Numbers) -> u64 {
    let by = numbers.below(0x200) as u64;
    let far = [by, section.top() - by, section.eh_frame.address.wrapping_add(by), numbers.any()];
    numbers.choice(&far) & section.top()
}
