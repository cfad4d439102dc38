//! The text of instructions of aarch64 that matter to a frame, as objdump writes it. All others are shown as `.inst`
//! with their 4 bytes as a number.

use super::{Word, SP};
use crate::instruction::{Effect, Target};

const CONDITIONS: [&str; 16] =
    ["eq", "ne", "cs", "cc", "mi", "pl", "vs", "vc", "hi", "ls", "ge", "lt", "gt", "le", "al", "nv"];

/// Hints by the number in them.
const HINTS: [(u32, &str); 19] = [
    (0, "nop"),
    (7, "xpaclri"),
    (8, "pacia1716"),
    (10, "pacib1716"),
    (12, "autia1716"),
    (14, "autib1716"),
    (24, "paciaz"),
    (26, "pacibz"),
    (28, "autiaz"),
    (30, "autibz"),
    (25, "paciasp"),
    (27, "pacibsp"),
    (29, "autiasp"),
    (31, "autibsp"),
    (32, "bti"),
    (34, "bti c"),
    (36, "bti j"),
    (38, "bti jc"),
    (20, "csdb"),
];

pub(super) fn aarch64_text(bytes: &[u8], address: u64) -> String {
    match Word::read(bytes) {
        Some(word) => word.text(address).unwrap_or_else(|| format!(".inst {:#010x}", word.0)),
        None => "(not an instruction)".to_string(),
    }
}

/// A general register, where the last one is the stack pointer or is always zero.
fn aarch64_register_name(number: u32, is_wide: bool, is_sp: bool) -> String {
    match (number, is_wide, is_sp) {
        (31, true, true) => "sp".to_string(),
        (31, false, true) => "wsp".to_string(),
        (31, true, false) => "xzr".to_string(),
        (31, false, false) => "wzr".to_string(),
        (number, true, _) => format!("x{}", number),
        (number, false, _) => format!("w{}", number),
    }
}

impl Word {
    fn x(self, low: u32) -> String {
        aarch64_register_name(self.bits(low + 4, low), self.is_wide(), false)
    }

    fn sp(self, low: u32) -> String {
        aarch64_register_name(self.bits(low + 4, low), self.is_wide(), true)
    }

    fn text(self, address: u64) -> Option<String> {
        match self.bits(28, 25) {
            0b1000 | 0b1001 => self.immediate_text(address),
            0b1010 | 0b1011 => self.branch_text(address),
            0b0100 | 0b0110 | 0b1100 | 0b1110 => self.memory_text(),
            0b0101 | 0b1101 => self.registers_text(),
            _ => None,
        }
    }

    fn immediate_text(self, address: u64) -> Option<String> {
        let shifted = if self.bit(22) { ", lsl #12" } else { "" };
        match (self.bits(25, 23), self.effect(address)) {
            (0b000 | 0b001, Effect::Set { number, .. }) => {
                let word = if self.is_wide() { "adrp" } else { "adr" };
                Some(format!("{} {}, {:#x}", word, aarch64_register_name(self.bits(4, 0), true, false), number))
            }
            (0b010, Effect::Move { to, from }) if to == SP || from == SP => {
                Some(format!("mov {}, {}", self.sp(0), self.sp(5)))
            }
            (0b010, Effect::Nothing) => Some(format!("cmn {}, #{:#x}{}", self.sp(5), self.bits(21, 10), shifted)),
            (0b010, Effect::CompareNumber { .. }) => {
                Some(format!("cmp {}, #{:#x}{}", self.sp(5), self.bits(21, 10), shifted))
            }
            (0b010, _) => {
                let word = ["add", "adds", "sub", "subs"][self.bits(30, 29) as usize];
                let to = if self.bit(29) { self.x(0) } else { self.sp(0) };
                Some(format!("{} {}, {}, #{:#x}{}", word, to, self.sp(5), self.bits(21, 10), shifted))
            }
            (0b100, Effect::Align { mask: Some(mask), .. }) => {
                Some(format!("and {}, {}, #{:#x}", self.sp(0), self.x(5), mask))
            }
            (0b100 | 0b101, Effect::Set { number, .. }) => {
                let number = if self.is_wide() { number } else { i64::from(number as u32) };
                Some(format!("mov {}, #{:#x}", self.x(0), number))
            }
            (0b101, Effect::Insert { .. }) => {
                let shift = match self.bits(22, 21) {
                    0 => String::new(),
                    shift => format!(", lsl #{}", 16 * shift),
                };
                Some(format!("movk {}, #{:#x}{}", self.x(0), self.bits(20, 5), shift))
            }
            _ => None,
        }
    }

    fn branch_text(self, address: u64) -> Option<String> {
        match self.effect(address) {
            Effect::Jump { target: Target::Code(target) } => Some(format!("b {:#x}", target)),
            Effect::Call { target: Target::Code(target) } => Some(format!("bl {:#x}", target)),
            Effect::JumpIf { target, .. } if self.bits(28, 24) == 0b10100 && self.bits(31, 29) == 0b010 => {
                Some(format!("b.{} {:#x}", CONDITIONS[self.bits(3, 0) as usize], target))
            }
            Effect::JumpIf { target, .. } => Some(self.test_text(target)),
            Effect::Return { .. } if self.0 == 0xd65f_03c0 => Some("ret".to_string()),
            Effect::Return { .. } if self.0 == 0xd65f_0bff => Some("retaa".to_string()),
            Effect::Return { .. } if self.0 == 0xd65f_0fff => Some("retab".to_string()),
            Effect::Jump { .. } if self.bits(23, 10) == 0x7c0 => Some(format!("br {}", self.x(5))),
            Effect::Call { .. } if self.bits(23, 10) == 0xfc0 => Some(format!("blr {}", self.x(5))),
            Effect::System { .. } => Some(format!("svc #{:#x}", self.bits(20, 5))),
            Effect::Stop if self.bits(31, 21) == 0x6a1 => Some(format!("brk #{:#x}", self.bits(20, 5))),
            _ if self.0 & 0xffff_f01f == 0xd503_201f => {
                let hint = HINTS.iter().find(|(number, _)| *number == self.bits(11, 5));
                Some(hint.map_or_else(|| format!("hint #{:#x}", self.bits(11, 5)), |(_, name)| name.to_string()))
            }
            _ => None,
        }
    }

    fn test_text(self, target: u64) -> String {
        let suffix = if self.bit(24) { "nz" } else { "z" };
        match self.bit(25) {
            true => {
                let bit = self.bits(31, 31) << 5 | self.bits(23, 19);
                format!("tb{} {}, #{}, {:#x}", suffix, self.x(0), bit, target)
            }
            false => format!("cb{} {}, {:#x}", suffix, self.x(0), target),
        }
    }

    /// A register of a load or a store.
    fn moved_text(self, low: u32, bytes: u32) -> String {
        let number = self.bits(low + 4, low);
        match (self.bit(26), bytes) {
            (true, 4) => format!("s{}", number),
            (true, 8) => format!("d{}", number),
            (true, 16) => format!("q{}", number),
            (_, bytes) => aarch64_register_name(number, bytes == 8, false),
        }
    }

    fn memory_text(self) -> Option<String> {
        let base = aarch64_register_name(self.bits(9, 5), true, true);
        let at = |is_before: bool, is_after: bool, offset: i32| match (is_before, is_after, offset) {
            (true, _, offset) => format!("[{}, #{}]!", base, offset),
            (_, true, offset) => format!("[{}], #{}", base, offset),
            (_, _, 0) => format!("[{}]", base),
            (_, _, offset) => format!("[{}, #{}]", base, offset),
        };
        let is_load = self.bit(22);
        if self.bits(29, 27) == 0b101 {
            let bytes = match (self.bit(26), self.bits(31, 30)) {
                (true, size @ 0..=2) => 4 << size,
                (false, 0) => 4,
                (false, 2) => 8,
                _ => return None,
            };
            let word = match (is_load, self.bits(24, 23)) {
                (true, 0) => "ldnp",
                (false, 0) => "stnp",
                (true, _) => "ldp",
                (false, _) => "stp",
            };
            let place = at(self.bits(24, 23) == 3, self.bits(24, 23) == 1, self.signed(21, 15) * bytes as i32);
            return Some(format!("{} {}, {}, {}", word, self.moved_text(0, bytes), self.moved_text(10, bytes), place));
        }
        let is_quad = self.bit(26) && self.bits(31, 30) == 0 && self.bit(23);
        let bytes = if is_quad { 16 } else { 1 << self.bits(31, 30) };
        let is_plain = self.bits(29, 27) == 0b111 && bytes >= 4 && (is_quad || !self.bit(23));
        let word = if is_load { "ldr" } else { "str" };
        let place = match (self.bit(24), self.bit(21), self.bits(11, 10)) {
            (true, ..) => at(false, false, (self.bits(21, 10) * bytes) as i32),
            (false, false, 0b01) => at(false, true, self.signed(20, 12)),
            (false, false, 0b11) => at(true, false, self.signed(20, 12)),
            _ => return None,
        };
        Some(format!("{} {}, {}", word, self.moved_text(0, bytes), place)).filter(|_| is_plain)
    }

    fn registers_text(self) -> Option<String> {
        let is_extended = self.bit(21);
        match (self.bits(28, 24), self.bits(15, 10)) {
            (0b01010, 0) if self.bits(30, 29) == 1 && !self.bit(21) && self.bits(9, 5) == 31 => {
                Some(format!("mov {}, {}", self.x(0), self.x(16)))
            }
            (0b01011, 0) if !is_extended && self.bits(4, 0) == 31 && self.bits(30, 29) == 3 => {
                Some(format!("cmp {}, {}", self.x(5), self.x(16)))
            }
            (0b01011, 0) if !is_extended && self.bits(9, 5) != 31 => {
                let word = ["add", "adds", "sub", "subs"][self.bits(30, 29) as usize];
                Some(format!("{} {}, {}, {}", word, self.x(0), self.x(5), self.x(16)))
            }
            (0b01011, 0b01_1000) if is_extended && !self.bit(29) && self.is_wide() => {
                let word = if self.bit(30) { "sub" } else { "add" };
                Some(format!("{} {}, {}, {}", word, self.sp(0), self.sp(5), self.x(16)))
            }
            _ => None,
        }
    }
}
