//! Instructions of aarch64 that sign addresses, and authenticate them.

use super::{Word, LINK, SP};
use crate::instruction::{Effect, Key};
use crate::register::Register;

/// The key by the lowest bit of a number.
fn key_of(number: u32) -> Key {
    if number & 1 == 0 {
        Key::A
    } else {
        Key::B
    }
}

impl Word {
    /// A hint, by its number. Those that processors without signatures take as `nop` are among them.
    pub(super) fn hint(self) -> Effect {
        let (by_x16, by_sp) = (Some(Register(16)), Some(SP));
        let number = self.bits(11, 5);
        let key = key_of(number >> 1);
        match number {
            7 => Effect::Strip { to: LINK },
            8 | 10 => Effect::Sign { to: Register(17), by: by_x16, key },
            12 | 14 => Effect::Authenticate { to: Register(17), by: by_x16, key },
            24 | 26 => Effect::Sign { to: LINK, by: None, key },
            25 | 27 => Effect::Sign { to: LINK, by: by_sp, key },
            28 | 30 => Effect::Authenticate { to: LINK, by: None, key },
            29 | 31 => Effect::Authenticate { to: LINK, by: by_sp, key },
            _ => Effect::Nothing,
        }
    }

    /// The instructions that name their registers. Keys for data aren't those of return addresses.
    pub(super) fn signing(self) -> Effect {
        let operation = self.bits(15, 10);
        let by = Some(self.general_or_sp(5)).filter(|_| operation & 0b111010 == 0);
        let key = key_of(operation);
        match (self.general(0), operation) {
            (Some(to), 0b000000..=0b000011 | 0b001000..=0b001011) => Effect::Sign { to, by, key },
            (Some(to), 0b000100..=0b000111 | 0b001100..=0b001111) => Effect::Authenticate { to, by, key },
            (Some(to), 0b010000 | 0b010001) => Effect::Strip { to },
            // These sign the return address by the address of the instruction, too.
            _ if operation & 0b100000 != 0 => Effect::Sign { to: LINK, by: None, key },
            _ => Effect::Nothing,
        }
    }
}
