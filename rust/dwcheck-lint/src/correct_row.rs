//! What the code says where a row is wrong.

use crate::instruction::Key;
use crate::machine::{Machine, MOST_CALLEE_SAVED};
use crate::register::Register;
use crate::state::State;
use crate::table::{Cfa, Row};
use crate::value::{Base, Value};

/// Where a register's entry value is.
#[derive(Clone, Copy, Debug, PartialEq, Eq)]
pub enum Location {
    /// In a register.
    Register(Register),
    /// In memory, at the CFA plus an offset.
    Slot(i64),
}

/// What the code says at an address.
#[derive(Clone, Copy, Debug, Default, PartialEq, Eq)]
pub struct CorrectRow {
    /// The CFA, as a register plus an offset, if a register has a known distance from it.
    pub cfa: Option<(Register, i64)>,
    /// Where the return address is, as far as is known, and whether it is signed there.
    pub return_address: Option<(Location, bool)>,
    /// Where the entry value of each register is that a function has to give back, as far as is known.
    pub callee_saved: [Option<Location>; MOST_CALLEE_SAVED],
}

impl CorrectRow {
    /// What a state says. If the row's register gives the CFA, the CFA is shown by it.
    pub fn of(machine: &Machine, row: &Row<'_>, state: &State) -> CorrectRow {
        let of_row = match row.cfa {
            Cfa::RegisterOffset { register, .. } => Some(register),
            Cfa::Expression(_) => None,
        };
        let registers = || machine.followed();
        let preferred = of_row.into_iter().chain([machine.stack_pointer, machine.frame_pointer]).chain(registers());
        let distance = |register| Some((register, state.get(register).cfa_offset()?.checked_neg()?));
        let find = |register: Register, value: Value| {
            let holds = |other: &Register| state.get(*other) == value;
            let in_register = Some(register).filter(holds).or_else(|| registers().find(holds));
            in_register.map(Location::Register).or_else(|| state.place_of(Base::CFA, value).map(Location::Slot))
        };
        let mut callee_saved = [None; MOST_CALLEE_SAVED];
        for (place, register) in callee_saved.iter_mut().zip(machine.callee_saved) {
            *place = find(*register, Value::Entry(*register));
        }
        let (address, plain) = (machine.return_address, Value::Entry(machine.return_address));
        let mut with_each_key = [None, Some(Key::A), Some(Key::B)].into_iter().map(Value::signed_by_cfa);
        let signed = || with_each_key.find_map(|value| find(address, value)).map(|place| (place, true));
        let return_address = find(address, plain).map(|place| (place, false)).or_else(signed);
        CorrectRow { cfa: preferred.filter_map(distance).next(), return_address, callee_saved }
    }
}
