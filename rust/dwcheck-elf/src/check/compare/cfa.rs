//! Compares CFAs, of which one or both may be expressions: both are computed over registers of which nothing is known.

use crate::cfi::row::Cfa;
use dwcheck_lint::expression::Context;
use dwcheck_lint::machine::Machine;
use dwcheck_lint::register::Register;
use dwcheck_lint::state::State;
use dwcheck_lint::stores::Stores;
use dwcheck_lint::value::{Base, Value};
use dwcheck_types::codes::op;

/// What is known of two CFAs.
#[derive(Clone, Copy, Debug, PartialEq, Eq)]
pub(super) enum Alike {
    /// They are the same.
    Same,
    /// They are the same at this address; at the next one they may not be, since an expression uses the address.
    SameHere,
    /// They differ at this address.
    Different,
    /// One of them is an expression whose value isn't known.
    Unknown,
}

/// A state in which each register holds an address of its own, so that two CFAs are equal if they are the same register
/// plus the same number.
pub(super) struct Values {
    machine: &'static Machine,
    state: State,
    stores: Stores,
}

impl Values {
    pub fn new(machine: &'static Machine) -> Self {
        let mut state = State::unknown(false);
        for register in machine.followed() {
            let base = Base::made_at(u32::from(register.0));
            state.set(register, Value::Address { base, offset: 0 });
        }
        Values { machine, state, stores: Stores::new(machine) }
    }

    fn value(&self, cfa: &Cfa<'_>, address: u64) -> Option<Value> {
        let value = match cfa {
            Cfa::RegisterOffset { register, offset } => {
                let register = (self.machine.register)(*register);
                let is_known = self.machine.is_followed(register);
                is_known.then(|| self.state.get(register).plus(*offset))?
            }
            Cfa::Expression(bytes) => {
                let Values { machine, state, stores } = self;
                Context { machine, state, stores, address }.evaluate(bytes, None)
            }
        };
        Some(value).filter(|value| matches!(value, Value::Address { .. } | Value::Number(_)))
    }

    /// Whether an expression may have another value at each address.
    fn uses_address(&self, cfa: &Cfa<'_>) -> bool {
        let Register(number) = self.machine.return_address;
        // A byte that is this operation, or an operand that looks like it.
        let is_read = |bytes: &[u8]| bytes.contains(&(op::BREG0 + number)) || bytes.contains(&op::BREGX);
        let is_followed = self.machine.is_followed(self.machine.return_address);
        matches!(cfa, Cfa::Expression(bytes) if !is_followed && number < 32 && is_read(bytes))
    }
}

/// Compares two CFAs at an address.
pub(super) fn compared(one: &Cfa<'_>, other: &Cfa<'_>, address: u64, values: Option<&Values>) -> Alike {
    match (one, other, values) {
        (one, other, _) if one == other => Alike::Same,
        (Cfa::RegisterOffset { .. }, Cfa::RegisterOffset { .. }, _) => Alike::Different,
        (one, other, Some(values)) => match (values.value(one, address), values.value(other, address)) {
            (Some(first), Some(second)) if first != second => Alike::Different,
            (Some(_), Some(_)) if values.uses_address(one) || values.uses_address(other) => Alike::SameHere,
            (Some(_), Some(_)) => Alike::Same,
            _ => Alike::Unknown,
        },
        _ => Alike::Unknown,
    }
}

/// Whether what is found for two CFAs holds at one address only.
pub(super) fn is_for_one_address(one: &Cfa<'_>, other: &Cfa<'_>, values: Option<&Values>) -> bool {
    one != other && values.map_or(false, |values| values.uses_address(one) || values.uses_address(other))
}
