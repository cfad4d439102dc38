//! What a function stores anywhere in it, and what is so known of memory.
//!
//! "This slot never held the value" needs to know every slot to which the function ever stores an
//! entry value. "This slot doesn't hold the value here" needs to know whether the function stores one where
//! it can't be followed. While the flow is followed, not all of this is known yet, so an answer may have been
//! wrong: then [`Stores::is_outdated`] says that the flow has to be followed again.

use crate::instruction::MemoryOperand;
use crate::machine::Machine;
use crate::register::{Register, Registers};
use crate::state::State;
use crate::value::{Base, Value};
use std::collections::BTreeSet;

/// Addresses this far from the CFA are kept in slots, because rows may use them.
const NEAR_CFA: std::ops::RangeInclusive<i64> = -160..=64;

/// What a function stores.
#[derive(Debug, Default)]
pub struct Stores {
    slots: BTreeSet<(Base, i64)>,
    /// The slots that were read as never stored to.
    denied: BTreeSet<(Base, i64)>,
    /// Whether an entry value was stored at an address whose distance from the CFA isn't known.
    has_strayed: bool,
    /// Whether a slot was read as one that holds no entry value at that place, though one is stored there
    /// elsewhere.
    denied_stray: bool,
    /// Whether an entry value was stored at an address that isn't known.
    has_escaped: bool,
    /// Whether memory at an unknown address was read as if no entry value had been stored there.
    denied_escape: bool,
    /// The stack pointer, and the registers by which rows give the CFA. An address in another register may come of
    /// memory that a callee has changed.
    pub frame: Registers,
    /// Whether an entry value is copied to a vector register. What vector registers hold isn't followed.
    pub is_in_vectors: bool,
    /// The registers whose entry values are copied anywhere.
    pub saved: Registers,
    /// Whether the return address is stored at an address that isn't known: code that moves its
    /// frame, such as libffi's, does so.
    pub moves_return_address: bool,
    is_outdated: bool,
}

impl Stores {
    /// Nothing is stored but the return address, if a call does that.
    pub fn new(machine: &Machine) -> Stores {
        let slot = machine.return_slot.map(|offset| (Base::CFA, offset));
        let mut stores = Stores { slots: slot.into_iter().collect(), ..Stores::default() };
        stores.frame.insert(machine.stack_pointer);
        stores
    }

    /// Whether an answer that was given before turned out to be wrong.
    pub fn is_outdated(&self) -> bool {
        self.is_outdated
    }

    /// Begins to follow the flow again, with all stores that are known by now.
    pub fn restart(&mut self) {
        self.denied.clear();
        self.denied_escape = false;
        self.denied_stray = false;
        self.is_outdated = false;
    }

    /// Whether an entry value is perhaps ever stored in a slot, as far as is known by now.
    pub fn has(&self, base: Base, offset: i64) -> bool {
        self.is_in_vectors || self.slots.contains(&(base, offset))
    }

    /// What a vector register perhaps holds.
    pub fn of_vector(&self) -> Value {
        if self.is_in_vectors {
            Value::Unknown
        } else {
            Value::Clobbered
        }
    }

    /// Notes that a value is copied to a vector register.
    pub fn note_vector(&mut self, value: Value) {
        self.note_copy(value);
        if matches!(value, Value::Entry(_)) && !self.is_in_vectors {
            (self.is_in_vectors, self.is_outdated) = (true, true);
        }
    }

    fn add(&mut self, base: Base, offset: i64) {
        if self.slots.insert((base, offset)) {
            self.is_outdated |= self.denied.contains(&(base, offset));
        }
    }

    /// What a slot holds, if that is known. A slot that holds no entry value counts as such only if the function
    /// stores one there elsewhere, and all such stores are followed.
    pub fn held(&self, state: &State, base: Base, offset: i64) -> Option<Value> {
        let is_followed = || self.has(base, offset) && !self.has_strayed && !self.is_in_vectors;
        state.slot(base, offset).filter(|value| *value != Value::Clobbered || is_followed())
    }

    /// Notes that a register's entry value is copied.
    pub fn note_copy(&mut self, value: Value) {
        if let Value::Entry(register) = value {
            self.saved.insert(register);
        }
    }

    /// What a word of memory holds.
    pub fn load(&mut self, state: &State, place: MemoryOperand) -> Value {
        match state.get(place.base).plus_of_place(place) {
            Value::Address { base, offset } => match self.held(state, base, offset) {
                Some(value) => {
                    self.denied_stray |= value == Value::Clobbered;
                    value
                }
                None if state.is_partial(base) || self.has(base, offset) => Value::Unknown,
                None => {
                    self.denied.insert((base, offset));
                    Value::Clobbered
                }
            },
            _ => self.load_elsewhere(state, state.get(place.base)),
        }
    }

    /// What a word of memory holds at an address of which only this is known.
    pub fn load_elsewhere(&mut self, state: &State, address: Value) -> Value {
        if address == Value::Unknown || state.is_assumed || self.has_escaped {
            return Value::Unknown;
        }
        self.denied_escape = true;
        Value::Clobbered
    }

    /// Stores a word.
    pub fn store(&mut self, state: &mut State, machine: &Machine, place: Option<MemoryOperand>, value: Value) {
        self.note_copy(value);
        let address = place.map_or(Value::Clobbered, |place| state.get(place.base).plus_of_place(place));
        match address {
            Value::Address { base, offset } if is_callee_saved(value) => {
                state.put(base, offset, machine.address_bytes, value);
                self.add(base, offset);
                if base != Base::CFA {
                    self.stray(value);
                }
            }
            Value::Address { base, offset } => {
                let value = self.overwriting(place, value);
                state.overwrite(base, offset, machine.address_bytes.into(), value);
            }
            _ => {
                self.stray(value);
                self.escape(machine.return_address, value);
            }
        }
    }

    /// What is known to be stored at a place: nothing if the register of the place isn't one of the frame.
    pub fn overwriting(&self, place: Option<MemoryOperand>, value: Value) -> Value {
        match place.filter(|place| self.frame.contains(place.base)) {
            Some(_) => value,
            None => Value::Unknown,
        }
    }

    /// Notes that a value is stored at an address whose distance from the CFA isn't known.
    fn stray(&mut self, value: Value) {
        if matches!(value, Value::Entry(_)) && !self.has_strayed {
            self.has_strayed = true;
            self.is_outdated |= self.denied_stray;
        }
    }

    /// Notes that a value is stored at an address that isn't known.
    fn escape(&mut self, return_address: Register, value: Value) {
        match value {
            Value::Entry(register) if register == return_address => self.moves_return_address = true,
            Value::SignedReturn { .. } => self.moves_return_address = true,
            Value::Entry(_) if !self.has_escaped => {
                self.has_escaped = true;
                self.is_outdated |= self.denied_escape;
            }
            _ => {}
        }
    }
}

/// Whether a value is worth a slot.
fn is_callee_saved(value: Value) -> bool {
    matches!(value, Value::Entry(_) | Value::SignedReturn { .. })
        || value.cfa_offset().map_or(false, |offset| NEAR_CFA.contains(&offset))
}

impl Value {
    /// The address of a place whose base register holds this value. Anything but an address stays
    /// as it is.
    fn plus_of_place(self, place: MemoryOperand) -> Value {
        match self {
            Value::Address { .. } => self.plus(place.offset.into()),
            other => other,
        }
    }
}
