//! What is known of the registers and of the stack's slots at a place in the code, and how two such states are merged.

use crate::machine::MOST_FOLLOWED;
use crate::register::{Register, Registers};
use crate::value::{Base, Value};
use smallvec::SmallVec;
use std::rc::Rc;

/// How many registers are kept without allocating. x86-64 has no more.
const FEW: usize = 16;

/// The most slots of the stack that are followed.
const MOST_SLOTS: usize = 28;

/// How many slots there are mostly at most: as many as x86-64's callee-saved registers and the return address need,
/// and one more.
const FEW_SLOTS: usize = 8;

/// A slot, and what it holds.
#[derive(Clone, Copy, Debug, PartialEq, Eq)]
struct Slot {
    base: Base,
    offset: i64,
    /// How many bytes it has: those of an address.
    bytes: u8,
    value: Value,
}

/// The slots of a state.
type Slots = SmallVec<[Slot; FEW_SLOTS]>;

/// What is known at a place in the code.
#[derive(Debug)]
pub struct State {
    registers: [Value; FEW],
    /// Further registers. Those after the last one are unknown.
    others: Vec<Value>,
    /// Most instructions store in no slot, so most states of a function share their slots.
    slots: Rc<Slots>,
    /// Whether it comes of a row that was taken as an assumption, so that nothing is known of slots
    /// that aren't listed. Otherwise it was followed from the function's entry, and a slot to which
    /// the function never stores an entry value holds none. A slot to which it does is unknown if it
    /// isn't listed: where ways meet, what differs isn't listed anymore.
    pub is_assumed: bool,
    /// Whether the stack pointer may be above what is known of it, by arguments that a callee has removed.
    pub is_doubtful: bool,
    /// Whether a slot was left out because there were too many.
    is_full: bool,
    changes: Changes,
}

/// What may have changed in a state.
#[derive(Clone, Copy, Debug, Default, PartialEq, Eq)]
pub struct Changes {
    registers: Registers,
    has_slots: bool,
}

impl Changes {
    /// Whether some of these registers may have changed, or a slot.
    pub fn concern(self, registers: Registers) -> bool {
        self.has_slots || !self.registers.both(registers).is_empty()
    }
}

impl Clone for State {
    fn clone(&self) -> State {
        let State { registers, is_assumed, is_doubtful, is_full, changes, .. } = *self;
        let (others, slots) = (self.others.clone(), Rc::clone(&self.slots));
        State { registers, others, slots, is_assumed, is_doubtful, is_full, changes }
    }

    /// Copies another state into this one, in its place: states are large, and copied for each block.
    fn clone_from(&mut self, other: &State) {
        let State { registers, others, slots, is_assumed, is_doubtful, is_full, changes } = self;
        *registers = other.registers;
        others.clone_from(&other.others);
        slots.clone_from(&other.slots);
        (*is_assumed, *is_doubtful) = (other.is_assumed, other.is_doubtful);
        (*is_full, *changes) = (other.is_full, other.changes);
    }
}

impl PartialEq for State {
    fn eq(&self, other: &State) -> bool {
        let flags = |state: &State| (state.is_assumed, state.is_doubtful, state.is_full);
        flags(self) == flags(other)
            && self.registers == other.registers
            && self.others == other.others
            && self.has_same_slots(other)
    }
}

impl Eq for State {}

impl State {
    /// A state in which nothing is known of any register.
    pub fn unknown(is_assumed: bool) -> State {
        let registers = [Value::Unknown; FEW];
        let (others, slots, changes) = (Vec::new(), Rc::default(), Changes::default());
        State { registers, others, slots, is_assumed, is_doubtful: false, is_full: false, changes }
    }

    /// What may have changed since [`State::take_changes`] was called.
    pub fn changes(&self) -> Changes {
        self.changes
    }

    /// What may have changed since the last call.
    pub fn take_changes(&mut self) -> Changes {
        std::mem::take(&mut self.changes)
    }

    /// What a register holds.
    pub fn get(&self, register: Register) -> Value {
        let others = || self.others.get(register.index().wrapping_sub(FEW));
        self.registers.get(register.index()).or_else(others).copied().unwrap_or(Value::Unknown)
    }

    /// Sets what a register holds.
    pub fn set(&mut self, register: Register, value: Value) {
        self.changes.registers.insert(register);
        if let Some(place) = self.registers.get_mut(register.index()) {
            *place = value;
        } else if register.index() < MOST_FOLLOWED {
            if self.others.is_empty() {
                self.others.resize(MOST_FOLLOWED - FEW, Value::Unknown);
            }
            self.others[register.index() - FEW] = value;
        }
    }

    /// Whether nothing is known of a slot that isn't listed, other than by what the function stores. Where
    /// ways meet that bring different addresses, the slot has had other names.
    pub fn is_partial(&self, base: Base) -> bool {
        self.is_assumed || self.is_full || base.is_joined()
    }

    /// Whether another state says the same of some registers and of all slots.
    pub fn is_same_for(&self, other: &State, registers: Registers) -> bool {
        let is_same = |register: Register| match register.index() {
            index if index < FEW => self.registers[index] == other.registers[index],
            _ => self.get(register) == other.get(register),
        };
        let flags = |state: &State| (state.is_assumed, state.is_doubtful, state.is_full);
        flags(self) == flags(other) && self.has_same_slots(other) && registers.iter().all(is_same)
    }

    fn has_same_slots(&self, other: &State) -> bool {
        Rc::ptr_eq(&self.slots, &other.slots) || self.slots == other.slots
    }

    /// Forgets the slots that aren't to be kept.
    fn retain(&mut self, is_callee_saved: impl Fn(&Slot) -> bool) {
        if !self.slots.iter().all(&is_callee_saved) {
            self.changes.has_slots = true;
            Rc::make_mut(&mut self.slots).retain(|slot| is_callee_saved(slot));
        }
    }

    /// Notes that slots get other values. If these are known not to be entry values, slots that held one stay
    /// listed, as such that hold none.
    fn lose(&mut self, is_lost: impl Fn(&Slot) -> bool, is_known: bool) {
        let changes = |slot: &Slot| is_lost(slot) && !(is_known && slot.value == Value::Clobbered);
        if !self.slots.iter().any(changes) {
            return;
        }
        self.changes.has_slots = true;
        Rc::make_mut(&mut self.slots).retain(|slot| {
            let (is_lost, is_noted) = (is_lost(slot), is_known && slot.value.is_entry_or_none());
            slot.value = if is_lost { Value::Clobbered } else { slot.value };
            !is_lost || is_noted
        });
    }

    /// What a slot holds. `None` if it isn't listed.
    pub fn slot(&self, base: Base, offset: i64) -> Option<Value> {
        self.slots.iter().find(|slot| (slot.base, slot.offset) == (base, offset)).map(|slot| slot.value)
    }

    /// The offset of the slot highest above a base that holds a value.
    pub fn place_of(&self, base: Base, value: Value) -> Option<i64> {
        let holds = |slot: &&Slot| slot.base == base && slot.value == value;
        self.slots.iter().filter(holds).map(|slot| slot.offset).max()
    }

    /// Stores a value in a slot of some bytes.
    pub fn put(&mut self, base: Base, offset: i64, bytes: u8, value: Value) {
        self.overwrite(base, offset, bytes.into(), value);
        self.changes.has_slots = true;
        let slots = Rc::make_mut(&mut self.slots);
        match slots.iter().position(|slot| (slot.base, slot.offset) == (base, offset)) {
            Some(place) => slots[place].value = value,
            None if slots.len() < MOST_SLOTS => slots.push(Slot { base, offset, bytes, value }),
            None => self.is_full = true,
        }
    }

    /// Notes that a value is stored in a range of bytes, in whole or in part. No slot that shares a byte with them
    /// holds what it held.
    pub fn overwrite(&mut self, base: Base, offset: i64, bytes: i64, value: Value) {
        let end = offset.wrapping_add(bytes);
        let is_after = |slot: &Slot| slot.offset.wrapping_add(slot.bytes.into()) > offset;
        let is_lost = |slot: &Slot| slot.base == base && slot.offset < end && is_after(slot);
        self.lose(is_lost, value != Value::Unknown);
    }

    /// Notes that a call may overwrite the slots below an address.
    pub fn overwrite_below(&mut self, base: Base, offset: i64) {
        self.lose(|slot| slot.base == base && slot.offset < offset, true);
    }

    /// Forgets everything that is relative to a base, because the code that makes it runs again.
    pub fn forget(&mut self, base: Base) {
        let is_of = |value: &Value| matches!(value, Value::Address { base: other, .. } if *other == base);
        for register in (0..MOST_FOLLOWED as u8).map(Register) {
            if is_of(&self.get(register)) {
                self.set(register, Value::Unknown);
            }
        }
        self.retain(|slot| slot.base != base && !is_of(&slot.value));
    }

    /// Reduces this state to what is also known in the other, where two ways meet at an offset in the
    /// function. Returns whether it changed.
    pub fn merge(&mut self, other: &State, at: u32) -> bool {
        let (mut has_changed, mut joins) = (false, Vec::new());
        let mut merge = |index, value: &mut Value, other: Value| {
            let (register, one) = (Register(index as u8), *value);
            if one != other {
                *value = one.joined(other, at, register);
                has_changed |= *value != one;
            }
            match *value {
                Value::Address { base, offset: 0 } if base == Base::joined(at, register) => {
                    joins.push(Join { base, one, other });
                }
                _ => {}
            }
        };
        for (index, (value, other)) in self.registers.iter_mut().zip(&other.registers).enumerate() {
            if !value.is_plainly(*other) {
                merge(index, value, *other);
            }
        }
        for (index, value) in self.others.iter_mut().enumerate() {
            merge(FEW + index, value, other.others.get(index).copied().unwrap_or(Value::Unknown));
        }
        has_changed |= self.merge_slots(other, at, &joins);
        has_changed |= other.is_full && !self.is_full || other.is_assumed && !self.is_assumed;
        has_changed |= other.is_doubtful && !self.is_doubtful;
        self.is_full |= other.is_full;
        self.is_doubtful |= other.is_doubtful;
        self.is_assumed |= other.is_assumed;
        has_changed
    }

    /// Keeps the slots that both states have. Where both have one at the same distance from a register that
    /// gets a new base, the slot is known by that, too.
    fn merge_slots(&mut self, other: &State, at: u32, joins: &[Join]) -> bool {
        let is_callee_saved =
            |slot: &Slot| !slot.base.is_joined_at(at) && other.slot(slot.base, slot.offset) == Some(slot.value);
        if joins.is_empty() {
            let count = self.slots.len();
            // Mostly, both states have the same slots.
            if !self.has_same_slots(other) || self.slots.iter().any(|slot| slot.base.is_joined_at(at)) {
                self.retain(is_callee_saved);
            }
            return self.slots.len() < count;
        }
        let renamed = |join: &Join| self.slots.iter().filter_map(|slot| join.renamed(slot, other)).collect::<Vec<_>>();
        let renamed: Vec<_> = joins.iter().flat_map(renamed).collect();
        let slots: Slots =
            self.slots.iter().filter(|slot| is_callee_saved(slot)).copied().chain(renamed).take(MOST_SLOTS).collect();
        let has_changed = *self.slots != slots;
        self.slots = Rc::new(slots);
        has_changed
    }
}

/// A register that gets a new base where two ways meet, and what it held on both.
struct Join {
    base: Base,
    one: Value,
    other: Value,
}

impl Join {
    /// A slot of the first state by the new base, if the other state has the same value at the same distance
    /// from the register.
    fn renamed(&self, slot: &Slot, other: &State) -> Option<Slot> {
        match (self.one, self.other) {
            (Value::Address { base: one, offset: from }, Value::Address { base, offset: to }) if one == slot.base => {
                let distance = slot.offset.wrapping_sub(from);
                let is_same = other.slot(base, distance.wrapping_add(to)) == Some(slot.value);
                Some(Slot { base: self.base, offset: distance, ..*slot }).filter(|_| is_same)
            }
            _ => None,
        }
    }
}

#[cfg(test)]
mod tests {
    use super::*;

    #[test]
    fn a_store_ends_what_it_overlaps() {
        let mut state = State::unknown(false);
        state.put(Base::CFA, -16, 8, Value::Entry(Register(6)));
        state.overwrite(Base::CFA, -8, 8, Value::Clobbered);
        assert_eq!(state.slot(Base::CFA, -16), Some(Value::Entry(Register(6))));
        state.overwrite(Base::CFA, -9, 1, Value::Clobbered);
        assert_eq!(state.slot(Base::CFA, -16), Some(Value::Clobbered));
        state.overwrite(Base::CFA, -9, 1, Value::Unknown);
        assert_eq!(state.slot(Base::CFA, -16), None);
    }

    #[test]
    fn too_many_slots_are_noticed() {
        let mut state = State::unknown(false);
        (0..29).for_each(|count| state.put(Base::CFA, -8 * count, 8, Value::Entry(Register(3))));
        assert!(state.is_partial(Base::CFA));
    }

    #[test]
    fn slots_are_known_by_a_new_base() {
        let frame = |offset| {
            let mut state = State::unknown(false);
            state.set(Register(7), Value::from_cfa(offset));
            state.put(Base::CFA, offset + 8, 8, Value::Entry(Register(3)));
            state
        };
        let mut one = frame(-16);
        assert!(one.merge(&frame(-32), 4));
        assert_eq!(one.slot(Base::joined(4, Register(7)), 8), Some(Value::Entry(Register(3))));
        assert!(!one.merge(&frame(-48), 4));
        assert!(one.merge(&State::unknown(false), 4));
        assert_eq!(one.slot(Base::joined(4, Register(7)), 8), None);
    }

    #[test]
    fn merging_loses_what_differs() {
        let mut one = State::unknown(false);
        one.put(Base::CFA, -16, 8, Value::Entry(Register(6)));
        one.set(Register(7), Value::from_cfa(-16));
        let mut other = one.clone();
        assert!(!one.merge(&other, 4));
        other.set(Register(7), Value::from_cfa(-24));
        other.put(Base::CFA, -16, 8, Value::Entry(Register(3)));
        other.set(Register(3), Value::Clobbered);
        one.set(Register(3), Value::Entry(Register(3)));
        assert!(one.merge(&other, 4));
        let joined = Value::Address { base: Base::joined(4, Register(7)), offset: 0 };
        assert_eq!(
            (one.get(Register(3)), one.get(Register(7)), one.slot(Base::CFA, -16)),
            (Value::Unknown, joined, None)
        );
    }
}
