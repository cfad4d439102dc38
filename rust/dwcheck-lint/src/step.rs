//! How an instruction changes what is known: it moves, adds, loads, stores, pushes or pops.

use crate::instruction::{Effect, Entry, Key, MemoryOperand, Scale, Transfer};
use crate::machine::Machine;
use crate::register::{Register, Registers};
use crate::state::State;
use crate::stores::Stores;
use crate::value::{Base, Value};
use std::num::NonZeroU8;

/// What is known before an instruction, and what the function stores.
pub struct Step<'a> {
    /// The machine.
    pub machine: &'a Machine,
    /// What is known.
    pub state: &'a mut State,
    /// What the function stores.
    pub stores: &'a mut Stores,
    /// The offset of the instruction in its function.
    pub at: u32,
}

/// What a call does to registers.
#[derive(Clone, Copy, Debug, PartialEq, Eq)]
pub struct Called {
    /// The registers that it may change.
    pub changed: Registers,
    /// What they hold afterwards.
    pub value: Value,
}

impl Step<'_> {
    /// Changes what is known as an instruction does that isn't a call.
    pub fn apply(&mut self, effect: &Effect) {
        self.state.is_doubtful &= !self.finds_stack_pointer(effect);
        match *effect {
            Effect::Write { registers, stored } => self.write(registers, stored),
            Effect::System { registers } => self.write(registers, None),
            Effect::MayWrite { registers } => registers.iter().for_each(|register| {
                let merged = self.state.get(register).merged(Value::Clobbered);
                self.state.set(register, merged);
            }),
            Effect::Set { to, number } => self.state.set(to, Value::Number(number)),
            Effect::Add { to, from, number } => self.state.set(to, self.state.get(from).plus(number)),
            Effect::Calculate { register, operation, is_half } => match self.state.get(register) {
                Value::Number(number) => {
                    self.state.set(register, Value::Number(operation.applied(number, is_half)));
                }
                _ => self.write(Registers::of(&[register.0]), None),
            },
            Effect::Insert { to, mask, number } => self.insert(to, mask, number),
            Effect::AddRegister { to, from, by, scale } => self.add_register(to, from, by, scale),
            Effect::SubtractRegister { to, from, by } => self.subtract_register(to, from, by),
            Effect::Derive { to, from } => self.derive(to, self.state.get(from)),
            Effect::Align { to, from, mask } => self.align(to, from, mask),
            Effect::Sign { to, by, key } => self.sign(to, by, key),
            Effect::Authenticate { to, by, key } => self.authenticate(to, by, key),
            Effect::Strip { to } if matches!(self.state.get(to), Value::SignedReturn { .. }) => {
                self.state.set(to, self.return_address());
            }
            Effect::Transfer(transfer) => self.transfer(&transfer),
            _ => self.apply_move(effect),
        }
    }

    /// The instructions that move a value as it is: between registers, or between a register and memory.
    fn apply_move(&mut self, effect: &Effect) {
        match *effect {
            Effect::Move { to, from } => {
                let value = self.state.get(from);
                self.stores.note_copy(value);
                self.state.set(to, value);
            }
            Effect::ToVector { from } => self.stores.note_vector(self.state.get(from)),
            Effect::FromVector { to } => {
                let value = self.stores.of_vector();
                self.set_loaded(to, value);
            }
            Effect::MayMove { to, from } => {
                let merged = self.state.get(to).merged(self.state.get(from));
                self.state.set(to, merged);
            }
            Effect::Exchange { one, other } => self.exchange(one, other),
            Effect::Load { to, from } => {
                let value = self.stores.load(self.state, from);
                self.set_loaded(to, value);
            }
            Effect::LoadEntry { to, base, offset, entry } => self.load_entry(to, base, offset, entry),
            Effect::Store { from, to } => self.store(to, self.state.get(from)),
            Effect::StoreNumber { to, bytes } => self.overwrite(to, bytes, Value::Clobbered),
            _ => self.apply_to_stack(effect),
        }
    }

    /// The instructions that move the stack pointer by themselves.
    fn apply_to_stack(&mut self, effect: &Effect) {
        match *effect {
            Effect::Push { from } => self.push(self.state.get(from)),
            Effect::PushMemory { from } => {
                let value = self.stores.load(self.state, from);
                self.push(value);
            }
            Effect::PushNumber { number } => self.push(Value::Number(number)),
            Effect::PushOther | Effect::PushFlags => self.push(Value::Clobbered),
            Effect::Pop { to } => {
                let value = self.pop();
                self.set_loaded(to, value);
            }
            Effect::PopOther { to } => {
                let value = self.pop();
                if to.is_some() {
                    self.store(to, value);
                }
            }
            Effect::PopFlags => {
                self.pop();
            }
            Effect::Enter { bytes } => {
                let (pointer, frame) = (self.machine.stack_pointer, self.machine.frame_pointer);
                self.push(self.state.get(frame));
                self.state.set(frame, self.state.get(pointer));
                self.state.set(pointer, self.state.get(pointer).plus(-i64::from(bytes)));
            }
            Effect::Leave => {
                let frame = self.machine.frame_pointer;
                self.state.set(self.machine.stack_pointer, self.state.get(frame));
                let value = self.pop();
                self.state.set(frame, value);
            }
            _ => {}
        }
    }

    /// Changes what is known as a call does that returns.
    pub fn call(&mut self, called: Called) {
        called.changed.iter().for_each(|register| self.state.set(register, called.value));
        self.machine.call_writes.iter().for_each(|register| self.state.set(register, Value::Clobbered));
        if let Value::Address { base, offset } = self.state.get(self.machine.stack_pointer) {
            self.state.overwrite_below(base, offset);
        }
    }

    /// Whether an instruction sets the stack pointer by another register.
    fn finds_stack_pointer(&self, effect: &Effect) -> bool {
        let pointer = self.machine.stack_pointer;
        match *effect {
            Effect::Leave => true,
            Effect::Move { to, from } | Effect::Add { to, from, .. } => to == pointer && from != pointer,
            Effect::Load { to, .. } | Effect::Pop { to } => to == pointer,
            _ => false,
        }
    }

    fn return_address(&self) -> Value {
        Value::Entry(self.machine.return_address)
    }

    /// Signs the return address. What it is signed by has to be at a known distance from the CFA, as the stack pointer
    /// is where a function begins. Other addresses aren't followed.
    fn sign(&mut self, to: Register, by: Option<Register>, key: Key) {
        let by = by.and_then(|by| self.state.get(by).cfa_offset());
        let signed = by.map(|by| Value::SignedReturn { by, key: Some(key) });
        match self.state.get(to) {
            value if value == self.return_address() => self.state.set(to, signed.unwrap_or(Value::Unknown)),
            Value::Entry(_) | Value::SignedReturn { .. } => self.state.set(to, Value::Unknown),
            _ => {}
        }
    }

    /// Authenticates the return address. It is the same again if it was signed so.
    fn authenticate(&mut self, to: Register, by: Option<Register>, key: Key) {
        let by = by.and_then(|by| self.state.get(by).cfa_offset());
        let is_so = |before: i64, with: Option<Key>| by == Some(before) && with.map_or(true, |with| with == key);
        match self.state.get(to) {
            Value::SignedReturn { by, key } if is_so(by, key) => self.state.set(to, self.return_address()),
            Value::Entry(_) | Value::SignedReturn { .. } => self.state.set(to, Value::Unknown),
            _ => {}
        }
    }

    /// Stores a value in some bytes.
    fn overwrite(&mut self, place: MemoryOperand, bytes: u8, value: Value) {
        if let Value::Address { base, offset } = self.state.get(place.base) {
            let begin = offset.wrapping_add(place.offset.into());
            let value = self.stores.overwriting(Some(place), value);
            self.state.overwrite(base, begin, i64::from(bytes), value);
        }
    }

    fn write(&mut self, registers: Registers, stored: Option<(MemoryOperand, NonZeroU8)>) {
        if let Some((place, bytes)) = stored {
            self.overwrite(place, bytes.get(), Value::Unknown);
        }
        let pointer = self.machine.stack_pointer;
        registers.iter().for_each(|register| {
            let value = if register == pointer { Value::Unknown } else { Value::Clobbered };
            self.state.set(register, value);
        });
    }

    fn exchange(&mut self, one: Register, other: Register) {
        let (first, second) = (self.state.get(one), self.state.get(other));
        self.stores.note_copy(first);
        self.stores.note_copy(second);
        self.state.set(one, second);
        self.state.set(other, first);
    }

    /// Makes a new base, to which the value of a register is then relative.
    fn make_base(&mut self, to: Register) {
        let base = Base::made_at(self.at);
        self.state.forget(base);
        self.state.set(to, Value::Address { base, offset: 0 });
    }

    /// Sets a register to a value that is made of another in a way that isn't followed. A stack
    /// pointer or an address gets a base of its own.
    fn derive(&mut self, to: Register, from: Value) {
        if to == self.machine.stack_pointer || matches!(from, Value::Address { .. }) {
            self.make_base(to);
        } else {
            self.state.set(to, from.derived());
        }
    }

    /// Rounds an address down.
    fn align(&mut self, to: Register, from: Register, mask: Option<i64>) {
        let (value, alignment) = (self.state.get(from), self.machine.stack_alignment);
        match mask.and_then(|mask| value.masked(mask, alignment)) {
            Some(masked) => self.state.set(to, masked),
            None => self.derive(to, value),
        }
    }

    fn insert(&mut self, to: Register, mask: i64, number: i64) {
        let value = match self.state.get(to) {
            Value::Number(old) => Value::Number(old & !mask | number),
            old => old.derived(),
        };
        self.state.set(to, value);
    }

    /// What a register holds, scaled.
    fn scaled(&self, register: Register, scale: Scale) -> Value {
        let Scale { shift, is_extended } = scale;
        match self.state.get(register) {
            value if scale == Scale::ONE => value,
            Value::Number(number) if !is_extended => Value::Number(number << shift),
            Value::TableEntry { table, entry } if entry.bytes < 8 => {
                let is_signed = entry.is_signed || is_extended;
                Value::TableEntry { table, entry: Entry { is_signed, shift, ..entry } }
            }
            value => value.derived(),
        }
    }

    fn add_register(&mut self, to: Register, from: Register, by: Register, scale: Scale) {
        let (one, other) = (self.state.get(from), self.scaled(by, scale));
        let sum = match (one, other) {
            _ if from == by => Value::Clobbered,
            (Value::Address { .. } | Value::Number(_), Value::Number(number)) => one.plus(number),
            (Value::Number(number), Value::Address { .. }) => other.plus(number),
            // Such entries are distances from this address.
            (Value::TableEntry { table, entry }, Value::Number(number))
            | (Value::Number(number), Value::TableEntry { table, entry })
                if entry.bytes < 8 =>
            {
                let anchor = i32::try_from(number.wrapping_sub(table));
                anchor.map_or(Value::Clobbered, |anchor| Value::TableTarget { table, anchor, entry })
            }
            (Value::Address { .. }, _) | (_, Value::Address { .. }) => return self.make_base(to),
            _ if to == self.machine.stack_pointer => return self.make_base(to),
            (Value::Unknown, _) | (_, Value::Unknown) => Value::Unknown,
            _ => Value::Clobbered,
        };
        self.state.set(to, sum);
    }

    fn subtract_register(&mut self, to: Register, from: Register, by: Option<Register>) {
        let (one, other) = (self.state.get(from), by.map_or(Value::Unknown, |by| self.state.get(by)));
        let difference = match (one, other) {
            _ if by == Some(from) => Value::Number(0),
            (Value::Address { .. } | Value::Number(_), Value::Number(number)) => one.plus(number.wrapping_neg()),
            (Value::Address { .. }, _) => return self.make_base(to),
            _ if to == self.machine.stack_pointer => return self.make_base(to),
            (Value::Unknown, _) | (_, Value::Unknown) => Value::Unknown,
            _ => Value::Clobbered,
        };
        self.state.set(to, difference);
    }

    fn transfer(&mut self, transfer: &Transfer) {
        let mut loaded = [Value::Clobbered; 4];
        for ((register, place), loaded) in transfer.each().zip(&mut loaded) {
            match register.filter(|_| transfer.is_whole) {
                Some(_) if transfer.is_load => *loaded = self.stores.load(self.state, place),
                _ if transfer.is_load => {}
                from => {
                    self.overwrite(place, transfer.bytes, Value::Unknown);
                    if let Some(from) = from {
                        self.store(Some(place), self.state.get(from));
                    }
                }
            }
        }
        if transfer.added != 0 {
            let moved = self.state.get(transfer.place.base).plus(transfer.added.into());
            self.state.set(transfer.place.base, moved);
        }
        if transfer.is_load {
            let registers = transfer.each().zip(loaded).filter_map(|((register, _), value)| Some((register?, value)));
            registers.for_each(|(register, value)| self.set_loaded(register, value));
        }
    }

    /// Sets a register to a value from memory. A stack pointer from memory may point anywhere.
    fn set_loaded(&mut self, to: Register, value: Value) {
        let is_lost = to == self.machine.stack_pointer && value == Value::Clobbered;
        self.state.set(to, if is_lost { Value::Unknown } else { value });
    }

    fn load_entry(&mut self, to: Register, base: Option<Register>, offset: i64, entry: Entry) {
        let value = match base.map_or(Value::Number(0), |base| self.state.get(base)) {
            Value::Number(address) => Value::TableEntry { table: address.wrapping_add(offset), entry },
            _ if entry.bytes < 4 => Value::Clobbered,
            Value::Address { .. } if entry.bytes == self.machine.address_bytes => Value::Unknown,
            address => self.stores.load_elsewhere(self.state, address),
        };
        self.state.set(to, value);
    }

    fn store(&mut self, to: Option<MemoryOperand>, value: Value) {
        self.stores.store(self.state, self.machine, to, value);
    }

    fn push(&mut self, value: Value) {
        let pointer = self.machine.stack_pointer;
        self.state.set(pointer, self.state.get(pointer).plus(-i64::from(self.machine.address_bytes)));
        self.store(Some(MemoryOperand { base: pointer, offset: 0 }), value);
    }

    fn pop(&mut self) -> Value {
        let pointer = self.machine.stack_pointer;
        let value = self.stores.load(self.state, MemoryOperand { base: pointer, offset: 0 });
        self.state.set(pointer, self.state.get(pointer).plus(self.machine.address_bytes.into()));
        value
    }
}
