//! The state that a row describes, for code that nothing is seen to reach.

use crate::expression::{simple_form, Context};
use crate::machine::Machine;
use crate::register::Register;
use crate::state::State;
use crate::stores::Stores;
use crate::table::{Cfa, Fde, Row, Rule};
use crate::value::{Base, Value};

/// How many slots are taken from rows at most. No function that a compiler writes has more.
const MOST_RULES: usize = 20;

/// The offsets from the CFA at which rows say that registers are saved, below the stack pointer at the entry of a
/// function that is called. Nothing is saved there yet at the entry.
pub fn unsaved_slots(machine: &Machine, rows: &[Row<'_>]) -> Vec<i64> {
    let is_judged = |register| machine.callee_saved.contains(register) || *register == machine.return_address;
    let rules = rows.iter().flat_map(|row| &row.rules).filter(|(register, _)| is_judged(register));
    let mut offsets = Vec::new();
    for (_, rule) in rules {
        match rule {
            Rule::Offset(offset)
                if *offset <= -machine.entry_offset - i64::from(machine.address_bytes) && !offsets.contains(offset) =>
            {
                offsets.push(*offset);
            }
            _ => {}
        }
        if offsets.len() >= MOST_RULES {
            break;
        }
    }
    offsets
}

/// The state at the entry of a function that is called, with slots in which nothing is saved yet.
pub fn state_at_entry(machine: &Machine, row: &Row<'_>, unsaved: &[i64]) -> State {
    let mut state = State::unknown(false);
    let bytes = machine.address_bytes;
    unsaved.iter().for_each(|offset| state.put(Base::CFA, *offset, bytes, Value::Clobbered));
    for register in machine.followed() {
        let is_callee_saved = machine.callee_saved.contains(&register);
        state.set(register, if is_callee_saved { Value::Entry(register) } else { Value::Clobbered });
    }
    state.set(machine.stack_pointer, Value::from_cfa(-machine.entry_offset));
    match machine.return_slot {
        Some(slot) => state.put(Base::CFA, slot, bytes, Value::Entry(machine.return_address)),
        None => state.set(machine.return_address, Value::Entry(machine.return_address)),
    }
    // A function such as vfork begins with its return address in a register.
    if let Some(Rule::Register(register)) = row.rule(machine.return_address) {
        state.set(register, Value::Entry(machine.return_address));
    }
    state
}

/// The state in which a row is right at an address, which is at an offset in its FDE. Nothing else is known
/// in it.
pub fn assumed_state(machine: &Machine, row: &Row<'_>, fde: &Fde, offset: u32) -> State {
    let address = fde.begin.wrapping_add(u64::from(offset));
    let mut assumption = Assumption { machine, offset, state: State::unknown(true) };
    assumption.assume_cfa(row, address);
    assumption.assume_registers(row, Some(Value::signed_by_cfa(fde.key)).filter(|_| fde.is_signed(address)));
    if assumption.state.get(machine.stack_pointer) == Value::Unknown {
        assumption.base_of(machine.stack_pointer);
    }
    assumption.state
}

struct Assumption<'a> {
    machine: &'a Machine,
    offset: u32,
    state: State,
}

impl Assumption<'_> {
    /// The address that a register holds. If it isn't known, the register gets a base of its own.
    fn base_of(&mut self, register: Register) -> (Base, i64) {
        if let Value::Address { base, offset } = self.state.get(register) {
            return (base, offset);
        }
        let base = Base::assumed(self.offset, register);
        self.state.set(register, Value::Address { base, offset: 0 });
        (base, 0)
    }

    fn put(&mut self, base: Base, offset: i64, value: Value) {
        self.state.put(base, offset, self.machine.address_bytes, value);
    }

    fn assume_cfa(&mut self, row: &Row<'_>, address: u64) {
        match row.cfa {
            Cfa::RegisterOffset { register, offset } => {
                self.state.set(register, Value::from_cfa(offset.wrapping_neg()))
            }
            Cfa::Expression(expression) => match simple_form(expression) {
                Some(found) if found.is_loaded => {
                    let (base, offset) = self.base_of(found.register);
                    let value = Value::from_cfa(found.added.wrapping_neg());
                    self.put(base, offset.wrapping_add(found.offset), value);
                }
                Some(found) => {
                    let distance = found.offset.wrapping_add(found.added);
                    self.state.set(found.register, Value::from_cfa(distance.wrapping_neg()));
                }
                None => self.assume_expression(expression, address),
            },
        }
    }

    /// An expression that adds numbers to the stack pointer gives its distance from the CFA.
    fn assume_expression(&mut self, expression: &[u8], address: u64) {
        let pointer = self.machine.stack_pointer;
        self.state.set(pointer, Value::from_cfa(0));
        let stores = Stores::new(self.machine);
        let context = Context { machine: self.machine, state: &self.state, stores: &stores, address };
        let distance = context.evaluate(expression, None).cfa_offset();
        self.state.set(pointer, distance.map_or(Value::Unknown, |distance| Value::from_cfa(distance.wrapping_neg())));
    }

    fn assume_registers(&mut self, row: &Row<'_>, signed: Option<Value>) {
        let callee_saved = self.machine.callee_saved.iter().copied();
        for register in callee_saved.chain([self.machine.return_address]) {
            let is_return_address = register == self.machine.return_address;
            let value = signed.filter(|_| is_return_address).unwrap_or(Value::Entry(register));
            match row.rule(register) {
                None | Some(Rule::SameValue) => {
                    let is_free = self.state.get(register) == Value::Unknown;
                    if is_free && self.machine.is_followed(register) {
                        self.state.set(register, value);
                    }
                }
                Some(Rule::Offset(offset)) => self.put(Base::CFA, offset, value),
                Some(Rule::Register(other)) => self.state.set(other, value),
                Some(Rule::Expression(expression)) => {
                    if let Some(found) = simple_form(expression).filter(|found| !found.is_loaded) {
                        let (base, offset) = self.base_of(found.register);
                        self.put(base, offset.wrapping_add(found.offset).wrapping_add(found.added), value);
                    }
                }
                Some(Rule::Undefined | Rule::ValOffset(_) | Rule::ValExpression(_) | Rule::Architectural) => {}
            }
        }
    }
}
