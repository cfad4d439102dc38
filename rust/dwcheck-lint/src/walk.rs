//! Walks through a block, and finds the edges that lead out of it: jumps, calls, landing pads, falling through.

use crate::flow::Flow;
use crate::instruction::{Condition, Effect, Entry, MemoryOperand, Target};
use crate::jumps::{jump_table_bound, Table};
use crate::module::Module;
use crate::register::Register;
use crate::rules;
use crate::state::{Changes, State};
use crate::step::{Called, Step};
use crate::value::{Base, Value};

/// Why a block leads to another.
#[derive(Clone, Copy, Debug, PartialEq, Eq)]
pub enum EdgeKind {
    /// A jump.
    Jump,
    /// The instruction before it.
    Fall,
    /// A call that perhaps returns.
    AfterCall,
    /// Padding after a call that perhaps returns.
    Padding,
    /// A table of jumps.
    Table,
    /// A call that throws.
    Landing,
}

/// A way from one block to another.
#[derive(Clone, Copy, Debug, PartialEq, Eq)]
pub struct Edge {
    /// The block that it leads from.
    pub block: u32,
    /// The instruction that it leads from.
    pub from: u32,
    /// The block that it leads to.
    pub to: u32,
    /// Why.
    pub kind: EdgeKind,
    /// What may differ from what was known before the instruction.
    pub changes: Changes,
}

/// An instruction in a walk through its block.
#[derive(Clone, Copy, Debug)]
pub struct Here<'a> {
    /// Its offset.
    pub at: u32,
    /// The offset of the one before it in its block.
    pub before: Option<u32>,
    /// What is known before it.
    pub state: &'a State,
    /// What the one before it may have changed.
    pub changes: Changes,
}

/// A way out of the function.
#[derive(Clone, Copy, Debug, PartialEq, Eq)]
pub enum Exit {
    /// A return.
    Return,
    /// A jump, or a call that throws, to an address of another FDE.
    To(u64),
    /// A jump that isn't followed.
    Unknown,
}

/// What is done with what a walk finds.
pub trait Visitor<'m> {
    /// An instruction.
    fn instruction(&mut self, _flow: &Flow<'m, '_>, _here: Here<'_>) {}

    /// Bytes that aren't code, or that can't be decoded.
    fn data(&mut self, _flow: &Flow<'m, '_>, _at: u32) {}

    /// A way to another block.
    fn edge(&mut self, flow: &mut Flow<'m, '_>, edge: Edge, state: &State);

    /// A way out of the function.
    fn exit(&mut self, flow: &mut Flow<'m, '_>, at: u32, exit: Exit, state: &State);
}

/// What is known where two registers are equal.
enum Equality {
    /// They can't be.
    Impossible,
    /// Nothing more.
    Unknown,
    /// What a register holds.
    Known(Register, Value),
}

/// The register in which a function leaves the address to which it returns, if that is all it does: so code of i386
/// finds its own address.
fn address_of_itself(module: &Module<'_>, target: Target) -> Option<Register> {
    let address = match target {
        Target::Code(address) if module.machine.callees_pop => address,
        _ => return None,
    };
    let first = module.instruction_at(address);
    let second = module.instruction_at(address.wrapping_add(first.length.into()));
    let returned = MemoryOperand { base: module.machine.stack_pointer, offset: 0 };
    match (first.effect, second.effect) {
        (Effect::Load { to, from }, Effect::Return { popped: 0 }) if from == returned => Some(to),
        _ => None,
    }
}

/// A walk through a block.
struct Walk<'v, V> {
    visitor: &'v mut V,
    leader: u32,
    at: u32,
    state: Box<State>,
    /// The registers that the instruction before has compared.
    compared: Option<(Register, Register)>,
    /// Whether all instructions until now were padding.
    is_padding: bool,
}

impl<'m> Flow<'m, '_> {
    /// Walks through the block at an offset, which was reached.
    pub fn walk_block<V: Visitor<'m>>(&mut self, leader: u32, visitor: &mut V) {
        let mut state = self.room.state.take().unwrap_or_else(|| Box::new(State::unknown(false)));
        if let Some(known) = self.state_at(leader) {
            State::clone_from(&mut state, known);
            let mut walk = Walk { visitor, leader, at: leader, state, compared: None, is_padding: true };
            walk.run(self);
            state = walk.state;
        }
        self.room.state = Some(state);
    }

    /// What a call may change, if it returns.
    fn effect_of_call(&mut self, target: Target) -> Called {
        match target {
            // Code of the same module may follow a convention of its own.
            Target::Code(address) if !self.is_elsewhere(address) => {
                Called { changed: self.changed_by(address), value: Value::Unknown }
            }
            _ => Called { changed: self.module.machine.changeable, value: Value::Clobbered },
        }
    }
}

impl<'m, V: Visitor<'m>> Walk<'_, V> {
    fn run(&mut self, flow: &mut Flow<'m, '_>) {
        let mut before = None;
        while self.at < flow.code.length() {
            if self.at != self.leader && flow.code.is_leader(self.at) {
                return self.fall(flow, before.unwrap_or(self.leader));
            }
            let effect = flow.code.effect(self.at);
            if rules::is_data_in_code(&flow.code, self.at, effect, &self.state) {
                return self.visitor.data(flow, self.at);
            }
            self.is_padding &= matches!(effect, Effect::Padding);
            let changes = self.state.take_changes();
            self.visitor.instruction(flow, Here { at: self.at, before, state: &self.state, changes });
            before = Some(self.at);
            if effect.may_end_block() {
                let effect = *effect;
                if !self.pass(flow, effect) {
                    return;
                }
            } else {
                self.compared = effect.compared();
                if !effect.changes_nothing() {
                    let (machine, stores) = (flow.module.machine, &mut flow.stores);
                    Step { machine, state: &mut self.state, stores, at: self.at }.apply(effect);
                    self.trust_row(flow);
                }
            }
            self.at = flow.code.next(self.at);
        }
    }

    /// If the instruction has moved the stack pointer by a number that isn't known, but that the row knows, nothing
    /// is known of the stack pointer.
    fn trust_row(&mut self, flow: &Flow<'m, '_>) {
        let pointer = flow.module.machine.stack_pointer;
        let made = Value::Address { base: Base::made_at(self.at), offset: 0 };
        if self.state.get(pointer) == made && rules::row_follows_stack_pointer(flow, self.at) {
            self.state.set(pointer, Value::Unknown);
        }
    }

    fn edge(&mut self, flow: &mut Flow<'m, '_>, from: u32, to: u32, kind: EdgeKind) {
        let changes = self.state.changes();
        self.visitor.edge(flow, Edge { block: self.leader, from, to, kind, changes }, &self.state);
    }

    /// The block ends where another begins.
    fn fall(&mut self, flow: &mut Flow<'m, '_>, from: u32) {
        let kind = if self.is_padding { EdgeKind::Padding } else { EdgeKind::Fall };
        if !self.is_padding || !rules::runs_over_padding(flow, self.at, &self.state) {
            self.edge(flow, from, self.at, kind);
        }
    }

    /// Passes an instruction that may end the block. Returns whether the next one follows in it.
    fn pass(&mut self, flow: &mut Flow<'m, '_>, effect: Effect) -> bool {
        match effect {
            Effect::System { .. } if !rules::is_exit_call(flow, &self.state) => {
                self.compared = None;
                self.step(flow).apply(&effect);
                return true;
            }
            Effect::Return { .. } => self.visitor.exit(flow, self.at, Exit::Return, &self.state),
            Effect::Jump { target } => self.jump(flow, target),
            Effect::JumpIf { target, condition } => self.jump_if(flow, target, condition),
            Effect::Call { target } => self.call(flow, target),
            _ => {}
        }
        false
    }

    fn step<'a>(&'a mut self, flow: &'a mut Flow<'m, '_>) -> Step<'a> {
        let (machine, at) = (flow.module.machine, self.at);
        Step { machine, state: &mut self.state, stores: &mut flow.stores, at }
    }

    /// A jump or a landing at an address, in this FDE or in another.
    fn go(&mut self, flow: &mut Flow<'m, '_>, address: u64, kind: EdgeKind) {
        let address = address & flow.module.machine.address_mask();
        match flow.code.offset(address) {
            Some(to) => self.edge(flow, self.at, to, kind),
            None => self.visitor.exit(flow, self.at, Exit::To(address), &self.state),
        }
    }

    fn jump(&mut self, flow: &mut Flow<'m, '_>, target: Target) {
        let address_entry = Entry::address(flow.module.machine.address_bytes);
        let value = match target {
            Target::Code(address) => return self.go(flow, address, EdgeKind::Jump),
            Target::Register(register) => self.state.get(register),
            Target::Table { base, offset } => match base.map_or(Value::Number(0), |base| self.state.get(base)) {
                Value::Number(base) => Value::TableEntry { table: base.wrapping_add(offset), entry: address_entry },
                _ => Value::Unknown,
            },
            Target::Pointer(_) | Target::Elsewhere => Value::Unknown,
        };
        match value {
            Value::TableEntry { table, entry } if entry == address_entry => {
                self.jump_by_table(flow, table as u64, 0, entry);
            }
            Value::TableTarget { table, anchor, entry } => {
                let anchor = table.wrapping_add(i64::from(anchor));
                self.jump_by_table(flow, table as u64, anchor as u64, entry);
            }
            Value::Number(address) => self.go(flow, address as u64, EdgeKind::Jump),
            _ => self.visitor.exit(flow, self.at, Exit::Unknown, &self.state),
        }
    }

    fn jump_by_table(&mut self, flow: &mut Flow<'m, '_>, address: u64, anchor: u64, entry: Entry) {
        let address = address & flow.module.machine.address_mask();
        if let Err(place) = flow.tables.binary_search(&address) {
            flow.tables.insert(place, address);
        }
        let bound = jump_table_bound(&flow.code, self.at);
        let table = Table { address, anchor, entry, bound, limit: flow.entries_left };
        let targets = table.targets(flow.module, &flow.code, &flow.tables);
        flow.entries_left -= (targets.len() as u64).min(flow.entries_left);
        if targets.is_empty() {
            return self.visitor.exit(flow, self.at, Exit::Unknown, &self.state);
        }
        for to in targets {
            if table.bound.is_some() || !rules::is_past_table(flow, self.at, to, &self.state) {
                self.edge(flow, self.at, to, EdgeKind::Table);
            }
        }
    }

    fn jump_if(&mut self, flow: &mut Flow<'m, '_>, target: u64, condition: Condition) {
        let next = flow.code.next(self.at);
        let is_inside = flow.code.offset(target).is_some();
        let is_taken = is_inside || !rules::is_default_of_switch(&flow.code, next);
        if is_taken {
            let equality = self.equality(condition == Condition::Equal);
            self.go_if(flow, equality, |walk, flow| walk.go(flow, target, EdgeKind::Jump));
        }
        if next < flow.code.length() {
            let equality = self.equality(condition == Condition::NotEqual);
            self.go_if(flow, equality, |walk, flow| walk.edge(flow, walk.at, next, EdgeKind::Fall));
        }
    }

    /// Goes on a way, unless it can't be taken, with what is known on it.
    fn go_if(&mut self, flow: &mut Flow<'m, '_>, equality: Equality, go: impl FnOnce(&mut Self, &mut Flow<'m, '_>)) {
        match equality {
            Equality::Impossible => {}
            Equality::Unknown => go(self, flow),
            Equality::Known(register, value) => {
                let before = self.state.get(register);
                self.state.set(register, value);
                go(self, flow);
                self.state.set(register, before);
            }
        }
    }

    /// Rule "loops that probe the stack": where two registers were compared and are equal, what is
    /// known of one is known of the other.
    fn equality(&self, are_equal: bool) -> Equality {
        let (one, other) = match self.compared {
            Some(compared) if are_equal => compared,
            _ => return Equality::Unknown,
        };
        let (first, second) = (self.state.get(one), self.state.get(other));
        match (first, second) {
            (_, value @ Value::Address { .. }) if first.is_open() && !second.is_open() => Equality::Known(one, value),
            (value @ Value::Address { .. }, _) if second.is_open() && !first.is_open() => Equality::Known(other, value),
            (Value::Address { base, offset }, Value::Address { base: of, offset: by })
                if base == of && offset != by =>
            {
                Equality::Impossible
            }
            _ => Equality::Unknown,
        }
    }

    fn call(&mut self, flow: &mut Flow<'m, '_>, target: Target) {
        let (address, next) = (flow.code.address(self.at), flow.code.next(self.at));
        if let Some(register) = address_of_itself(flow.module, target) {
            self.state.set(register, Value::Number(flow.code.address(next) as i64));
            return self.edge(flow, self.at, next, EdgeKind::Fall);
        }
        let called = flow.effect_of_call(target);
        self.step(flow).call(called);
        if let Some(pad) = flow.fde.landing(address) {
            self.land(flow, address, pad);
        }
        self.pop_arguments(flow, target);
        let is_last = next >= flow.code.length() || flow.callees.never_returns(flow.module, target);
        if !is_last && !rules::row_changes_after_call(flow, self.at, &self.state) {
            self.edge(flow, self.at, next, EdgeKind::AfterCall);
        }
    }

    /// Rule "arguments that the callee pops": the call removes what the callee's return says. If its code isn't known,
    /// that is what the row after the call says. If this row doesn't find the CFA by the stack pointer, it isn't known
    /// whether anything is removed.
    fn pop_arguments(&mut self, flow: &mut Flow<'m, '_>, target: Target) {
        if !flow.module.machine.callees_pop {
            return;
        }
        let of_callee = match target {
            Target::Code(address) if !flow.is_elsewhere(address) => flow.callees.popped(flow.module, address),
            _ => None,
        };
        let popped = of_callee.map(i64::from).or_else(|| rules::arguments_popped_by_rows(flow, self.at));
        let pointer = flow.module.machine.stack_pointer;
        match popped {
            Some(0) => {}
            Some(bytes) => self.state.set(pointer, self.state.get(pointer).plus(bytes)),
            None => self.state.is_doubtful = true,
        }
    }

    /// The call throws: the unwinder removes its arguments from the stack.
    fn land(&mut self, flow: &mut Flow<'m, '_>, call: u64, pad: u64) {
        let pointer = flow.module.machine.stack_pointer;
        let before = self.state.get(pointer);
        let arguments = flow.fde.arguments_at(call) as i64;
        self.state.set(pointer, before.plus(arguments));
        if !rules::call_never_throws(flow, call, pad, &self.state) {
            self.go(flow, pad, EdgeKind::Landing);
        }
        self.state.set(pointer, before);
    }
}
