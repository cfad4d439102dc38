//! Compares a row with a state of the code: the CFA, the return address, each register and its slot.

use crate::expression::Context;
use crate::instruction::Key;
use crate::machine::{Machine, MOST_CALLEE_SAVED};
use crate::module::Convention;
use crate::register::{Register, Registers};
use crate::state::State;
use crate::stores::Stores;
use crate::table::{Cfa, Row, Rule};
use crate::value::Value;

/// What a row says: the CFA, the return address, and where each register is that a function has to
/// give back. A set of these.
#[derive(Clone, Copy, Debug, Default, PartialEq, Eq, Hash, PartialOrd, Ord)]
pub struct Facts(u32);

impl Facts {
    /// Nothing.
    pub const NONE: Facts = Facts(0);
    /// The CFA.
    pub const CFA: Facts = Facts(1);
    /// The return address.
    pub const RETURN_ADDRESS: Facts = Facts(2);
    const FRAME: u32 = 3;

    /// A register, by its index in [`Machine::callee_saved`].
    pub fn callee_saved(index: usize) -> Facts {
        Facts(4 << index)
    }

    /// Whether it has all of these.
    pub fn has(self, other: Facts) -> bool {
        self.0 & other.0 == other.0
    }

    /// Whether it has none.
    pub fn is_empty(self) -> bool {
        self.0 == 0
    }

    /// Whether it has the CFA or the return address.
    pub fn has_frame(self) -> bool {
        self.0 & Facts::FRAME != 0
    }

    /// The registers among these.
    #[must_use]
    pub fn registers(self) -> Facts {
        Facts(self.0 & !Facts::FRAME)
    }

    /// Those that are here and not in the other.
    #[must_use]
    pub fn without(self, other: Facts) -> Facts {
        Facts(self.0 & !other.0)
    }

    /// Adds others.
    pub fn add(&mut self, other: Facts) {
        self.0 |= other.0;
    }

    /// The registers among these, for a machine.
    pub fn names(self, machine: &Machine) -> impl Iterator<Item = &'static str> + '_ {
        let callee_saved = machine.callee_saved.iter().enumerate();
        callee_saved
            .filter(move |(index, _)| self.has(Facts::callee_saved(*index)))
            .map(move |(_, register)| machine.name(*register))
    }
}

/// How the CFA of a row is wrong.
#[derive(Clone, Copy, Debug, PartialEq, Eq)]
pub enum WrongCfa {
    /// It is the CFA plus this number.
    OffBy(i64),
    /// It is relative to an address that has no fixed distance from the CFA.
    Dynamic,
    /// Its register holds something else.
    Clobbered,
    /// Its register holds the caller's value again.
    Restored,
    /// It is a number.
    Number,
}

/// How the rule of a register is wrong.
#[derive(Clone, Copy, Debug, PartialEq, Eq)]
pub enum WrongRule {
    /// The row says that the register still has its value, and it doesn't.
    Changed,
    /// No entry value is ever stored in the slot.
    NeverSaved,
    /// The slot holds something else.
    Overwritten,
    /// The value is elsewhere.
    Elsewhere,
    /// The return address is there, and it is signed though the row says that it isn't, or the other way
    /// around.
    Signing,
    /// The return address is there, and it is signed with this key, while the table names the other one.
    Key(Key),
}

/// The result of comparing a row with what is known.
#[derive(Clone, Copy, Debug, Default, PartialEq, Eq)]
pub struct Verdict {
    /// What the row says that isn't so.
    pub wrong: Facts,
    /// What isn't known.
    pub unknown: Facts,
    /// How the CFA is wrong.
    pub cfa: Option<WrongCfa>,
    /// How the rule of the return address is wrong.
    pub return_address: Option<WrongRule>,
    /// How the rules of the registers are wrong.
    pub rules: [Option<WrongRule>; MOST_CALLEE_SAVED],
}

/// Why a row isn't judged.
#[derive(Clone, Copy, Debug, PartialEq, Eq)]
pub enum Unjudged {
    /// The frame is the outermost one: the row says that there is no return address.
    Outermost,
    /// The row has a rule for the stack pointer, or, where a call leaves the return address in a register, finds a
    /// register above the CFA: it describes where a jump such as `longjmp` goes to.
    JumpTarget,
    /// The row has rules for the registers of exception data: the function replaces its own return
    /// address, by `__builtin_eh_return`.
    ExceptionReturn,
}

/// Why a row isn't judged, if it isn't.
pub fn why_unjudged(machine: &Machine, row: &Row<'_>) -> Option<Unjudged> {
    let mut data = machine.exception_data.iter();
    let is_above = row.rules.iter().any(|(_, rule)| matches!(rule, Rule::Offset(offset) if *offset >= 0));
    if row.rule(machine.stack_pointer).is_some() || is_above && machine.return_slot.is_none() {
        Some(Unjudged::JumpTarget)
    } else if data.all(|register| row.rule(register).is_some()) {
        Some(Unjudged::ExceptionReturn)
    } else if row.rule(machine.return_address) == Some(Rule::Undefined) {
        Some(Unjudged::Outermost)
    } else {
        None
    }
}

/// What the rows of an FDE speak of, together.
#[derive(Clone, Copy, Debug, Default, PartialEq, Eq)]
pub struct Said {
    /// The registers that have a rule in a row.
    pub registers: Registers,
    /// The registers by which a row gives the CFA.
    pub frame: Registers,
    /// Whether the function returns by `__builtin_eh_return`.
    pub returns_to_handler: bool,
}

impl Said {
    /// What these rows speak of.
    pub fn of(machine: &Machine, rows: &[Row<'_>]) -> Said {
        let mut said = Said::default();
        let all = rows.iter().flat_map(|row| &row.rules).filter(|(register, _)| machine.is_followed(*register));
        all.for_each(|(register, _)| said.registers.insert(*register));
        let by_register = |row: &Row<'_>| match row.cfa {
            Cfa::RegisterOffset { register, .. } => Some(register),
            Cfa::Expression(_) => None,
        };
        rows.iter().filter_map(by_register).for_each(|register| said.frame.insert(register));
        said.returns_to_handler = rows.iter().any(|row| why_unjudged(machine, row) == Some(Unjudged::ExceptionReturn));
        said
    }
}

/// Compares rows with what is known.
pub struct Judge<'a> {
    /// The machine.
    pub machine: &'a Machine,
    /// What functions do with registers.
    pub convention: Convention,
    /// What is known.
    pub state: &'a State,
    /// What the function stores.
    pub stores: &'a Stores,
    /// What the rows of the FDE speak of.
    pub said: Said,
    /// Whether the row says that the return address is signed.
    pub is_signed: bool,
    /// With which key, if the table says that.
    pub key: Option<Key>,
}

impl Judge<'_> {
    /// Compares a row with what is known at an address. Registers are judged only where the CFA is
    /// right, because their rules build on it.
    pub fn verdict(&self, row: &Row<'_>, address: u64) -> Verdict {
        let mut verdict = Verdict::default();
        let context = Context { machine: self.machine, state: self.state, stores: self.stores, address };
        self.judge_cfa(self.cfa(row, &context), &mut verdict);
        if verdict.wrong.is_empty() && verdict.unknown.is_empty() {
            self.judge_return_address(row, &context, &mut verdict);
            if self.convention == Convention::KeepsRegisters {
                self.judge_registers(row, &context, &mut verdict);
            }
        }
        if self.state.is_doubtful {
            self.doubt(row, &mut verdict);
        }
        verdict
    }

    /// Rule "arguments that the callee pops": what is wrong by the stack pointer isn't known if that may be above what is
    /// known of it. Registers may have been popped by it.
    fn doubt(&self, row: &Row<'_>, verdict: &mut Verdict) {
        let pointer = self.machine.stack_pointer;
        let is_by_other = matches!(row.cfa, Cfa::RegisterOffset { register, .. } if register != pointer);
        let doubted = verdict.wrong.without(if is_by_other { Facts::CFA } else { Facts::NONE });
        verdict.wrong = verdict.wrong.without(doubted);
        verdict.unknown.add(doubted);
    }

    /// The CFA of a row.
    fn cfa(&self, row: &Row<'_>, context: &Context<'_>) -> Value {
        match row.cfa {
            Cfa::RegisterOffset { register, .. } if !self.machine.is_followed(register) => Value::Unknown,
            Cfa::RegisterOffset { register, offset } => match self.state.get(register) {
                // A register that has the caller's value again isn't the function's frame any more.
                entry @ Value::Entry(_) => entry,
                value => value.plus(offset),
            },
            Cfa::Expression(expression) => context.evaluate(expression, None),
        }
    }

    fn judge_cfa(&self, cfa: Value, verdict: &mut Verdict) {
        let wrong = match cfa {
            Value::Unknown => None,
            Value::Address { base, offset } if base == crate::value::Base::CFA => {
                if offset == 0 {
                    return;
                }
                Some(WrongCfa::OffBy(offset))
            }
            Value::Address { base, .. } if base.is_assumed() || base.is_joined() || self.state.is_assumed => None,
            // Rule "exception returns": at its end, the function sets the stack pointer of another frame.
            Value::Address { .. } if self.said.returns_to_handler => None,
            Value::Address { .. } => Some(WrongCfa::Dynamic),
            // Rule "moved frame": code that copies its return address elsewhere has its frame there.
            Value::Clobbered if self.stores.moves_return_address => None,
            Value::Clobbered => Some(WrongCfa::Clobbered),
            Value::Entry(_) => Some(WrongCfa::Restored),
            _ => Some(WrongCfa::Number),
        };
        verdict.cfa = wrong;
        match wrong {
            Some(_) => verdict.wrong.add(Facts::CFA),
            None => verdict.unknown.add(Facts::CFA),
        }
    }

    fn judge_return_address(&self, row: &Row<'_>, context: &Context<'_>, verdict: &mut Verdict) {
        let register = self.machine.return_address;
        let known = match row.rule(register) {
            Some(Rule::Undefined) => return,
            None if !self.machine.is_followed(register) => return,
            Some(Rule::SameValue) if !self.machine.is_followed(register) => Ok(None),
            rule => self.judge_rule(register, rule.unwrap_or(Rule::SameValue), context),
        };
        match known {
            Ok(Some(())) => {}
            Ok(None) => verdict.unknown.add(Facts::RETURN_ADDRESS),
            Err(wrong) => {
                verdict.wrong.add(Facts::RETURN_ADDRESS);
                verdict.return_address = Some(wrong);
            }
        }
    }

    fn judge_registers(&self, row: &Row<'_>, context: &Context<'_>, verdict: &mut Verdict) {
        let silent = self.machine.callee_saved_if_named.without(self.said.registers);
        for (index, register) in self.machine.callee_saved.iter().enumerate() {
            let is_silent = silent.contains(*register);
            let known = match row.rule(*register) {
                Some(Rule::Undefined) => continue,
                // Rule "registers that rows speak of": most code for aarch64 leaves vector registers out.
                None if is_silent => continue,
                rule => self.judge_rule(*register, rule.unwrap_or(Rule::SameValue), context),
            };
            match known {
                Ok(Some(())) => {}
                Ok(None) => verdict.unknown.add(Facts::callee_saved(index)),
                Err(wrong) => {
                    verdict.wrong.add(Facts::callee_saved(index));
                    verdict.rules[index] = Some(wrong);
                }
            }
        }
    }

    /// Whether a rule gives a register's entry value. `Ok(None)` if that isn't known.
    fn judge_rule(&self, register: Register, rule: Rule<'_>, context: &Context<'_>) -> Result<Option<()>, WrongRule> {
        match rule {
            Rule::SameValue => self.is_entry(self.state.get(register), register, WrongRule::Changed),
            Rule::Register(other) => self.is_entry(self.state.get(other), register, WrongRule::Elsewhere),
            Rule::Offset(offset) => self.judge_slot(Value::from_cfa(offset), register),
            Rule::Expression(expression) => {
                let cfa = Value::from_cfa(0);
                self.judge_slot(context.evaluate(expression, Some(cfa)), register)
            }
            Rule::Undefined | Rule::ValOffset(_) | Rule::ValExpression(_) | Rule::Architectural => Ok(None),
        }
    }

    fn judge_slot(&self, address: Value, register: Register) -> Result<Option<()>, WrongRule> {
        match address {
            Value::Unknown => Ok(None),
            Value::Address { base, offset } => match self.stores.held(self.state, base, offset) {
                Some(value) => self.is_entry(value, register, WrongRule::Overwritten),
                None if self.state.is_partial(base) || base.is_assumed() || self.stores.has(base, offset) => Ok(None),
                None => Err(WrongRule::NeverSaved),
            },
            _ => Err(WrongRule::Elsewhere),
        }
    }

    /// Whether a value is a register's entry value, which for the return address may be signed. `Ok(None)`
    /// if that isn't known.
    fn is_entry(&self, value: Value, register: Register, wrong: WrongRule) -> Result<Option<()>, WrongRule> {
        let is_signed = self.is_signed && register == self.machine.return_address;
        match value {
            Value::Unknown => Ok(None),
            Value::Entry(other) if other == register && is_signed => Err(WrongRule::Signing),
            Value::Entry(other) if other == register => Ok(Some(())),
            // No table says that a return address is signed by something else than the CFA.
            Value::SignedReturn { by, .. } if by != 0 => Ok(None),
            Value::SignedReturn { .. } if register != self.machine.return_address => Err(wrong),
            Value::SignedReturn { .. } if !is_signed => Err(WrongRule::Signing),
            Value::SignedReturn { key: Some(key), .. } if self.key == Some(key.other()) => Err(WrongRule::Key(key)),
            Value::SignedReturn { .. } => Ok(Some(())),
            _ => Err(wrong),
        }
    }
}
