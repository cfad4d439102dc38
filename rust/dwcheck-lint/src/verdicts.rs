//! The verdicts on the rows of an FDE, one instruction after another in a walk through a block. A verdict stays
//! as it is until something changes on which it depends.

use crate::coverage::Reason;
use crate::flow::Flow;
use crate::instruction::Effect;
use crate::judge::{why_unjudged, Unjudged, Verdict};
use crate::last_verdict::LastVerdict;
use crate::register::{Register, Registers};
use crate::state::{Changes, State};
use crate::table::{row_at, Cfa, Row, Rule};
use crate::walk::{Edge, Here};
use std::ops::Range;

/// What is judged at an instruction.
#[derive(Clone, Copy, Debug, PartialEq, Eq)]
pub enum Judged {
    /// There is no row.
    NoRow,
    /// The row isn't judged there.
    Not(Reason),
    /// The row with this index.
    Row(usize),
}

/// The verdicts of a walk.
#[derive(Default)]
pub struct Verdicts {
    current: Current,
    last: LastVerdict,
}

/// The row of the instructions that are judged.
#[derive(Default)]
struct Current {
    row: Option<usize>,
    addresses: Range<u64>,
    unjudged: Option<Unjudged>,
    /// Whether the FDE says that the return address is signed.
    is_signed: bool,
    /// The registers on which the verdict depends. `None` if it depends on all.
    watched: Option<Registers>,
    verdict: Verdict,
}

impl Verdicts {
    /// Judges the row of an instruction.
    pub fn judge(&mut self, flow: &Flow<'_, '_>, here: &Here<'_>) -> Judged {
        let address = flow.code.address(here.at);
        let is_same_row =
            self.current.addresses.contains(&address) && flow.fde.is_signed(address) == self.current.is_signed;
        if !is_same_row {
            self.set_row(flow, address);
        }
        let row = match (self.current.row, self.current.unjudged) {
            (Some(row), None) => row,
            (_, Some(unjudged)) => return Judged::Not(unjudged.into()),
            (None, None) => return Judged::NoRow,
        };
        if flow.is_for_calls {
            let is_call = matches!(flow.code.effect(here.at), Effect::Call { .. });
            if !is_call || here.state.is_assumed {
                return Judged::Not(Reason::CallsOnly);
            }
        }
        match here.before {
            None => self.current.verdict = self.at_block(flow, row, here.state, address),
            Some(_) if is_same_row && !flow.is_for_calls && !self.matters(here.changes) => {}
            Some(_) => self.current.verdict = flow.verdict(&flow.rows[row], here.state, address),
        }
        Judged::Row(row)
    }

    /// The verdict on the row of the last instruction.
    pub fn verdict(&self) -> &Verdict {
        &self.current.verdict
    }

    /// Whether the row of the last instruction is judged.
    pub fn is_judged(&self) -> bool {
        self.current.row.is_some() && self.current.unjudged.is_none()
    }

    /// The verdict on a row, by its index, at the end of an edge. It is that on the instruction from which the edge
    /// leads if nothing has changed on which it depends.
    pub fn at_edge(&mut self, flow: &Flow<'_, '_>, row: usize, edge: &Edge, state: &State) -> Verdict {
        let address = flow.code.address(edge.to);
        let current = &self.current;
        let is_same_row = current.row == Some(row) && current.is_signed == flow.fde.is_signed(address);
        // An expression may read the address.
        let is_judged = current.unjudged.is_none() && current.watched.is_some();
        match is_same_row && is_judged && !self.matters(edge.changes) {
            true => current.verdict,
            false => self.at_block(flow, row, state, address),
        }
    }

    /// The verdict on a row, by its index, where a block begins.
    fn at_block(&mut self, flow: &Flow<'_, '_>, row: usize, state: &State, address: u64) -> Verdict {
        match self.current.watched.filter(|_| self.current.row == Some(row)) {
            Some(watched) => self.last.verdict(flow, row, watched, (address, state)),
            None => flow.verdict(&flow.rows[row], state, address),
        }
    }

    /// Sets the row of the instruction at an address.
    fn set_row(&mut self, flow: &Flow<'_, '_>, address: u64) {
        let (row, is_signed) = (row_at(&flow.rows, address), flow.fde.is_signed(address));
        self.current = Current { row, is_signed, ..Current::default() };
        if let Some(row) = self.current.row.map(|index| &flow.rows[index]) {
            self.current.addresses = row.begin..row.end;
            self.current.unjudged = why_unjudged(flow.module.machine, row);
            self.current.watched = watched_registers(flow, row);
        }
    }

    /// Whether these changes can change the verdict on the row. An expression may read anything, and the address
    /// too.
    fn matters(&self, changes: Changes) -> bool {
        self.current.watched.map_or(true, |watched| changes.concern(watched))
    }
}

/// Why the CFA of a row isn't judged that isn't known.
pub fn why_cfa_is_unknown(row: &Row<'_>, stack_pointer: Register) -> Reason {
    match row.cfa {
        Cfa::Expression(_) => Reason::Expression,
        Cfa::RegisterOffset { register, .. } if register == stack_pointer => Reason::StackPointer,
        Cfa::RegisterOffset { .. } => Reason::Register,
    }
}

/// The registers on which the verdict on a row depends. `None` if an expression may read any.
fn watched_registers(flow: &Flow<'_, '_>, row: &Row<'_>) -> Option<Registers> {
    let machine = flow.module.machine;
    let mut watched = Registers::NONE;
    // A register with another rule than these isn't read.
    let is_read = |register: &Register| matches!(row.rule(*register), None | Some(Rule::SameValue));
    let judged = machine.callee_saved.iter().copied().chain([machine.return_address]);
    judged.filter(is_read).for_each(|register| watched.insert(register));
    match row.cfa {
        Cfa::RegisterOffset { register, .. } => watched.insert(register),
        Cfa::Expression(_) => return None,
    }
    for (_, rule) in &row.rules {
        match rule {
            Rule::Register(register) => watched.insert(*register),
            Rule::Expression(_) => return None,
            _ => {}
        }
    }
    Some(watched)
}
