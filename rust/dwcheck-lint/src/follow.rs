//! What is done with the blocks of an FDE while its flow is followed: states are merged, and each block is judged
//! as far as it can be by then.
//!
//! Most blocks have nothing wrong, and what is found in the last walk through such a block is final. What the
//! function is later seen to store only makes less of a row wrong.

use crate::coverage::Coverage;
use crate::flow::Flow;
use crate::instruction::Effect;
use crate::judge::Facts;
use crate::state::State;
use crate::table::row_at;
use crate::value::Value;
use crate::verdicts::{Judged, Verdicts};
use crate::walk::{Edge, EdgeKind, Exit, Here, Visitor};

/// What was judged in a walk through a block.
#[derive(Clone, Copy, Debug, Default)]
pub struct Tally {
    instructions: u32,
    judged: u32,
    partly: u32,
    assumed: u32,
    unknown_jumps: u32,
    data: u32,
    undecoded: u32,
    /// The registers that hold something else at a return.
    pub lost: Facts,
    /// How many returns there are at which the stack pointer isn't at the return address.
    pub odd_returns: u32,
    /// Whether the block has to be judged again: a row is wrong or isn't judged, or what leaves the block is
    /// judged by what is known elsewhere.
    pub is_open: bool,
}

/// Merges the state of each edge into the block that it leads to.
#[derive(Default)]
pub struct Follow {
    verdicts: Verdicts,
    /// What was judged of the block through which the walk is.
    pub tally: Tally,
}

impl Tally {
    /// Adds what was judged to the counts of an FDE.
    pub fn add_to(&self, coverage: &mut Coverage) {
        coverage.instructions += self.instructions;
        coverage.judged += self.judged;
        coverage.partly += self.partly;
        coverage.assumed += self.assumed;
        coverage.unknown_jumps += self.unknown_jumps;
        coverage.data += self.data;
        coverage.undecoded += self.undecoded;
    }
}

impl<'m> Visitor<'m> for Follow {
    fn instruction(&mut self, flow: &Flow<'m, '_>, here: Here<'_>) {
        if self.tally.is_open {
            return;
        }
        self.tally.instructions += 1;
        self.tally.assumed += u32::from(here.state.is_assumed);
        match self.verdicts.judge(flow, &here) {
            Judged::NoRow => {}
            Judged::Not(_) => self.tally.is_open = true,
            Judged::Row(_) => {
                let verdict = self.verdicts.verdict();
                self.tally.is_open = !verdict.wrong.is_empty() || verdict.unknown.has(Facts::CFA);
                self.tally.judged += 1;
                self.tally.partly += u32::from(!verdict.unknown.is_empty());
            }
        }
    }

    fn data(&mut self, flow: &Flow<'m, '_>, at: u32) {
        match flow.code.effect(at) {
            Effect::Invalid => self.tally.undecoded += 1,
            _ => self.tally.data += 1,
        }
    }

    fn edge(&mut self, flow: &mut Flow<'m, '_>, edge: Edge, state: &State) {
        let is_soft = matches!(edge.kind, EdgeKind::AfterCall | EdgeKind::Padding);
        if !self.tally.is_open && !is_soft {
            let row = row_at(&flow.rows, flow.code.address(edge.to));
            let is_wrong = |row| !self.verdicts.at_edge(flow, row, &edge, state).wrong.is_empty();
            self.tally.is_open = edge.kind == EdgeKind::Landing || row.map_or(false, is_wrong);
        }
        flow.reach(edge.to, state, is_soft);
    }

    fn exit(&mut self, flow: &mut Flow<'m, '_>, _: u32, exit: Exit, state: &State) {
        match exit {
            Exit::To(_) => self.tally.is_open |= self.verdicts.is_judged(),
            Exit::Return | Exit::Unknown if is_at_return_address(flow, state) => {
                self.tally.lost.add(lost_registers(flow, state))
            }
            Exit::Return => self.tally.odd_returns += odd_return(flow, state),
            Exit::Unknown => self.tally.unknown_jumps += u32::from(self.verdicts.is_judged()),
        }
    }
}

/// Whether the stack pointer is at the return address.
pub fn is_at_return_address(flow: &Flow<'_, '_>, state: &State) -> bool {
    let machine = flow.module.machine;
    !state.is_doubtful && state.get(machine.stack_pointer).cfa_offset() == Some(-machine.entry_offset)
}

/// How many returns with another stack pointer this is: 1 if its distance from the CFA is known.
pub fn odd_return(flow: &Flow<'_, '_>, state: &State) -> u32 {
    let offset = state.get(flow.module.machine.stack_pointer).cfa_offset();
    u32::from(offset.is_some() && !state.is_doubtful)
}

/// The registers that hold something else where the function ends.
pub fn lost_registers(flow: &Flow<'_, '_>, state: &State) -> Facts {
    let mut lost = Facts::NONE;
    for (index, register) in flow.module.machine.callee_saved.iter().enumerate() {
        let value = state.get(*register);
        if value != Value::Unknown && value != Value::Entry(*register) {
            lost.add(Facts::callee_saved(index));
        }
    }
    lost
}
