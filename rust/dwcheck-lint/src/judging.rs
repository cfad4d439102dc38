//! Judges each instruction and each edge of the blocks that weren't judged while the flow was followed.

use crate::correct_row::CorrectRow;
use crate::coverage::Coverage;
use crate::crossing::Crossing;
use crate::flow::{is_entry_row, Flow};
use crate::follow::{is_at_return_address, lost_registers, odd_return, Tally};
use crate::instruction::Effect;
use crate::judge::{why_unjudged, Facts, Verdict};
use crate::register::Register;
use crate::rules::is_unreachable_end;
use crate::state::State;
use crate::table::{row_at, Row};
use crate::verdicts::{why_cfa_is_unknown, Judged, Verdicts};
use crate::walk::{Edge, EdgeKind, Exit, Here, Visitor};
use std::collections::HashSet;

/// How many wrong rows of an FDE are kept at most.
const MOST_MARKS: usize = 50_000;

/// Where something was found to be wrong.
#[derive(Clone, Copy, Debug, PartialEq, Eq)]
pub enum Way {
    /// Before an instruction, however it is reached.
    Here,
    /// Before an instruction, if it is reached from the one before by this edge. What other edges bring
    /// differs.
    Edge(EdgeKind),
    /// At an address of another FDE, after a jump to it.
    Leaving,
}

/// A row that is wrong at an address.
#[derive(Clone, Debug)]
pub struct Mark<'m> {
    /// The address.
    pub address: u64,
    /// The address after the instruction there.
    pub next: u64,
    /// What the instruction there does. `Invalid` if it is of another FDE.
    pub effect: Effect,
    /// The instruction before it: its address, and what it does. `None` at the beginning of a block.
    pub before: Option<(u64, Effect)>,
    /// Whether it is wrong however it is reached.
    pub way: Way,
    /// What is wrong.
    pub verdict: Verdict,
    /// What the code says.
    pub correct_row: CorrectRow,
    /// Whether the state was taken from a row.
    pub is_assumed: bool,
    /// The row.
    pub row: Row<'m>,
}

/// Judges each instruction and each edge.
pub struct Judging<'m, 'x> {
    crossing: &'x mut Crossing,
    /// What is wrong.
    pub marks: Vec<Mark<'m>>,
    /// What was judged.
    pub coverage: Coverage,
    /// The registers that hold something else at a return.
    pub lost: Facts,
    /// How many returns there are at which the stack pointer isn't at the return address.
    pub odd_returns: u32,
    verdicts: Verdicts,
    /// The landing pads whose rows are right for one call at least.
    fitting_pads: HashSet<u64>,
}

impl<'m, 'x> Judging<'m, 'x> {
    /// Nothing has been judged yet.
    pub fn new(crossing: &'x mut Crossing) -> Self {
        let coverage = Coverage { fdes: 1, ..Coverage::default() };
        let (marks, lost, fitting_pads) = (Vec::new(), Facts::NONE, HashSet::new());
        Judging { crossing, marks, coverage, lost, odd_returns: 0, verdicts: Verdicts::default(), fitting_pads }
    }

    /// Judges all blocks that were reached, of which most are judged already.
    pub fn run(&mut self, flow: &mut Flow<'m, '_>) {
        flow.tallies().for_each(|tally| self.add(tally));
        for leader in flow.open_leaders() {
            flow.walk_block(leader, self);
        }
        // Rule "calls that can't throw": a landing pad isn't entered by calls for which its row is wrong, if
        // it is right for another one.
        let is_landing = |mark: &Mark<'_>| mark.way == Way::Edge(EdgeKind::Landing);
        self.marks.retain(|mark| !is_landing(mark) || !self.fitting_pads.contains(&mark.address));
        let callee_saved = flow.module.machine.callee_saved.iter().enumerate();
        let never_saved = callee_saved.filter(|(_, register)| !flow.stores.saved.contains(**register));
        never_saved.for_each(|(index, _)| self.lost.add(Facts::callee_saved(index)));
    }

    fn add(&mut self, tally: &Tally) {
        tally.add_to(&mut self.coverage);
        self.lost.add(tally.lost);
        self.odd_returns += tally.odd_returns;
    }

    fn count(&mut self, row: &Row<'_>, verdict: &Verdict, stack_pointer: Register) {
        if verdict.unknown.has(Facts::CFA) {
            return self.coverage.skip(why_cfa_is_unknown(row, stack_pointer));
        }
        self.coverage.judged += 1;
        self.coverage.partly += u32::from(!verdict.unknown.is_empty());
    }

    /// A jump, or a call that throws, to an address that perhaps has an FDE.
    fn leave(&mut self, flow: &mut Flow<'m, '_>, at: u32, target: u64, state: &State) {
        let (fde, row) = match (flow.module.fde_at(target), flow.module.rows.row(target)) {
            (Some(fde), Some(row)) => (&flow.module.fdes[fde], row),
            _ => return self.lose_at_tail(flow, state),
        };
        let is_begin = fde.begin == target;
        let is_entry = is_begin && is_entry_row(flow.module, &row);
        let is_judged = why_unjudged(flow.module.machine, &row).is_none();
        let mut verdict = flow.disagreement(&row, state, target);
        if is_begin && !is_entry && is_judged && verdict.wrong.is_empty() {
            self.crossing.fit(target);
        }
        if is_unreachable_end(flow, target, &row, verdict.wrong) {
            return;
        }
        if !is_entry && !state.is_assumed {
            self.crossing.bring(fde.begin, target, state);
        }
        if !is_judged {
            return self.lose_at_tail(flow, state);
        }
        if is_entry {
            self.lost.add(verdict.wrong.registers());
            verdict.wrong = verdict.wrong.without(verdict.wrong.registers());
        }
        if !verdict.wrong.is_empty() && !flow.is_for_calls {
            let before = Some((flow.code.address(at), *flow.code.effect(at)));
            let (way, is_assumed) = (Way::Leaving, state.is_assumed);
            let (address, next, effect) = (target, target, Effect::Invalid);
            let correct_row = CorrectRow::of(flow.module.machine, &row, state);
            self.marks.push(Mark { address, next, effect, before, way, verdict, correct_row, is_assumed, row });
        }
    }

    /// Notes the registers that hold something else where a jump ends the function, which it does if the stack
    /// pointer is at the return address.
    fn lose_at_tail(&mut self, flow: &Flow<'_, '_>, state: &State) {
        if is_at_return_address(flow, state) {
            self.lost.add(lost_registers(flow, state));
        }
    }

    fn mark(&mut self, flow: &Flow<'m, '_>, at: u32, before: Option<u32>, way: Way, found: (Verdict, &State)) {
        let address = flow.code.address(at);
        let (verdict, is_assumed) = (found.0, found.1.is_assumed);
        if self.marks.len() >= MOST_MARKS {
            return;
        }
        if let Some(row) = flow.row(address).cloned() {
            let before = before.map(|before| (flow.code.address(before), *flow.code.effect(before)));
            let (next, effect) = (flow.code.address(flow.code.next(at)), *flow.code.effect(at));
            let correct_row = CorrectRow::of(flow.module.machine, &row, found.1);
            self.marks.push(Mark { address, next, effect, before, way, verdict, correct_row, is_assumed, row });
        }
    }
}

impl<'m> Visitor<'m> for Judging<'m, '_> {
    fn instruction(&mut self, flow: &Flow<'m, '_>, here: Here<'_>) {
        self.coverage.instructions += 1;
        self.coverage.assumed += u32::from(here.state.is_assumed);
        let row = match self.verdicts.judge(flow, &here) {
            Judged::Row(row) => row,
            Judged::Not(reason) => return self.coverage.skip(reason),
            Judged::NoRow => return,
        };
        let verdict = *self.verdicts.verdict();
        self.count(&flow.rows[row], &verdict, flow.module.machine.stack_pointer);
        if !verdict.wrong.is_empty() {
            self.mark(flow, here.at, here.before, Way::Here, (verdict, here.state));
        }
    }

    fn data(&mut self, flow: &Flow<'m, '_>, at: u32) {
        match flow.code.effect(at) {
            Effect::Invalid => self.coverage.undecoded += 1,
            _ => self.coverage.data += 1,
        }
    }

    fn edge(&mut self, flow: &mut Flow<'m, '_>, edge: Edge, state: &State) {
        if flow.is_for_calls || matches!(edge.kind, EdgeKind::AfterCall | EdgeKind::Padding) {
            return;
        }
        let address = flow.code.address(edge.to);
        let row = match row_at(&flow.rows, address) {
            Some(row) => row,
            None => return,
        };
        let merged = flow.state_at(edge.to);
        let is_landing = edge.kind == EdgeKind::Landing;
        if is_landing && flow.is_same_region(edge.block, edge.to) && merged == Some(state) {
            return;
        }
        let mut verdict = self.verdicts.at_edge(flow, row, &edge, state);
        let row = &flow.rows[row];
        if verdict.wrong.is_empty() || why_unjudged(flow.module.machine, row).is_some() {
            if is_landing {
                self.fitting_pads.insert(address);
            }
            return;
        }
        let of_merged = merged.map_or(Facts::NONE, |merged| flow.verdict(row, merged, address).wrong);
        verdict.wrong = verdict.wrong.without(of_merged);
        if !verdict.wrong.is_empty() && !of_merged.has(Facts::CFA) {
            self.mark(flow, edge.to, Some(edge.from), Way::Edge(edge.kind), (verdict, state));
        }
    }

    fn exit(&mut self, flow: &mut Flow<'m, '_>, at: u32, exit: Exit, state: &State) {
        match exit {
            Exit::To(target) if self.verdicts.is_judged() => self.leave(flow, at, target, state),
            Exit::To(_) => {}
            Exit::Return | Exit::Unknown if is_at_return_address(flow, state) => {
                self.lost.add(lost_registers(flow, state))
            }
            Exit::Return => self.odd_returns += odd_return(flow, state),
            Exit::Unknown => self.coverage.unknown_jumps += u32::from(self.verdicts.is_judged()),
        }
    }
}
