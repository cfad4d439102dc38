//! Lints a module: all its FDEs, in an order in which functions come before the parts that were split
//! off them.

use crate::callees::Callees;
use crate::coverage::Coverage;
use crate::crossing::Crossing;
use crate::error::Error;
use crate::finding::{findings, group_marks, Finding, Group};
use crate::flow::{is_entry_row, Flow, Room};
use crate::judge::Facts;
use crate::judging::{Judging, Way};
use crate::module::Module;
use crate::table::Fde;

/// How often FDEs are judged again because jumps of others brought something new.
const MOST_SWEEPS: usize = 3;

/// What was found in a module.
#[derive(Debug, Default)]
pub struct Report<'m> {
    /// The findings, ascending by address.
    pub findings: Vec<Finding<'m>>,
    /// What was judged.
    pub coverage: Coverage,
}

/// What was found in an FDE.
#[derive(Debug, Default)]
pub struct Outcome<'m> {
    /// Where rows are wrong.
    pub groups: Vec<Group<'m>>,
    /// The registers that the function never gives back.
    pub lost: Facts,
    /// How many returns there are at which the stack pointer isn't at the return address.
    pub odd_returns: u32,
    coverage: Coverage,
    has_assumptions: bool,
}

/// A lint of a module that is going on.
pub struct Lint<'m> {
    module: &'m Module<'m>,
    callees: Callees,
    room: Room,
    crossing: Crossing,
    outcomes: Vec<Outcome<'m>>,
}

/// Lints a module.
pub fn lint<'m>(module: &'m Module<'m>) -> Report<'m> {
    Lint::run(module).report()
}

impl<'m> Lint<'m> {
    /// Judges all FDEs of a module.
    pub fn run(module: &'m Module<'m>) -> Self {
        let outcomes = module.fdes.iter().map(|_| Outcome::default()).collect();
        let (callees, room, crossing) = (Callees::new(module), Room::default(), Crossing::default());
        let mut lint = Lint { module, callees, room, crossing, outcomes };
        let is_entered = |fde: &Fde| module.rows.row(fde.begin).map_or(false, |row| is_entry_row(module, &row));
        let (functions, parts): (Vec<_>, Vec<_>) =
            (0..module.fdes.len()).partition(|fde| is_entered(&module.fdes[*fde]));
        lint.sweep(functions);
        lint.sweep(parts);
        for _ in 0..MOST_SWEEPS {
            let open = lint.open();
            if open.is_empty() {
                break;
            }
            lint.sweep(open);
        }
        lint
    }

    /// The FDEs to which something new was brought, and which have code that nothing reached.
    fn open(&mut self) -> Vec<usize> {
        let news = self.crossing.take_news();
        let mut open: Vec<_> = news.into_iter().filter_map(|address| self.module.fde_at(address)).collect();
        open.dedup();
        open.retain(|fde| self.outcomes[*fde].has_assumptions);
        open
    }

    fn sweep(&mut self, fdes: Vec<usize>) {
        for index in fdes {
            let outcome = self.judge(&self.module.fdes[index]);
            if !outcome.has_assumptions {
                self.crossing.settle(self.module.fdes[index].begin);
            }
            self.outcomes[index] = outcome;
        }
    }

    fn judge(&mut self, fde: &'m Fde) -> Outcome<'m> {
        if fde.is_signal {
            let coverage = Coverage { signal_frames: 1, ..Coverage::default() };
            return Outcome { coverage, ..Outcome::default() };
        }
        let mut flow = match Flow::new(self.module, &mut self.callees, &mut self.room, fde) {
            Ok(flow) => flow,
            Err(_) => {
                let coverage = Coverage { unread: 1, ..Coverage::default() };
                return Outcome { coverage, ..Outcome::default() };
            }
        };
        flow.run(&self.crossing.brought);
        let starts_assumed = flow.state_at(0).map_or(true, |state| state.is_assumed);
        let has_assumptions = starts_assumed || flow.assumptions() > 0;
        let mut judging = Judging::new(&mut self.crossing);
        judging.run(&mut flow);
        let Judging { marks, coverage, lost, odd_returns, .. } = judging;
        Outcome { groups: group_marks(marks), lost, odd_returns, coverage, has_assumptions }
    }

    /// The flow of the FDE that contains an address, with all that other FDEs bring.
    pub fn flow(&mut self, address: u64) -> Result<Flow<'m, '_>, Error> {
        let index = self.module.fde_at(address).ok_or(Error::NoFde)?;
        let mut flow = Flow::new(self.module, &mut self.callees, &mut self.room, &self.module.fdes[index])?;
        flow.run(&self.crossing.brought);
        Ok(flow)
    }

    /// The findings of all FDEs. They are taken out, so this can be called once.
    pub fn report(&mut self) -> Report<'m> {
        let mut report = Report::default();
        let mut outcomes = std::mem::take(&mut self.outcomes);
        let is_left_out: Vec<Vec<bool>> = outcomes.iter().map(|outcome| self.left_out(&outcomes, outcome)).collect();
        for ((fde, outcome), is_left_out) in self.module.fdes.iter().zip(&mut outcomes).zip(is_left_out) {
            report.coverage.add(&outcome.coverage);
            let mut is_left_out = is_left_out.into_iter();
            outcome.groups.retain(|_| !is_left_out.next().unwrap_or(false));
            report.findings.extend(findings(self.module, fde, std::mem::take(outcome)));
        }
        report
    }

    /// For each group of an outcome, whether it is a jump to another FDE that isn't a finding.
    ///
    /// Rule "parts that fit": a part of a function whose row is right for one jump isn't entered by jumps
    /// for which it is wrong: they are ways that aren't taken. And what is wrong in the part itself needn't
    /// be found again at the jumps to it.
    fn left_out(&self, outcomes: &[Outcome<'m>], outcome: &Outcome<'m>) -> Vec<bool> {
        let is_found = |address: u64| {
            let of_part = self.module.fde_at(address).and_then(|fde| outcomes.get(fde));
            of_part.map_or(false, |part| part.groups.iter().any(|group| group.covers(address)))
        };
        let is_out = |address| self.crossing.fits(address) || is_found(address);
        outcome.groups.iter().map(|group| group.mark.way == Way::Leaving && is_out(group.mark.address)).collect()
    }
}
