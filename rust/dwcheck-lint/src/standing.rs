//! Says of rows of several tables which of them the code supports.

use crate::correct_row::CorrectRow;
use crate::explain::code_text;
use crate::flow::Flow;
use crate::judge::{why_unjudged, Facts, Verdict};
use crate::lint::Lint;
use crate::state::State;
use crate::table::Row;
use crate::walk::{Edge, Exit, Here, Visitor};
use std::ops::Range;

/// What the code says of a row.
#[derive(Clone, Copy, Debug, PartialEq, Eq)]
pub enum Standing {
    /// What is asked of the row is so.
    Right,
    /// It isn't so.
    Wrong,
    /// That isn't known.
    Unknown,
}

/// A row of one of several tables.
#[derive(Clone, Debug)]
pub struct Claim<'r> {
    /// The row.
    pub row: Row<'r>,
    /// Whether it says that the return address is signed.
    pub is_signed: bool,
}

/// Rows that differ at a range of addresses, one of each table.
#[derive(Clone, Debug)]
pub struct Question<'r> {
    /// The addresses.
    pub range: Range<u64>,
    /// The rows.
    pub claims: [Claim<'r>; 2],
}

/// An address at which the code decides between rows.
#[derive(Clone, Debug, PartialEq, Eq)]
pub struct Decision {
    /// The address.
    pub address: u64,
    /// The index of the question.
    pub question: usize,
    /// What the code says of each row. At least one is wrong, and of each it is known.
    pub each: [Standing; 2],
    /// What is so, in the form of a row.
    pub code: String,
}

/// What the code says of rows that differ.
#[derive(Clone, Debug, Default, PartialEq, Eq)]
pub struct Standings {
    /// The lowest address at which it decides.
    pub decision: Option<Decision>,
    /// Whether all rows are right at all addresses that were asked for.
    pub are_all_right: bool,
    /// What is so at the first of these addresses of which something is known, in the form of a row.
    pub code: Option<String>,
}

/// Judges rows while blocks are walked through. The questions are ascending.
struct Weighing<'q, 'r> {
    questions: &'q [Question<'r>],
    asked: Facts,
    found: Standings,
    /// The address of `found.code`.
    first: u64,
    /// How many of the addresses have instructions at which both rows are right.
    right: u64,
}

impl<'m> Lint<'m> {
    /// Judges rows at ranges of addresses of one FDE, ascending, by what its code does there, as far as `asked` goes.
    /// Where only a row says what the code does, nothing is known. This takes the time of a lint of the FDE.
    pub fn standings(&mut self, questions: &[Question<'_>], asked: Facts) -> Standings {
        let begin = questions.first().map_or(0, |question| question.range.start);
        let mut weighing = Weighing { questions, asked, found: Standings::default(), first: u64::MAX, right: 0 };
        if let Some(mut flow) = self.flow(begin).ok().filter(|flow| !flow.is_for_calls) {
            for leader in flow.reached_leaders() {
                flow.walk_block(leader, &mut weighing);
            }
        }
        let bytes: u64 = questions.iter().map(|question| question.range.end - question.range.start).sum();
        weighing.found.are_all_right = bytes > 0 && weighing.right >= bytes;
        weighing.found
    }
}

/// What a verdict means for what is asked. The rest of a row builds on its CFA.
fn standing(verdict: &Verdict, asked: Facts) -> Standing {
    let concerns = |facts: Facts| facts.without(facts.without(asked)) != Facts::NONE;
    if asked != Facts::CFA && (verdict.wrong.has(Facts::CFA) || verdict.unknown.has(Facts::CFA)) {
        return Standing::Unknown;
    }
    match (concerns(verdict.wrong), concerns(verdict.unknown)) {
        (true, _) => Standing::Wrong,
        (false, true) => Standing::Unknown,
        (false, false) => Standing::Right,
    }
}

impl Weighing<'_, '_> {
    /// The question that has an address.
    fn question(&self, address: u64) -> Option<usize> {
        let after = self.questions.partition_point(|question| question.range.start <= address);
        let last = after.checked_sub(1)?;
        Some(last).filter(|last| self.questions[*last].range.contains(&address))
    }
}

impl<'m> Visitor<'m> for Weighing<'_, '_> {
    fn instruction(&mut self, flow: &Flow<'m, '_>, here: Here<'_>) {
        let (machine, state, address) = (flow.module.machine, here.state, flow.code.address(here.at));
        let place = match self.question(address) {
            Some(place) if !state.is_assumed => place,
            _ => return,
        };
        let question = &self.questions[place];
        let judge = |claim: &Claim<'_>| match why_unjudged(machine, &claim.row) {
            Some(_) => Standing::Unknown,
            None => standing(&flow.verdict_as(&claim.row, state, address, claim.is_signed), self.asked),
        };
        let [first, second] = &question.claims;
        let each = [judge(first), judge(second)];
        let text = || code_text(flow, &CorrectRow::of(machine, &first.row, state));
        if address < self.first {
            self.first = address;
            self.found.code = Some(text());
        }
        if each == [Standing::Right; 2] {
            self.right += flow.code.address(flow.code.next(here.at)).min(question.range.end) - address;
        } else if !each.contains(&Standing::Unknown) {
            let is_lower = self.found.decision.as_ref().map_or(true, |known| address < known.address);
            if is_lower {
                self.found.decision = Some(Decision { address, question: place, each, code: text() });
            }
        }
    }

    fn edge(&mut self, _: &mut Flow<'m, '_>, _: Edge, _: &State) {}

    fn exit(&mut self, _: &mut Flow<'m, '_>, _: u32, _: Exit, _: &State) {}
}
