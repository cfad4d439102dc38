//! Which of two rows the code supports, as the lint sees it.

use super::difference::{Difference, Kind, Place, Support};
use super::pair::Pair;
use crate::cfi::row::{Cfa, Rule};
use crate::cfi::table_row::TableRow;
use crate::check::lint::Sections;
use crate::elf::functions::Functions;
use crate::elf::program::Program;
use dwcheck_lint::judge::Facts;
use dwcheck_lint::lint::Lint;
use dwcheck_lint::machine::Machine;
use dwcheck_lint::module::Module;
use dwcheck_lint::standing::{Claim, Decision, Question, Standing, Standings};
use dwcheck_lint::table::{self, Row};

/// Judges all differences, and leaves out those in which both rows are right: they say the same in two ways.
pub(super) fn judge(program: &Program<'_>, sections: &Sections<'_>, functions: &Functions<'_>, pairs: &mut [Pair]) {
    let module = match sections.module(program, functions) {
        Ok(module) => module,
        Err(_) => return,
    };
    let mut lint = Lint::run(&module);
    for pair in pairs {
        let mut both_right = 0;
        pair.differences.retain_mut(|difference| {
            let is_kept = judge_one(&module, &mut lint, difference);
            both_right += if is_kept { 0 } else { difference.bytes };
            is_kept
        });
        pair.both_right = both_right;
    }
}

/// Judges a difference. False if both rows are right wherever they differ.
fn judge_one(module: &Module<'_>, lint: &mut Lint<'_>, difference: &mut Difference) -> bool {
    let asked = asked(module.machine, difference);
    let questions = difference.kept.iter().map(|place| question(module.machine, place)).collect::<Option<Vec<_>>>();
    let questions = match questions {
        Some(questions) => questions,
        None => return true,
    };
    let Standings { decision, are_all_right, code } = lint.standings(&questions, asked);
    if are_all_right && !difference.is_cut {
        return false;
    }
    difference.code = code;
    if let Some(Decision { address, question, each, code }) = decision {
        difference.address = address;
        difference.code = Some(code);
        difference.support = match each {
            [Standing::Right, _] => Support::First,
            [_, Standing::Right] => Support::Second,
            _ => Support::Neither,
        };
        if let Some(place) = difference.kept.get(question) {
            difference.rows = place.rows.clone();
        }
    }
    true
}

/// The rows of a place, as the lint takes them. `None` if one has no CFA.
fn question<'r>(machine: &Machine, place: &'r Place) -> Option<Question<'r>> {
    let [first, second] = &place.rows;
    Some(Question { range: place.range.clone(), claims: [claim(machine, first)?, claim(machine, second)?] })
}

/// What of the rows is judged.
fn asked(machine: &Machine, difference: &Difference) -> Facts {
    match difference.kind {
        Kind::Cfa => Facts::CFA,
        Kind::Register => {
            let mut facts = Facts::NONE;
            for number in &difference.registers {
                let register = (machine.register)(*number);
                let place = machine.callee_saved.iter().position(|saved| *saved == register);
                facts.add(place.map_or(Facts::NONE, Facts::callee_saved));
            }
            facts
        }
        _ => Facts::RETURN_ADDRESS,
    }
}

/// A row as the lint takes it. `None` for a row without a CFA.
fn claim<'r>(machine: &Machine, row: &'r TableRow) -> Option<Claim<'r>> {
    let TableRow { row, is_outermost, is_signed, .. } = row;
    let register = machine.register;
    let cfa = match &row.cfa {
        Cfa::RegisterOffset { register: number, offset } => {
            table::Cfa::RegisterOffset { register: register(*number), offset: *offset }
        }
        Cfa::Expression(bytes) => table::Cfa::Expression(bytes),
    };
    let rule = |rule: &'r Rule<'static>| match rule {
        Rule::Undefined => table::Rule::Undefined,
        Rule::SameValue => table::Rule::SameValue,
        Rule::Offset(offset) => table::Rule::Offset(*offset),
        Rule::ValOffset(offset) => table::Rule::ValOffset(*offset),
        Rule::Register(other) => table::Rule::Register(register(*other)),
        Rule::Expression(bytes) => table::Rule::Expression(bytes),
        Rule::ValExpression(bytes) => table::Rule::ValExpression(bytes),
        Rule::Architectural => table::Rule::Architectural,
    };
    let rules = row.rules.iter().map(|(number, one)| (register(*number), rule(one))).collect();
    let row = Row { begin: row.begin, end: row.end, cfa, rules };
    (!is_outermost).then(|| Claim { row, is_signed: *is_signed })
}

/// The text of a row with the names of a machine's registers.
pub fn named(machine: &Machine, row: &TableRow) -> String {
    match claim(machine, row) {
        Some(claim) => {
            let signed = if claim.is_signed { " signed" } else { "" };
            format!("{}{}", dwcheck_lint::finding_text::RowText(machine, &claim.row), signed)
        }
        None => "the outermost frame".to_string(),
    }
}
