//! Makes findings of wrong rows: one for each defect, not one for each address.

use crate::judge::{Facts, WrongCfa};
use crate::judging::{Mark, Way};
use crate::kinds::Kind;
use crate::lint::Outcome;
use crate::module::Module;
use crate::table::Fde;
use std::fmt;

/// How bad a defect is.
#[derive(Clone, Copy, Debug, PartialEq, Eq, PartialOrd, Ord, Hash)]
pub enum Severity {
    /// The function never gives the register back, so no table could say where it is.
    Private,
    /// The caller's value of a register isn't found.
    RegisterLost,
    /// The CFA or the return address isn't found.
    BacktraceBroken,
}

/// Addresses that follow one another at which the same is wrong.
#[derive(Clone, Debug)]
pub struct Group<'m> {
    /// What is wrong at the first of them.
    pub mark: Mark<'m>,
    /// How many instructions begin at them.
    pub addresses: usize,
    /// The address after the last instruction.
    pub end: u64,
}

/// A defect.
#[derive(Clone, Debug)]
pub struct Finding<'m> {
    /// The first address of its FDE.
    pub fde: u64,
    /// What kind of defect it is.
    pub kind: Kind,
    /// How bad it is.
    pub severity: Severity,
    /// What is wrong.
    pub wrong: Facts,
    /// Where it is first wrong.
    pub mark: Mark<'m>,
    /// How many instructions begin at addresses at which something is wrong.
    pub addresses: usize,
    /// In how many places these addresses are.
    pub places: usize,
    /// Whether the function has a return at which the stack pointer isn't at the return address, so
    /// that its frame isn't an ordinary one.
    pub has_odd_return: bool,
    end: u64,
    /// What is wrong in each of the groups.
    seen: Vec<(Option<WrongCfa>, Kind)>,
}

impl Group<'_> {
    /// Whether the row is wrong at an address, however it is reached.
    pub fn covers(&self, address: u64) -> bool {
        self.mark.way == Way::Here && (self.mark.address..self.end).contains(&address)
    }
}

/// Groups the wrong rows of an FDE.
pub fn group_marks(mut marks: Vec<Mark<'_>>) -> Vec<Group<'_>> {
    marks.sort_by_key(|mark| (mark.address, mark.way != Way::Here));
    let mut groups: Vec<Group<'_>> = Vec::new();
    for mark in marks {
        let last = groups.last_mut().filter(|last| is_continued(last, &mark));
        match last {
            Some(last) => {
                // Several edges may lead to one address.
                last.addresses += usize::from(mark.address == last.end);
                last.end = mark.next;
            }
            None => groups.push(Group { addresses: 1, end: mark.next, mark }),
        }
    }
    groups
}

/// Whether a mark belongs to the group before it.
fn is_continued(group: &Group<'_>, mark: &Mark<'_>) -> bool {
    let first = &group.mark;
    let is_near = mark.address == group.end || mark.next == group.end;
    let is_same = first.verdict.wrong == mark.verdict.wrong && first.verdict.cfa == mark.verdict.cfa;
    is_near && is_same && (first.way == Way::Here) == (mark.way == Way::Here)
}

/// The defects of an FDE.
pub fn findings<'m>(module: &Module<'m>, fde: &Fde, outcome: Outcome<'m>) -> Vec<Finding<'m>> {
    let mut findings: Vec<Finding<'m>> = Vec::new();
    for group in outcome.groups {
        let kind = Kind::of(module, &group, outcome.lost);
        let wrong = group.mark.verdict.wrong;
        match findings.iter_mut().rev().find(|finding| is_same_defect(finding, kind, &group)) {
            Some(known) => known.add(kind, group),
            None => findings.push(Finding {
                fde: fde.begin,
                kind,
                severity: severity_of_finding(kind, wrong),
                wrong,
                addresses: group.addresses,
                places: 1,
                has_odd_return: outcome.odd_returns > 0,
                end: group.end,
                seen: vec![(group.mark.verdict.cfa, kind)],
                mark: group.mark,
            }),
        }
    }
    findings
}

fn severity_of_finding(kind: Kind, wrong: Facts) -> Severity {
    match kind {
        Kind::Private => Severity::Private,
        _ if wrong.has_frame() => Severity::BacktraceBroken,
        _ => Severity::RegisterLost,
    }
}

/// Whether a group is a further place of a defect: it follows at once, or the CFA is off by the same
/// number, or the same kind of thing is wrong.
fn is_same_defect(finding: &Finding<'_>, kind: Kind, group: &Group<'_>) -> bool {
    if (finding.kind == Kind::Private) != (kind == Kind::Private) {
        return false;
    }
    let follows = finding.end == group.mark.address && group.mark.way == Way::Here;
    let cfa = group.mark.verdict.cfa;
    let is_off = matches!(cfa, Some(WrongCfa::OffBy(_)));
    follows || finding.seen.iter().any(|(other, other_kind)| *other == cfa && (is_off || *other_kind == kind))
}

impl<'m> Finding<'m> {
    /// Adds a further place. If the kind until now is a general one, the place may know better.
    fn add(&mut self, kind: Kind, group: Group<'m>) {
        self.severity = self.severity.max(severity_of_finding(kind, group.mark.verdict.wrong));
        self.wrong.add(group.mark.verdict.wrong);
        self.addresses += group.addresses;
        self.places += usize::from(self.end != group.mark.address);
        self.end = group.end;
        if !self.seen.contains(&(group.mark.verdict.cfa, kind)) {
            self.seen.push((group.mark.verdict.cfa, kind));
        }
        if self.kind.is_general() && !kind.is_general() {
            self.kind = kind;
            self.mark = group.mark;
        }
    }
}

impl fmt::Display for Severity {
    fn fmt(&self, f: &mut fmt::Formatter<'_>) -> fmt::Result {
        f.pad(match self {
            Severity::Private => "private",
            Severity::RegisterLost => "register lost",
            Severity::BacktraceBroken => "backtrace broken",
        })
    }
}
