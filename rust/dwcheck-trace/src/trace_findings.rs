//! Makes findings of what was wrong, and counts what was seen.

use super::files::ModuleFile;
use super::registers::{CALLEE_SAVED, SAVED_COUNT};
use super::rules::RuleCounts;
use super::site::{Locations, Site, Wrong};
use super::tracer::Tracer;
use dwcheck_elf::text::Escaped;
use dwcheck_lint::correct_row::{CorrectRow, Location};
use dwcheck_lint::finding::{findings, group_marks, Finding, Severity};
use dwcheck_lint::judge::{Facts, Verdict};
use dwcheck_lint::judging::{Mark, Way};
use dwcheck_lint::lint::Outcome;
use dwcheck_lint::register::Register;
use dwcheck_lint::table::{Cfa, Fde, Row};
use std::collections::BTreeMap;
use std::path::Path;
use std::time::Duration;

/// A CFA that is farther from a register than this isn't shown by it.
const FARTHEST: i64 = 1 << 20;

/// What was counted over all files.
#[derive(Clone, Copy, Debug, Default, PartialEq, Eq)]
pub struct Counts {
    /// Instructions that were stepped.
    pub steps: u64,
    /// Those whose rows were judged.
    pub judged: u64,
    /// Values that were compared.
    pub compared: u64,
    /// Calls from which on functions were stepped.
    pub windows: u64,
    /// Signal handlers that were entered while their threads were stepped.
    pub signals: u64,
    /// Processes that were traced.
    pub processes: u64,
    /// Threads that these made.
    pub threads: u64,
    /// How often a process got another program.
    pub programs: u64,
    /// Why instructions weren't judged.
    pub rules: RuleCounts,
    /// How long the program was traced.
    pub time: Duration,
}

/// What was seen of a file.
#[derive(Clone, Copy, Debug, Default, PartialEq, Eq)]
pub struct Coverage {
    /// Its FDEs.
    pub fdes: usize,
    /// Those in which an instruction was judged.
    pub reached: usize,
    /// The addresses that rows cover.
    pub bytes: u64,
    /// Those of them that instructions have which were judged.
    pub judged_bytes: u64,
    /// Instructions that were stepped.
    pub stepped: usize,
    /// Those of them that were judged.
    pub judged: usize,
    /// Those of them at which something was wrong.
    pub wrong: usize,
}

/// What was seen of an FDE.
#[derive(Clone, Copy, Debug, PartialEq, Eq)]
pub struct FdeCoverage {
    /// Its first address.
    pub begin: u64,
    /// Its bytes.
    pub bytes: u64,
    /// Those of them that instructions have which were judged.
    pub judged_bytes: u64,
    /// The instructions at which something was wrong.
    pub wrong: u64,
}

/// A defect that a run shows.
#[derive(Debug)]
pub struct Found<'m> {
    /// The defect.
    pub finding: Finding<'m>,
    /// How often the first wrong instruction was judged.
    pub judged: u64,
    /// How often something was wrong there.
    pub wrong: u64,
}

/// What was seen of a file, and what was wrong.
#[derive(Debug)]
pub struct FileReport<'t, 's> {
    /// The file.
    pub file: &'t ModuleFile<'s>,
    /// What was wrong, ascending by address.
    pub found: Vec<Found<'t>>,
    /// What was seen.
    pub coverage: Coverage,
    /// What was seen of each FDE, ascending by address.
    pub fdes: Vec<FdeCoverage>,
}

impl Counts {
    /// Counts an instruction that was judged.
    pub(super) fn add_judged(&mut self, verdict: &Verdict) {
        self.judged += 1;
        // Registers are compared only where the CFA and the return address are right.
        let is_frame_wrong = verdict.wrong.has_frame();
        let has_caller = verdict.cfa.is_none();
        self.compared += 1 + u64::from(has_caller) + if is_frame_wrong { 0 } else { SAVED_COUNT as u64 };
    }

    /// Each count with its name.
    pub fn named(&self) -> Vec<(&'static str, u64)> {
        let counts = [
            ("steps", self.steps),
            ("judged", self.judged),
            ("compared", self.compared),
            ("windows", self.windows),
            ("signals", self.signals),
            ("processes", self.processes),
            ("threads", self.threads),
            ("programs", self.programs),
        ];
        counts.into_iter().chain(self.rules.named()).collect()
    }
}

impl Coverage {
    /// Each count with its name.
    pub fn named(&self) -> [(&'static str, u64); 7] {
        [
            ("fdes", self.fdes as u64),
            ("reached", self.reached as u64),
            ("bytes", self.bytes),
            ("judged-bytes", self.judged_bytes),
            ("instructions", self.stepped as u64),
            ("judged", self.judged as u64),
            ("wrong", self.wrong as u64),
        ]
    }
}

impl FdeCoverage {
    /// Each count with its name.
    pub fn named(&self) -> [(&'static str, u64); 3] {
        [("bytes", self.bytes), ("judged-bytes", self.judged_bytes), ("wrong", self.wrong)]
    }
}

impl<'s> Tracer<'_, 's> {
    /// What was counted over all files.
    pub fn counts(&self) -> &Counts {
        &self.counts
    }

    /// What was seen, file by file.
    pub fn files(&self) -> Vec<FileReport<'_, 's>> {
        let mut by_file: BTreeMap<usize, Vec<&Site>> = BTreeMap::new();
        let sites = self.sites.iter().filter(|site| site.visits > 0);
        sites.for_each(|site| by_file.entry(site.file.unwrap_or(usize::MAX)).or_default().push(site));
        let stepped = by_file.into_iter().filter(|(index, _)| *index < self.files.all().len());
        stepped.map(|(index, sites)| self.file_report(index, &sites)).collect()
    }

    /// Why files, parts of their frame sections, or processes aren't looked at.
    pub fn problems(&self) -> Vec<String> {
        let unread = self.files.unread.iter().map(|(path, error)| problem_line(path, error));
        let unused =
            self.files.all().iter().flat_map(|file| file.unused.iter().map(|why| problem_line(&file.path, why)));
        unread.chain(unused).chain(self.notes.iter().cloned()).collect()
    }

    fn file_report(&self, index: usize, sites: &[&Site]) -> FileReport<'_, 's> {
        let file = self.files.at(index);
        let mut reached: Vec<_> = sites.iter().filter(|site| site.judged > 0).filter_map(|site| site.fde).collect();
        reached.sort_unstable();
        reached.dedup();
        let judged = || sites.iter().filter(|site| site.judged > 0);
        let coverage = Coverage {
            fdes: file.module.fdes.len(),
            reached: reached.len(),
            bytes: file.module.fdes.iter().map(|fde| fde.end - fde.begin).sum(),
            judged_bytes: judged().map(|site| u64::from(site.length)).sum(),
            stepped: sites.len(),
            judged: judged().count(),
            wrong: sites.iter().filter(|site| site.wrong.is_some()).count(),
        };
        FileReport {
            file,
            found: self.findings_of_file(index, file, sites),
            coverage,
            fdes: coverage_of_fdes(file, sites),
        }
    }

    /// What was wrong in a file.
    fn findings_of_file<'t>(&'t self, index: usize, file: &'t ModuleFile<'s>, sites: &[&Site]) -> Vec<Found<'t>> {
        let mut wrong: BTreeMap<usize, Vec<(&Site, &Wrong)>> = BTreeMap::new();
        for site in sites {
            if let (Some((_, fde)), Some(found)) = (site.fde, site.wrong.as_deref()) {
                wrong.entry(fde).or_default().push((site, found));
            }
        }
        wrong.into_iter().flat_map(|(fde, sites)| self.findings_of_fde(index, file, fde, &sites)).collect()
    }

    fn findings_of_fde<'t>(
        &'t self,
        index: usize,
        file: &'t ModuleFile<'s>,
        fde: usize,
        sites: &[(&Site, &Wrong)],
    ) -> Vec<Found<'t>> {
        let marks = sites.iter().filter_map(|(site, wrong)| mark_of_wrong(file, site, wrong)).collect();
        let mut outcome = Outcome::default();
        outcome.groups = group_marks(marks);
        outcome.lost = self.lost.get(&(index, fde)).map_or(Facts::NONE, lost_facts);
        let breaks_walk = sites.iter().any(|(_, wrong)| wrong.breaks_walk);
        let counted = |finding: Finding<'t>| {
            let first = sites.iter().find(|(site, _)| site.address == finding.mark.address);
            let (judged, wrong) = first.map_or((0, 0), |(site, wrong)| (site.judged, wrong.count));
            Found { finding: with_walk_severity(finding, breaks_walk), judged, wrong }
        };
        findings(&file.module, &file.module.fdes[fde], outcome).into_iter().map(counted).collect()
    }
}

/// What was seen of each FDE of a file.
fn coverage_of_fdes(file: &ModuleFile<'_>, sites: &[&Site]) -> Vec<FdeCoverage> {
    let none = |fde: &Fde| FdeCoverage { begin: fde.begin, bytes: fde.end - fde.begin, judged_bytes: 0, wrong: 0 };
    let mut all: Vec<_> = file.module.fdes.iter().map(none).collect();
    for site in sites {
        if let Some(seen) = site.fde.and_then(|(_, fde)| all.get_mut(fde)) {
            seen.judged_bytes += if site.judged > 0 { u64::from(site.length) } else { 0 };
            seen.wrong += u64::from(site.wrong.is_some());
        }
    }
    all
}

/// A finding that is as bad as a walk shows it to be.
fn with_walk_severity(mut finding: Finding<'_>, breaks_walk: bool) -> Finding<'_> {
    if breaks_walk && finding.severity == Severity::RegisterLost {
        finding.severity = Severity::BacktraceBroken;
    }
    finding
}

fn problem_line(path: &Path, why: &dyn std::fmt::Display) -> String {
    format!("{}: {}", Escaped(&path.to_string_lossy()), why)
}

/// The registers that a function didn't give back.
fn lost_facts(is_lost: &[bool; SAVED_COUNT]) -> Facts {
    let mut lost = Facts::NONE;
    let locations = is_lost.iter().enumerate().filter(|(_, is_lost)| **is_lost);
    locations.for_each(|(index, _)| lost.add(Facts::callee_saved(index)));
    lost
}

/// What was wrong at an instruction, in the lint's form.
fn mark_of_wrong<'t>(file: &'t ModuleFile<'_>, site: &Site, wrong: &Wrong) -> Option<Mark<'t>> {
    let row = file.module.rows.row(site.address)?;
    Some(Mark {
        address: site.address,
        next: site.address.wrapping_add(u64::from(site.length)),
        effect: site.effect,
        before: wrong.before,
        way: Way::Here,
        verdict: wrong.verdict,
        correct_row: correct_row_at(&row, &wrong.locations),
        is_assumed: false,
        row,
    })
}

/// What is true where a row is wrong.
fn correct_row_at(row: &Row<'_>, locations: &Locations) -> CorrectRow {
    let of_row = match row.cfa {
        Cfa::RegisterOffset { register: Register(number), .. } => Some(usize::from(number)),
        Cfa::Expression(_) => None,
    };
    let usual = [7, 6];
    let order = of_row.into_iter().chain(usual).chain(0..16);
    let distance = |number: usize| {
        let distance = (*locations.distances.get(number)?)?;
        (distance.abs() < FARTHEST).then_some((Register(number as u8), distance))
    };
    let mut correct_row = CorrectRow { cfa: order.filter_map(distance).next(), ..CorrectRow::default() };
    correct_row.return_address = Some((Location::Slot(-8), false));
    for (index, callee_saved) in correct_row.callee_saved.iter_mut().enumerate().take(SAVED_COUNT) {
        let own = locations.in_registers[index].iter().find(|number| **number == CALLEE_SAVED[index]);
        let register = own.or_else(|| locations.in_registers[index].first());
        let in_register = register.map(|number| Location::Register(Register(*number as u8)));
        *callee_saved = in_register.or_else(|| locations.in_slots[index].first().map(|offset| Location::Slot(*offset)));
    }
    correct_row
}
