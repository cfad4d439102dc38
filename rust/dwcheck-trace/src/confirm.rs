//! Confirms what the lint finds: whether it is so when the program runs.

use super::site::Site;
use super::tracer::Tracer;
use dwcheck_elf::functions::Functions;
use dwcheck_elf::names::FunctionOffset;
use dwcheck_lint::finding::{Finding, Severity};
use dwcheck_lint::finding_text::Text;
use dwcheck_lint::judging::Way;
use dwcheck_lint::lint::Lint;
use dwcheck_lint::module::Module;
use std::fmt;
use std::path::Path;

/// A finding of the lint.
#[derive(Clone, Debug, PartialEq, Eq)]
pub struct Suspect {
    /// The first address of its FDE.
    pub fde: u64,
    /// Where it is first wrong.
    pub address: u64,
    /// Whether it is wrong there however the address is reached.
    pub is_always: bool,
    /// The finding, as the lint writes it.
    pub text: String,
}

/// What a run says of a finding.
#[derive(Clone, Copy, Debug, PartialEq, Eq)]
pub enum Confirmed {
    /// It was wrong this often of this many times.
    Confirmed {
        /// How often it was wrong.
        wrong: u64,
        /// How often the instruction was judged.
        judged: u64,
    },
    /// It was right each of this many times. Then the lint is wrong.
    Refuted(u64),
    /// The run didn't come there, or not in the way in which it is wrong.
    NotReached,
}

/// A finding of the lint, with what the run says of it.
#[derive(Clone, Copy, Debug)]
pub struct Confirmation<'a> {
    /// The path of its file.
    pub path: &'a Path,
    /// The finding.
    pub suspect: &'a Suspect,
    /// What the run says.
    pub confirmed: Confirmed,
}

/// What the lint finds in a module, but for registers that functions never give back.
pub(super) fn suspects_of_lint(module: &Module<'_>, functions: &Functions<'_>) -> Vec<Suspect> {
    let report = Lint::run(module).report();
    let names = |address| FunctionOffset::at(functions, address).map(|spot| spot.to_string());
    let suspect = |finding: &Finding<'_>| Suspect {
        fde: finding.fde,
        address: finding.mark.address,
        is_always: finding.mark.way == Way::Here,
        text: Text(module, finding, &names).to_string(),
    };
    report.findings.iter().filter(|finding| finding.severity != Severity::Private).map(suspect).collect()
}

impl Tracer<'_, '_> {
    /// What the run says of each finding of the lint.
    pub fn confirmations(&self) -> Vec<Confirmation<'_>> {
        let files = self.files.all().iter().enumerate();
        let all = files.flat_map(|(index, file)| file.suspects.iter().map(move |suspect| (index, file, suspect)));
        all.map(|(index, file, suspect)| {
            let confirmed = self.confirmation_of_suspect(index, suspect);
            Confirmation { path: &file.path, suspect, confirmed }
        })
        .collect()
    }

    /// Any instruction of the function that is wrong confirms a finding there: its first one may be on a
    /// way that the run didn't take.
    fn confirmation_of_suspect(&self, file: usize, suspect: &Suspect) -> Confirmed {
        let fde = self.files.at(file).module.fde_at(suspect.address);
        let is_in = |site: &&Site| site.fde == fde.map(|fde| (file, fde));
        let first = self.sites.find(file, suspect.address).map(|site| self.sites.at(site));
        let others = self.sites.iter().filter(is_in);
        let mut wrong = first.into_iter().chain(others).filter_map(|site| Some((site, site.wrong.as_ref()?)));
        match (wrong.next(), first) {
            (Some((site, wrong)), _) => Confirmed::Confirmed { wrong: wrong.count, judged: site.judged },
            (None, Some(site)) if suspect.is_always && site.judged > 0 => Confirmed::Refuted(site.judged),
            _ => Confirmed::NotReached,
        }
    }
}

impl fmt::Display for Confirmed {
    fn fmt(&self, f: &mut fmt::Formatter<'_>) -> fmt::Result {
        match self {
            Confirmed::Confirmed { wrong, judged } => write!(f, "confirmed: wrong {} of {} times", wrong, judged),
            Confirmed::Refuted(judged) => write!(f, "refuted: right {} of {} times", judged, judged),
            Confirmed::NotReached => f.write_str("not reached"),
        }
    }
}
