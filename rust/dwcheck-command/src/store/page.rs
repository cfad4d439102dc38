//! One page about the findings in a store: counts by package, by compiler and by kind, and a list that can be searched.

use dwcheck_elf::internal::page::{write_page, write_separated};
use dwcheck_store::{Located, Store, StoreError};
use serde_json::{json, Value};
use std::collections::{BTreeMap, BTreeSet};
use std::io::{self, Write};

/// The page, with a mark where the data go.
const PAGE: &str = include_str!("page.html");

/// How many findings a page lists. All are counted.
const MOST: usize = 20_000;

/// The findings of a store, and counts of them.
#[derive(Default)]
pub struct Findings {
    listed: Vec<Located>,
    all: u64,
    /// How many there are of each command with its options, kind, and severity.
    kinds: BTreeMap<[String; 3], u64>,
    /// How many there are in each package, and in how many files.
    packages: BTreeMap<String, InFiles>,
    /// The same of each compiler.
    compilers: BTreeMap<String, InFiles>,
}

/// How many findings there are, and in which files.
#[derive(Default)]
struct InFiles {
    findings: u64,
    files: BTreeSet<String>,
}

impl InFiles {
    fn add(&mut self, file: &str) {
        self.findings += 1;
        if !self.files.contains(file) {
            self.files.insert(file.to_string());
        }
    }
}

impl Findings {
    /// Reads the findings of a store.
    pub fn of(store: &Store) -> Result<Findings, StoreError> {
        let mut findings = Findings::default();
        store.each_finding(|located| findings.add(located))?;
        Ok(findings)
    }

    fn add(&mut self, located: Located) {
        let command = format!("{} {}", located.command, located.options).trim_end().to_string();
        *self.kinds.entry([command, located.kind.clone(), located.severity.clone()]).or_default() += 1;
        self.packages.entry(located.package.clone()).or_default().add(&located.file);
        self.compilers.entry(located.compiler.clone()).or_default().add(&located.file);
        self.all += 1;
        if self.listed.len() < MOST {
            self.listed.push(located);
        }
    }

    /// Writes the page.
    pub fn write(&self, title: &str, out: &mut impl Write) -> io::Result<()> {
        write_page(PAGE, out, |out| {
            write!(out, "{{\"head\":{},\"findings\":[", self.head(title))?;
            write_separated(out, self.listed.iter(), |located, out| write!(out, "{}", finding_value(located)))?;
            out.write_all(b"]}")
        })
    }

    fn head(&self, title: &str) -> Value {
        let in_files = |part: &BTreeMap<String, InFiles>| -> Value {
            part.iter().map(|(name, one)| json!([name, one.findings, one.files.len()])).collect()
        };
        let kinds: Value = self
            .kinds
            .iter()
            .map(|([command, kind, severity], count)| json!([command, kind, severity, count]))
            .collect();
        json!({
            "title": title,
            "all": self.all,
            "kinds": kinds,
            "packages": in_files(&self.packages),
            "compilers": in_files(&self.compilers),
        })
    }
}

fn finding_value(located: &Located) -> Value {
    let Located { package, file, kind, severity, text, .. } = located;
    json!([package, file, kind, severity, text])
}
