//! Writes what a survey refuses as SARIF, each fault at the source line of its FDE's first address.

use crate::inquiry::detail;
use crate::sarif::{result_in_file, sarif_document, sarif_location};
use dwcheck_elf::fault::{Defect, Within};
use dwcheck_elf::lines::SourceLine;
use dwcheck_store::Answer;
use serde_json::{json, Value};
use std::collections::BTreeMap;
use std::io::{self, Write};
use std::path::Path;

/// The faults so far.
#[derive(Debug, Default)]
pub struct Results {
    results: Vec<Value>,
    /// What each kind of fault breaks, by its name.
    rules: BTreeMap<String, String>,
}

impl Results {
    /// Adds the faults of a file.
    pub fn add(&mut self, path: &Path, answer: &Answer) {
        for finding in &answer.findings {
            let rule = || detail(&finding.details, "rule").to_string();
            self.rules.entry(finding.kind.clone()).or_insert_with(rule);
            self.results.push(result_in_file(&finding.details["sarif"], path));
        }
    }

    /// Writes the document, with the totals as its properties.
    pub fn write(self, out: &mut impl Write, totals: Value) -> io::Result<()> {
        let rule = |(name, rule): (String, String)| json!({ "id": name, "shortDescription": { "text": rule } });
        let rules = self.rules.into_iter().map(rule).collect();
        writeln!(out, "{:#}", sarif_document(self.results, rules, json!({ "totals": totals })))
    }
}

/// A fault as a result, without the file.
pub fn sarif_result(defect: &Defect, line: Option<&SourceLine>) -> Value {
    let place = sarif_location(address_of_fde(defect), line);
    let name = defect.function.clone().unwrap_or_else(|| format!("{}+{:#x}", defect.section, defect.at));
    json!({
        "ruleId": defect.fault,
        "level": "error",
        "message": { "text": format!("{}: {}", defect, defect.rule) },
        "locations": [{ "physicalLocation": place, "logicalLocations": [{ "fullyQualifiedName": name }] }],
        "partialFingerprints": { "faultAndFunction": format!("{} at {}", defect.fault, name) },
        "properties": {
            "file": "",
            "section": defect.section.to_string(),
            "record": defect.at,
            "offset": defect.offset,
        },
    })
}

/// The first address of the FDE that has a fault.
pub fn address_of_fde(defect: &Defect) -> Option<u64> {
    match &defect.record {
        Some(Within::Fde(range)) => Some(range.start),
        _ => None,
    }
}
