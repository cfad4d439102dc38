//! Writes findings as SARIF.

use crate::sarif::sarif_location;
use dwcheck_elf::lines::SourceLine;
use dwcheck_lint::coverage::Coverage;
use dwcheck_lint::finding::{Finding, Severity};
use dwcheck_lint::finding_text::ShownAddress;
use dwcheck_lint::kinds::{Kind, KINDS};
use dwcheck_lint::module::Module;
use serde_json::{json, Value};

/// A finding as a result. `text` is its first line, without the file, and `function` names the function with
/// its offset.
pub fn finding_as_result(
    module: &Module<'_>,
    finding: &Finding<'_>,
    text: &str,
    function: Option<String>,
    line: Option<SourceLine>,
) -> Value {
    let address = finding.mark.address;
    let logical = function.unwrap_or_else(|| ShownAddress(module, address).to_string());
    let fingerprint = logical.rsplit_once("+0x").map_or(logical.as_str(), |(name, _)| name).to_string();
    let place = sarif_location(Some(address), line.as_ref());
    json!({
        "ruleId": finding.kind.to_string(),
        "level": level_of_severity(finding.severity),
        "message": { "text": text },
        "locations": [{ "physicalLocation": place, "logicalLocations": [{ "fullyQualifiedName": logical }] }],
        "partialFingerprints": { "kindAndFunction": format!("{} at {}", finding.kind, fingerprint) },
        "properties": {
            "file": "",
            "place": ShownAddress(module, address).to_string(),
            "severity": finding.severity.to_string(),
            "directive": finding.directive(),
            "assumed": finding.is_assumed(),
            "addresses": finding.addresses,
        },
    })
}

/// The whole document.
pub fn lint_document(results: Vec<Value>, coverage: &Coverage) -> Value {
    let rule = |(kind, name): &(Kind, &str)| json!({ "id": name, "shortDescription": { "text": kind.meaning() } });
    let rules: Vec<_> = KINDS.iter().map(rule).collect();
    let counts: serde_json::Map<_, _> =
        coverage.named().into_iter().map(|(name, count)| (name.to_string(), json!(count))).collect();
    crate::sarif::sarif_document(results, rules, json!({ "coverage": counts }))
}

fn level_of_severity(severity: Severity) -> &'static str {
    match severity {
        Severity::BacktraceBroken => "error",
        Severity::RegisterLost => "warning",
        Severity::Private => "note",
    }
}
