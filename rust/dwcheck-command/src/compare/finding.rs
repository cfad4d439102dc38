//! Writes what differs between the tables of a file as text, as JSON and as SARIF.

use crate::known::{without_offset, NAMELESS};
use crate::sarif::sarif_location;
use dwcheck_elf::compare::{named, Difference, HeaderDifference, Kind, Pair, Severity, Support, TableRow};
use dwcheck_elf::functions::Functions;
use dwcheck_elf::image::Image;
use dwcheck_elf::lines::Lines;
use dwcheck_elf::names::FunctionOffset;
use dwcheck_lint::machine::Machine;
use dwcheck_store::Finding;
use serde_json::{json, Value};

/// A file whose differences are written.
pub struct File<'a> {
    pub functions: &'a Functions<'a>,
    pub image: &'a Image<'a>,
    pub lines: Option<Lines<'a>>,
    pub machine: Option<&'static Machine>,
    /// Whether the source lines of findings are looked up.
    pub has_lines: bool,
}

/// What a finding has in all forms.
struct Parts {
    kind: Kind,
    address: u64,
    /// What differs, in words.
    what: String,
    /// The lines after the first one.
    rest: Vec<String>,
    /// What JSON has beside the place and the kind.
    fields: Value,
}

impl File<'_> {
    /// What differs between two tables with rows.
    pub fn difference(&self, pair: &Pair, difference: &Difference) -> Finding {
        let Difference { kind, address, bytes, places, .. } = *difference;
        let [first, second] = &pair.tables;
        let rows = [self.row(&difference.rows[0]), self.row(&difference.rows[1])];
        let code = code(pair, difference);
        let unit = if bytes == 1 { "address" } else { "addresses" };
        let mut what = format!("{} and {} differ, {} {}", first, second, bytes, unit);
        if places > 1 {
            what.push_str(&format!(" in {} places", places));
        }
        let mut rest = Vec::new();
        let instruction = self.instruction(address);
        if let Some(text) = &instruction {
            rest.push(format!("at {}: {}", self.place(address), text));
        }
        rest.push(format!("{}: {}", first, rows[0]));
        rest.push(format!("{}: {}", second, rows[1]));
        rest.push(format!("code: {}", code));
        let fields = json!({
            "tables": [first.to_string(), second.to_string()],
            "rows": rows,
            "instruction": instruction,
            "fde": difference.fde,
            "addresses": bytes,
            "places": places,
            "registers": difference.registers.iter().map(|register| self.register(*register)).collect::<Vec<_>>(),
            "code": difference.code,
            "supports": supported(pair, difference.support),
        });
        self.described(&Parts { kind, address, what, rest, fields })
    }

    /// What differs between the sorted table of `.eh_frame_hdr` and `.eh_frame`.
    pub fn header(&self, difference: &HeaderDifference) -> Finding {
        let HeaderDifference { kind, address, count } = *difference;
        let one = count == 1;
        let what = match kind {
            Kind::NoFde => {
                format!("{} of .eh_frame_hdr to no FDE", if one { "1 entry leads" } else { "{} entries lead" })
            }
            Kind::OtherAddress if one => "1 entry of .eh_frame_hdr has another address than its FDE".to_string(),
            Kind::OtherAddress => "{} entries of .eh_frame_hdr have another address than their FDE".to_string(),
            Kind::OutOfOrder if one => "1 entry of .eh_frame_hdr is out of order".to_string(),
            Kind::OutOfOrder => "{} entries of .eh_frame_hdr are out of order".to_string(),
            _ if one => "1 FDE has no entry in .eh_frame_hdr".to_string(),
            _ => "{} FDEs have no entry in .eh_frame_hdr".to_string(),
        };
        let what = what.replace("{}", &count.to_string());
        let fields = json!({ "tables": [".eh_frame", ".eh_frame_hdr"], "count": count });
        self.described(&Parts { kind, address, what, rest: Vec::new(), fields })
    }

    fn described(&self, parts: &Parts) -> Finding {
        let Parts { kind, address, what, rest, .. } = parts;
        let name = self.name(*address);
        let function = name.as_deref().unwrap_or(NAMELESS);
        let message = format!("{} at {} ({}): {}: {}", kind, function, self.place(*address), kind.severity(), what);
        let text = rest.iter().fold(message.clone(), |text, line| format!("{}\n    {}", text, line));
        let mut details = json!({ "json": self.json(parts, name.as_deref()) });
        if self.has_lines {
            details["sarif"] = self.sarif(parts, name.as_deref(), &message);
        }
        Finding {
            kind: kind.name().to_string(),
            severity: kind.severity().to_string(),
            function: name.as_deref().map(|name| without_offset(name).to_string()),
            address: self.place(*address),
            text,
            details,
        }
    }

    fn json(&self, parts: &Parts, function: Option<&str>) -> Value {
        let Parts { kind, address, fields, .. } = parts;
        let mut object = json!({
            "kind": kind.name(),
            "severity": kind.severity().to_string(),
            "address": address,
            "function": function,
        });
        if let (Some(object), Some(fields)) = (object.as_object_mut(), fields.as_object()) {
            object.extend(fields.clone());
        }
        object
    }

    fn sarif(&self, parts: &Parts, function: Option<&str>, message: &str) -> Value {
        let Parts { kind, address, rest, fields, .. } = parts;
        let line = self.lines.as_ref().and_then(|lines| lines.line(*address));
        let logical = function.map_or_else(|| self.place(*address), str::to_string);
        let plain = without_offset(&logical).to_string();
        let place = sarif_location(Some(*address), line.as_ref());
        let text = rest.iter().fold(message.to_string(), |text, line| format!("{}\n{}", text, line));
        let level = if kind.severity() == Severity::BacktraceBroken { "error" } else { "warning" };
        json!({
            "ruleId": kind.name(),
            "level": level,
            "message": { "text": text },
            "locations": [{ "physicalLocation": place, "logicalLocations": [{ "fullyQualifiedName": logical }] }],
            "partialFingerprints": { "kindAndFunction": format!("{} at {}", kind, plain) },
            "properties": fields,
        })
    }

    fn name(&self, address: u64) -> Option<String> {
        FunctionOffset::at(self.functions, address).map(|spot| spot.to_string())
    }

    /// An address; in an unlinked object, a section and an offset.
    fn place(&self, address: u64) -> String {
        let part = self.image.parts.iter().rev().find(|part| part.address <= address);
        match part.and_then(|part| Some((part.address, part.section.as_deref()?))) {
            Some((begin, section)) => format!("{}+{:#x}", section, address - begin),
            None => format!("{:#x}", address),
        }
    }

    fn instruction(&self, address: u64) -> Option<String> {
        let machine = self.machine?;
        let part = self.image.parts.iter().rev().find(|part| part.address <= address)?;
        let bytes = part.bytes.get(usize::try_from(address - part.address).ok()?..)?;
        Some((machine.text)(bytes, address))
    }

    fn row(&self, row: &TableRow) -> String {
        self.machine.map_or_else(|| row.to_string(), |machine| named(machine, row))
    }

    fn register(&self, number: u16) -> String {
        match self.machine {
            Some(machine) => machine.name((machine.register)(number)).to_string(),
            None => format!("r{}", number),
        }
    }
}

/// What the code says, and which table that supports.
fn code(pair: &Pair, difference: &Difference) -> String {
    let support = match difference.support {
        Support::Neither => "which neither says".to_string(),
        Support::Unknown => "which doesn't decide".to_string(),
        support => format!("as {} says", supported(pair, support).unwrap_or_default()),
    };
    match &difference.code {
        Some(code) => format!("{}, {}", code, support),
        None => "not judged".to_string(),
    }
}

/// The table that the code supports; `neither`, or nothing if that isn't known.
fn supported(pair: &Pair, support: Support) -> Option<String> {
    let [first, second] = &pair.tables;
    match support {
        Support::First => Some(first.to_string()),
        Support::Second => Some(second.to_string()),
        Support::Neither => Some("neither".to_string()),
        Support::Unknown => None,
    }
}
