//! Says in words which variable a location list belongs to.

use crate::debug::debug_info::{Die, Units};
use gimli::{DwTag, UnitOffset};
use std::collections::{BTreeSet, HashMap};
use std::rc::Rc;

/// The variables that some entries of a unit describe, in words: `sp of f, tls3.c:4`. They are found in one
/// pass through the unit. Entries without a name are left out.
pub(crate) fn describe_variables(units: &Units<'_>, unit: usize, entries: &BTreeSet<usize>) -> HashMap<usize, String> {
    let mut described = HashMap::new();
    let unit = match units.unit(unit) {
        Ok(unit) => unit,
        Err(_) => return described,
    };
    let mut raw = match unit.entries_raw(None) {
        Ok(raw) => raw,
        Err(_) => return described,
    };
    // The functions around the current entry, each with its depth.
    let mut functions: Vec<(isize, UnitOffset<usize>)> = Vec::new();
    while !raw.is_empty() {
        let (offset, depth) = (raw.next_offset(), raw.next_depth());
        let abbreviation = match raw.read_abbreviation() {
            Ok(Some(abbreviation)) => abbreviation,
            Ok(None) => continue,
            Err(_) => break,
        };
        functions.retain(|(outer, _)| *outer < depth);
        let die = |offset| Die { units, unit: Rc::clone(&unit), offset };
        if entries.contains(&offset.0) {
            let function = functions.last().and_then(|(_, function)| die(*function).name());
            described.extend(variable_in_words(&die(offset), function).map(|words| (offset.0, words)));
        }
        if is_function_tag(abbreviation.tag()) {
            functions.push((depth, offset));
        }
        if raw.skip_attributes(abbreviation.attributes()).is_err() {
            break;
        }
    }
    described
}

fn is_function_tag(tag: DwTag) -> bool {
    matches!(tag, gimli::DW_TAG_subprogram | gimli::DW_TAG_inlined_subroutine)
}

fn variable_in_words(die: &Die<'_, '_>, function: Option<String>) -> Option<String> {
    let tag = die.entry()?.tag();
    let name = match die.name() {
        Some(name) => name,
        // A call site's parameter has no name, but its function has.
        None => tag.static_string()?.trim_start_matches("DW_TAG_").to_string(),
    };
    let of = function.map_or_else(String::new, |function| format!(" of {}", function));
    let source = die.source().map_or_else(String::new, |source| format!(", {}", source));
    Some(format!("{}{}{}", name, of, source))
}
