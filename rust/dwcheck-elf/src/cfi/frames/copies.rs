//! Finds FDEs that are exact copies of earlier ones.
//!
//! If several objects have the same inline function, the linker keeps one of the functions, but may
//! keep all their FDEs. They then say the same about the same addresses.

use super::records::{find_record, Kind, Record, RecordStatus};
use std::collections::{HashMap, HashSet};

/// Marks each used FDE that is an exact copy of an earlier one. It is one if it covers an address, and the
/// first FDE that begins where it begins, and covers an address, covers the same addresses with the same
/// instructions and the same CIE. In `.eh_frame`, where linkers merge equal CIEs, that is the same record; in
/// `.debug_frame`, where each object's CIEs stay, it is a record of the same bytes.
///
/// In `.eh_frame` the library finds copies by the same rule. This takes time in proportion to the section's
/// length, but for a sort.
pub(super) fn mark_copies(records: &mut [Record], bytes: &[u8], is_eh_frame: bool) {
    let repeated = repeated_addresses(records);
    if repeated.is_empty() {
        return;
    }
    let mut first: HashMap<u64, Record> = HashMap::new();
    for number in 0..records.len() {
        let record = records[number];
        let begin = match first_covered(&record).filter(|begin| repeated.contains(begin)) {
            Some(begin) => begin,
            None => continue,
        };
        match first.get(&begin) {
            Some(earlier) if is_copy(records, bytes, (earlier, &record), is_eh_frame) => {
                records[number].status = RecordStatus::Copy;
            }
            Some(_) => {}
            None => {
                first.insert(begin, record);
            }
        }
    }
}

/// The first address of a used FDE that covers one.
fn first_covered(record: &Record) -> Option<u64> {
    let addresses = record.addresses().filter(|range| record.is_used() && range.start < range.end)?;
    Some(addresses.start)
}

/// The first addresses that occur more than once.
fn repeated_addresses(records: &[Record]) -> HashSet<u64> {
    let mut begins: Vec<u64> = records.iter().filter_map(first_covered).collect();
    begins.sort_unstable();
    begins.windows(2).filter(|pair| pair[0] == pair[1]).map(|pair| pair[0]).collect()
}

/// Whether two FDEs that begin at the same address say the same.
fn is_copy(records: &[Record], bytes: &[u8], (one, other): (&Record, &Record), is_eh_frame: bool) -> bool {
    let (cie, other_cie) = match (one.kind, other.kind) {
        (Kind::Fde { cie, end, .. }, Kind::Fde { cie: other_cie, end: other_end, .. }) if end == other_end => {
            (cie, other_cie)
        }
        _ => return false,
    };
    let part = |record: &Record| bytes.get(record.range());
    let cie_bytes = |offset| find_record(records, offset).filter(|cie| cie.is_cie()).and_then(part);
    let same_cie =
        cie == other_cie || (!is_eh_frame && cie_bytes(cie).is_some() && cie_bytes(cie) == cie_bytes(other_cie));
    same_cie && bytes.get(one.program()) == bytes.get(other.program())
}
