//! What is wrong with a frame section, or with one of its FDEs, in terms of the ELF file. `check` finds out which
//! words to use.

use crate::elf::format::Name;
use std::fmt;
use std::ops::Range;

/// A fault of a section, described in terms of the file.
///
/// Its text is one line without a line feed, and has the offset of the CIE or FDE, such as
/// `.eh_frame+0xeb30: CfaNotRegister: def_cfa_register, FDE 0xcb480..0xccad1 (name of the
/// function)`.
#[derive(Clone, Debug, PartialEq, Eq)]
pub struct Defect {
    /// The section.
    pub section: Name,
    /// The offset of the fault in the file's section, decompressed.
    pub offset: u64,
    /// In a frame section, the offset of the CIE or FDE with the fault, as readelf shows it. In
    /// location lists, or if the fault is in no CIE or FDE, the offset of the fault.
    pub at: u64,
    /// The fault's name, such as `CfaNotRegister`.
    pub fault: &'static str,
    /// What is at the fault, in words: the name of an instruction, an operation or a field, for
    /// example.
    pub what: String,
    /// The CIE or FDE with the fault. In location lists, the table with the fault. `None` if the
    /// fault is in none.
    pub record: Option<Within>,
    /// The function at the FDE's first address, or the variable of the location list. `None` if the fault
    /// is in neither, or if the file has no name for it.
    pub function: Option<String>,
    /// The rule that the fault breaks, in words.
    pub rule: String,
    /// Where the fault usually comes from, and what helps, if that is known.
    pub hint: Option<&'static str>,
}

/// The CIE, FDE or table that has a fault.
#[derive(Clone, Debug, PartialEq, Eq)]
pub enum Within {
    /// A CIE, by its offset in the section.
    Cie(u64),
    /// An FDE, by its range of addresses.
    Fde(Range<u64>),
    /// A CIE or FDE that can't be read, or whose address isn't known, or a table of location lists, by its
    /// offset in the section.
    Record(u64),
    /// A location list, by its offset in the section.
    List(u64),
}

impl Defect {
    /// Describes an FDE whose first address has a relocation against a symbol that the object doesn't define.
    pub(crate) fn unresolved(section: Name, record: u64, field: u64) -> Self {
        let rule = "the address belongs to a symbol that the object doesn't define";
        let within = Some(Within::Record(record));
        Defect { offset: field, record: within, ..Defect::of_section(section, record, "Unresolved", rule) }
    }

    /// Describes a section that has 2^32 bytes or more.
    pub(crate) fn too_long(section: Name) -> Self {
        Defect::of_section(section, 0, "SectionTooLong", "the section has 2^32 bytes or more")
    }

    fn of_section(section: Name, at: u64, fault: &'static str, rule: &str) -> Self {
        Defect {
            section,
            offset: at,
            at,
            fault,
            what: "a field".to_string(),
            record: Some(Within::Record(at)),
            function: None,
            rule: rule.to_string(),
            hint: None,
        }
    }
}

impl fmt::Display for Within {
    fn fmt(&self, f: &mut fmt::Formatter<'_>) -> fmt::Result {
        match self {
            Within::Cie(offset) => write!(f, "CIE {:#x}", offset),
            Within::Fde(range) => write!(f, "FDE {:#x}..{:#x}", range.start, range.end),
            Within::Record(offset) => write!(f, "record {:#x}", offset),
            Within::List(offset) => write!(f, "list {:#x}", offset),
        }
    }
}

impl fmt::Display for Defect {
    fn fmt(&self, f: &mut fmt::Formatter<'_>) -> fmt::Result {
        write!(f, "{}+{:#x}: {}: {}", self.section, self.at, self.fault, self.what)?;
        if let Some(record) = &self.record {
            write!(f, ", {}", record)?;
        }
        match &self.function {
            Some(function) => write!(f, " ({})", function),
            None => Ok(()),
        }
    }
}
