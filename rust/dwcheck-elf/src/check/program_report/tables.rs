//! The rows of a program's tables, as a report shows them.

use crate::cfi::frames::Name;
use crate::cfi::row::Row;
use crate::cfi::sframe::{Function, Sframe, SframeRow};
use crate::cfi::validate::{DwcheckRows, RowError, RowSource};
use dwcheck::Process;
use std::slice::Iter;

/// A table with rows.
pub(super) enum Table {
    /// A checked frame section.
    Frames(Name, Process),
    /// A checked SFrame section: its functions ascending by address, each with its rows, or those of its first block.
    Sframe(Vec<(Function, Vec<SframeRow>)>),
}

/// The rows of a function.
pub(super) enum TableRows<'a> {
    Frames(DwcheckRows<'a>),
    Sframe(Iter<'a, SframeRow>),
}

impl Table {
    pub fn of_sframe(sframe: &Sframe<'_>) -> Self {
        let with_rows = |function: &Function| (function.clone(), sframe.rows(function).collect());
        Table::Sframe(sframe.by_address().map(with_rows).collect())
    }

    pub fn name(&self) -> Name {
        match self {
            Table::Frames(name, _) => *name,
            Table::Sframe(_) => Name::Sframe,
        }
    }

    /// The rows of the function with these addresses.
    pub fn rows(&self, begin: u64, end: u64) -> TableRows<'_> {
        match self {
            Table::Frames(_, process) => TableRows::Frames(DwcheckRows::whole(process, begin, end)),
            Table::Sframe(functions) => {
                let place = functions.binary_search_by_key(&begin, |(function, _)| function.begin).ok();
                let rows = place.and_then(|place| functions.get(place)).map_or(&[][..], |(_, rows)| rows);
                TableRows::Sframe(rows.iter())
            }
        }
    }
}

impl RowSource<'static> for TableRows<'_> {
    fn next_row(&mut self, row: &mut Row<'static>) -> Result<bool, RowError> {
        match self {
            TableRows::Frames(rows) => rows.next_row(row),
            TableRows::Sframe(rows) => {
                let next = rows.next();
                if let Some(next) = next {
                    row.clone_from(&next.row);
                }
                Ok(next.is_some())
            }
        }
    }
}
