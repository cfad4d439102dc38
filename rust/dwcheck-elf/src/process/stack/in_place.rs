//! Callers by look-ups in place, for which no table is made: in files whose `.eh_frame_hdr` leads to their FDEs.

use super::tables::Found;
use crate::cfi::frames::{FrameSection, Name};
use crate::elf::program::Program;
use dwcheck::{Answer, Cursor, EhFrameInPlace, Row, State, Stop};
use std::borrow::Cow;

/// The first number of the registers that have no place in a cursor.
const PLACES: u16 = 96;

/// One look-up in place for this many FDEs of a file: they take about as long as to read the records of all.
const FDES_FOR_A_LOOK_UP: u64 = 8;

/// The `.eh_frame` of a file, with the table that leads to its FDEs. All addresses are as linked.
pub(super) struct InPlace<'a> {
    section: EhFrameInPlace<'a>,
    /// How many look-ups are left. After them a table of the file has paid off.
    left: u64,
}

impl<'a> InPlace<'a> {
    /// The section of a file. `None` if the file has none that can be read where it lies, or has a
    /// `.debug_frame`, whose rows count first.
    pub fn of(program: &Program<'a>) -> Option<Self> {
        if !matches!(program.debug_frame(), Ok(None)) {
            return None;
        }
        let FrameSection { format, source } = FrameSection::read(program, Name::EhFrame).ok()??;
        let bytes = match source.bytes {
            Cow::Borrowed(bytes) if source.unresolved.is_empty() => bytes,
            _ => return None,
        };
        let (address, header) = program.eh_frame_header()?;
        let fdes = format.target.number(header.get(8..12)?);
        let eh_frame = format.module(bytes, 0).eh_frame?;
        let section = EhFrameInPlace::new(bytes, eh_frame, header, address, format.target);
        Some(InPlace { section, left: fdes / FDES_FOR_A_LOOK_UP })
    }

    /// The caller of the frame that is looked up at an address. `None` if no row is found, whatever the reason, or no
    /// look-up is left.
    pub fn caller(&mut self, address: u64, state: &State<'_>) -> Option<Found> {
        self.left = self.left.checked_sub(1)?;
        let mut cursor = Cursor::new(address, state).ok()?;
        let cfa = self.section.step(&mut cursor, state).ok()??.cfa()?.value();
        let return_address = match cursor.stop() {
            None => Answer::Value(cursor.address()),
            Some(Stop::ReturnUndefined) => Answer::Undefined,
            Some(Stop::ReturnDivisionByZero) => Answer::DivisionByZero,
            Some(_) => Answer::Unreadable,
        };
        let registers = (0..PLACES).filter_map(|number| Some((number, cursor.register(number)?))).collect();
        let is_signal_frame = self.section.is_signal_frame(address).ok()?;
        Some(Found { cfa, return_address, registers, is_signal_frame, is_signal_return: is_signal_frame })
    }

    /// The row of an address, whatever the number of look-ups that are left.
    pub fn row(&self, address: u64) -> Option<Row> {
        self.section.row(address).ok()?
    }

    /// Whether a row is found for an address, and a look-up is left.
    pub fn covers(&self, address: u64) -> bool {
        self.left > 0 && self.row(address).is_some()
    }
}
