//! Look-ups in an `.eh_frame` section where it lies, without preparation.

use crate::cursor::{frame_of_step, Cursor};
use crate::fault::Error;
use crate::ffi;
use crate::module::{EhFrame, Module};
use crate::row::Row;
use crate::state::State;
use crate::walk::Frame;
use dwcheck_types::target::Target;

/// An `.eh_frame` section where it lies, with the search table of its `.eh_frame_hdr`: rows and steps
/// without preparation.
///
/// A look-up reads and checks only the FDE to which the table leads and its CIE, whatever other bytes
/// the section has. Nothing is allocated and nothing is kept, but for the rules of a [`Row`]. It takes
/// up to 53 KB of stack, and O(log n) time among n entries, plus what the two records take.
///
/// If a check accepts the section, and the table leads to all its FDEs, the rows are those of a
/// [`Process`](crate::Process) to which it is added. A wrong table leads to no row, or to one of other
/// bytes that read as an FDE which covers the address.
///
/// ```
/// use dwcheck::{CfaRule, EhFrame, EhFrameInPlace, Target};
///
/// // A CIE and an FDE of 0x1009 to 0x100b, at 0x2000, and the .eh_frame_hdr, at 0x3000.
/// let section = [
///     0x14, 0, 0, 0, 0, 0, 0, 0, 1, b'z', b'R', 0, 1, 0x78, 0x10, 1, 0x1b, 0x0c, 7, 8, 0x90, 1, 0, 0,
///     0x10, 0, 0, 0, 0x1c, 0, 0, 0, 0xe9, 0xef, 0xff, 0xff, 3, 0, 0, 0, 0, 0, 0, 0,
/// ];
/// let header = [
///     1, 0x1b, 3, 0x3b, 0xfc, 0xef, 0xff, 0xff, 1, 0, 0, 0, 9, 0xe0, 0xff, 0xff, 0x18, 0xf0, 0xff, 0xff,
/// ];
/// let module = EhFrameInPlace::new(&section, EhFrame::at(0x2000), &header, 0x3000, Target::LITTLE_64)
///     .loaded_at(0x40_0000);
///
/// let row = module.row(0x40_1009)?.unwrap();
/// assert_eq!(row.addresses, 0x1009..0x100c);
/// assert_eq!(row.cfa, CfaRule::RegisterAndOffset { register: 7, offset: 8 });
/// assert_eq!(module.row(0x40_100c)?, None);
/// # Ok::<(), dwcheck::Error>(())
/// ```
#[derive(Clone, Debug, PartialEq, Eq)]
pub struct EhFrameInPlace<'a> {
    section: &'a [u8],
    module: Module,
    header: &'a [u8],
    header_address: u64,
    target: Target,
}

impl<'a> EhFrameInPlace<'a> {
    /// A section that is loaded where it is linked, with the `.eh_frame_hdr` section whose first byte has
    /// the address `header_address`, as linked. If `header` is empty, each look-up goes through the records of
    /// the section. Nothing is read.
    pub fn new(
        section: &'a [u8],
        eh_frame: EhFrame,
        header: &'a [u8],
        header_address: u64,
        target: Target,
    ) -> EhFrameInPlace<'a> {
        EhFrameInPlace {
            section,
            module: Module::at(0).eh_frame(eh_frame),
            header,
            header_address,
            target,
        }
    }

    /// The same section, but of a module that is loaded at this address, as in [`Module::at`].
    #[must_use]
    pub fn loaded_at(mut self, load_address: u64) -> EhFrameInPlace<'a> {
        self.module.load_address = load_address;
        self
    }

    /// The row that covers an address, as loaded. `None` if the table leads to no FDE that covers it.
    /// The row's id and cookie are 0; its expressions are in the section.
    ///
    /// # Errors
    ///
    /// [`Error::Refused`] with the first fault of the FDE and its CIE; [`Error::NoRoom`] if the two have
    /// more than 32 expressions, or one of more than 16 bytes; [`Error::NoTable`]; or [`Error::TooLong`]
    /// for a section of 2^32 bytes or more.
    pub fn row(&self, address: u64) -> Result<Option<Row>, Error> {
        let mut slots = [ffi::Rule::default(); ffi::MAX_RULES];
        let mut row = Row::empty();
        let found = self.look_up(address, &mut slots)?;
        Ok(found.and_then(|(raw, _)| row.set(&raw, &slots).map(|()| row)))
    }

    /// Whether an address, as loaded, is one of a signal frame, as
    /// [`Process::is_signal_frame`](crate::Process::is_signal_frame) says it. No memory is allocated.
    ///
    /// # Errors
    ///
    /// The same as those of [`row`](EhFrameInPlace::row).
    pub fn is_signal_frame(&self, address: u64) -> Result<bool, Error> {
        let found = self.look_up(address, &mut [])?;
        Ok(found.map_or(false, |(_, is_signal_frame)| is_signal_frame))
    }

    /// Whether the return address is signed at an address, as loaded, as
    /// [`Process::is_signed`](crate::Process::is_signed) says it. No memory is allocated.
    ///
    /// # Errors
    ///
    /// The same as those of [`row`](EhFrameInPlace::row).
    pub fn is_signed(&self, address: u64) -> Result<bool, Error> {
        let mut is_signed = 0;
        let mut fault = ffi::Fault::default();
        // SAFETY: the section and its header are only read, and the other pointers are to locals.
        let status = unsafe {
            ffi::dwcheck_is_signed_in(
                &self.module.raw(self.section, self.target),
                &self.raw_header(),
                address,
                &mut is_signed,
                &mut fault,
            )
        };
        if status == ffi::NONE {
            return Ok(false);
        }
        Error::check(status, fault)?;
        Ok(is_signed != 0)
    }

    /// The frame that a cursor is at. Moves the cursor to the frame's caller, as
    /// [`Process::step`](crate::Process::step) does, by the row of the frame. If no FDE covers the frame,
    /// the walk ends: for each step, choose the module that has the cursor's address.
    ///
    /// # Errors
    ///
    /// [`Error::NoPlace`] if a register of the caller with a number of 96 or more would be known, and those
    /// of [`row`](EhFrameInPlace::row). Then nothing changes.
    pub fn step(&self, cursor: &mut Cursor, state: &State<'_>) -> Result<Option<Frame>, Error> {
        let mut slot = [Frame::default()];
        let mut fault = ffi::Fault::default();
        // SAFETY: the section and its header are only read, the cursor is borrowed exclusively, the state's
        // pointers are those of slices that are only read, and the other pointers are to locals.
        let status = unsafe {
            ffi::dwcheck_step_in(
                &self.module.raw(self.section, self.target),
                &self.raw_header(),
                &mut cursor.raw,
                &state.raw(),
                Frame::raw_slots(&mut slot),
                &mut fault,
            )
        };
        frame_of_step(status, slot, fault)
    }

    /// The row that covers an address, whose rules are written to `slots`, and whether it is one of a
    /// signal frame.
    fn look_up(
        &self,
        address: u64,
        slots: &mut [ffi::Rule],
    ) -> Result<Option<(ffi::Row, bool)>, Error> {
        let mut raw = ffi::Row::default();
        let mut is_signal_frame = 0;
        let mut fault = ffi::Fault::default();
        // SAFETY: the section and its header are only read, `slots` is borrowed exclusively, and the other
        // pointers are to locals.
        let status = unsafe {
            ffi::dwcheck_row_in(
                &self.module.raw(self.section, self.target),
                &self.raw_header(),
                address,
                &mut raw,
                slots.as_mut_ptr(),
                slots.len(),
                &mut is_signal_frame,
                &mut fault,
            )
        };
        if status == ffi::NONE {
            return Ok(None);
        }
        Error::check(status, fault)?;
        Ok(Some((raw, is_signal_frame != 0)))
    }

    /// The section and its header as C structures, whose pointers are valid as long as the bytes.
    pub(crate) fn raw(&self) -> (ffi::Module, ffi::Header) {
        (
            self.module.raw(self.section, self.target),
            self.raw_header(),
        )
    }

    /// The header as a C structure, whose pointer is valid as long as the header's bytes.
    fn raw_header(&self) -> ffi::Header {
        ffi::Header {
            bytes: self.header.as_ptr(),
            length: self.header.len(),
            address: self.header_address,
        }
    }
}
