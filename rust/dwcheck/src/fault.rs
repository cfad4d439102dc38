//! Faults, which say why an input is refused, and errors, which say why a call failed.

use crate::ffi;
use crate::module::ModuleId;
use std::error;
use std::ffi::CStr;
use std::fmt;

/// Defines `FaultKind`, and its conversions from a number, to a number and to a name.
macro_rules! fault_kinds {
    ($($(#[$doc:meta])+ $name:ident = $number:literal,)+) => {
        /// What is wrong. The last sentence of each kind says where the [`Fault`]'s offset points.
        ///
        /// The rule that each kind breaks is in the project's `docs/PROFILE.md`.
        #[derive(Clone, Copy, Debug, PartialEq, Eq, Hash)]
        #[non_exhaustive]
        pub enum FaultKind {
            $($(#[$doc])+ $name,)+
            /// The number of a kind that this crate doesn't know, because the library is newer.
            Other(u32),
        }

        impl FaultKind {
            /// The kind with this number. `Other` if this crate doesn't know the number.
            ///
            /// ```
            /// use dwcheck::FaultKind;
            ///
            /// assert_eq!(FaultKind::from_number(9), FaultKind::NoSuchCie);
            /// assert_eq!(FaultKind::from_number(1000), FaultKind::Other(1000));
            /// ```
            pub const fn from_number(number: u32) -> FaultKind {
                match number {
                    $($number => FaultKind::$name,)+
                    other => FaultKind::Other(other),
                }
            }

            /// The kind's number, which the text of a [`Fault`] shows. Each kind has its own
            /// number.
            pub const fn number(self) -> u32 {
                match self {
                    $(FaultKind::$name => $number,)+
                    FaultKind::Other(number) => number,
                }
            }

            /// The kind's name, such as `NoSuchCie`; `Unknown` if this crate doesn't know the kind.
            pub const fn name(self) -> &'static str {
                match self {
                    $(FaultKind::$name => stringify!($name),)+
                    FaultKind::Other(_) => "Unknown",
                }
            }
        }
    };
}

fault_kinds! {
    /// A field runs past the end of its body, program, expression or section. Reported at the
    /// field's first byte.
    Truncated = 1,
    /// A LEB128 number has more than ten bytes, or its value doesn't fit 64 bits. Reported at the
    /// number's first byte.
    LebRange = 2,
    /// An initial length is from 0xfffffff0 to 0xfffffffe, which DWARF reserves. Reported at the
    /// length's first byte.
    ReservedLength = 3,
    /// A CIE's version isn't 1, 3 or 4. Reported at the version byte.
    Version = 4,
    /// A CIE's augmentation isn't empty, or in `.eh_frame` isn't known. Reported at its string, or at
    /// a pointer without a base.
    Augmentation = 5,
    /// The address size in a CIE or list table isn't the target's. Reported at the address size.
    AddressSize = 6,
    /// The segment selector size in a CIE or list table isn't 0. Reported at the segment selector
    /// size.
    SegmentSize = 7,
    /// A CIE_pointer isn't the offset of a CIE. Reported at the CIE_pointer field.
    NoSuchCie = 9,
    /// A register number is above 65535. Reported at the instruction or operation that names the
    /// register; in a CIE's header, at the return_address_register field.
    RegisterNumber = 10,
    /// An FDE's initial_location plus address_range is above the highest address. Reported at the
    /// address_range field.
    RangePastTop = 11,
    /// An unknown instruction code. Reported at the instruction.
    UnknownInstruction = 12,
    /// An instruction that isn't allowed in a CIE's program. Reported at the instruction.
    NotInCie = 13,
    /// A set_loc to an address that isn't above the current location. Reported at the instruction.
    LocationBack = 14,
    /// An instruction moves the location above the end of the FDE's range. Reported at the
    /// instruction.
    LocationPastEnd = 15,
    /// A restore_state when no state is remembered. Reported at the instruction.
    RestoreWithoutRemember = 16,
    /// An FDE's program ends with a remembered state that was never restored. Reported at the
    /// program's end.
    Unrestored = 17,
    /// A remember_state when 16 states are already remembered. Reported at the instruction.
    RememberTooDeep = 18,
    /// An instruction changes the register or the offset of a CFA rule that isn't a register plus
    /// an offset. Reported at the instruction.
    CfaNotRegister = 19,
    /// A rule's offset doesn't fit in a signed 64-bit number. Reported at the instruction that sets
    /// the offset.
    OffsetRange = 20,
    /// An instruction gives a row a 129th register rule. Reported at the instruction.
    TooManyRules = 21,
    /// A row that covers an address has no CFA rule. Reported at the instruction that moves the
    /// location past that address, or at the program's end.
    NoCfa = 22,
    /// Two FDEs cover the same address. Reported at the first byte of the later FDE.
    Overlap = 23,
    /// An unknown operation code. Reported at the operation.
    UnknownOperation = 30,
    /// An operation that isn't allowed in an expression for a CFA or a register. Reported at the
    /// operation.
    NotInFrame = 31,
    /// The size of a deref_size isn't 1, 2, 4 or 8, or is above the address size. Reported at the
    /// operation.
    BadSize = 32,
    /// A branch goes backward. Reported at the branch.
    Backward = 33,
    /// A branch to an offset where no operation begins, and which isn't the expression's end
    /// either. Reported at the branch.
    TargetNotStart = 34,
    /// The stack has fewer entries than the operation needs. Reported at the operation.
    Underflow = 35,
    /// The stack has more than 128 entries after the operation. Reported at the operation.
    TooDeep = 36,
    /// Paths that meet have different stack heights, or differ in what they describe so far (a
    /// stack entry, register, value or piece). Reported at the operation where they meet, or at the
    /// expression's end.
    Mismatch = 37,
    /// No path leads to the operation. Reported at the operation.
    Unreachable = 38,
    /// An operation can't follow those before it: an operation other than a piece follows a
    /// register location or a value; or a register location, an implicit value or a piece comes
    /// when the stack has too many entries. Reported at that operation.
    NotAlone = 39,
    /// The expression ends without a result. Reported at the expression's end.
    EndsEmpty = 40,
    /// The 33rd piece or bit_piece operation of an expression. Reported at that operation.
    TooManyPieces = 41,
    /// The size or the offset of a piece is above 2^32 - 1. Reported at the operation.
    PieceSize = 42,
    /// A list table's version isn't 5. Reported at the first byte of the version field.
    ListVersion = 50,
    /// An unknown entry code in a location list. Reported at the entry.
    UnknownEntry = 51,
    /// A list entry's range begins above its end. Reported at the entry.
    BackRange = 52,
    /// A location list has a second default_location entry. Reported at the second entry.
    SecondDefault = 53,
    /// A list table ends before its last list has an end_of_list entry. Reported at the table's
    /// end.
    NoEnd = 54,
    /// An offset in a list table's array isn't that of a list in the table. Reported at the first
    /// byte of the offset.
    BadOffsetEntry = 55,
    /// Memory ran out. (This crate returns [`Error::NoMemory`] instead.) Reported at 0.
    Memory = 60,
    /// A section has 2^32 bytes or more. Only [`check`](crate::check) gives this fault; other calls
    /// return [`Error::TooLong`]. Reported at 0.
    SectionTooLong = 61,
    /// An ABI has more than 127 callee-saved registers. Reported at index 127, that of the first
    /// one too many.
    AbiTooLarge = 62,
    /// An ABI names a register twice. Reported at the index of the second number. The stack
    /// pointer's index is the one after the last callee-saved register.
    AbiTwice = 63,
    /// A certificate, which lists the stack state before each operation of an expression, doesn't
    /// have as many states as there are operations. (No call of this crate takes a certificate.)
    /// Reported at 0.
    CertLength = 70,
    /// A certificate's state for an operation isn't the one that the check computes. (No call of
    /// this crate takes a certificate.) Reported at the operation.
    CertState = 71,
}

impl FaultKind {
    /// The rule that this kind of fault breaks, in one sentence. In parentheses is the section of
    /// DWARF 5 with the rule, or `profile` if the standard leaves the point open and `dwcheck` decides
    /// it (the project's `docs/PROFILE.md`). Empty if the library doesn't know the kind.
    ///
    /// ```
    /// use dwcheck::FaultKind;
    ///
    /// assert!(FaultKind::CfaNotRegister.rule().contains("6.4.2.2"));
    /// ```
    pub fn rule(self) -> &'static str {
        // SAFETY: the call has no preconditions.
        let text = unsafe { ffi::dwcheck_fault_text(self.number()) };
        if text.is_null() {
            return "";
        }
        // SAFETY: the library's texts are constants that end with a NUL.
        unsafe { CStr::from_ptr(text) }.to_str().unwrap_or("")
    }
}

/// The kind's name. If this crate doesn't know the kind, the name comes from the library. If the
/// library doesn't know the kind either, it is `Unknown`.
impl fmt::Display for FaultKind {
    fn fmt(&self, f: &mut fmt::Formatter<'_>) -> fmt::Result {
        match self {
            FaultKind::Other(number) => {
                let mut text = [0; 64];
                f.pad(library_name(*number, &mut text).unwrap_or("Unknown"))
            }
            known => f.pad(known.name()),
        }
    }
}

/// The name that the library has for a fault number, written to `text` and cut to its length.
/// `None` if the library knows no fault with this number.
pub(crate) fn library_name(number: u32, text: &mut [u8]) -> Option<&str> {
    let mut size = 0;
    // SAFETY: the pointer and the length are those of one slice, and `size` is a local.
    let status =
        unsafe { ffi::dwcheck_fault_name(number, text.as_mut_ptr(), text.len(), &mut size) };
    if status != ffi::DONE {
        return None;
    }
    let written = size.min(text.len());
    std::str::from_utf8(&text[..written]).ok()
}

/// Which input a fault's offset refers to.
#[derive(Clone, Copy, Debug, PartialEq, Eq, Hash)]
#[non_exhaustive]
pub enum Section {
    /// The frame section. The offset counts bytes from its start.
    Frame,
    /// The location list section. The offset counts bytes from its start.
    Lists,
    /// The expression that was passed to [`evaluate`](crate::evaluate). The offset counts bytes
    /// from its start.
    Expression,
    /// The ABI. The offset is an index into its callee-saved registers, from 0. The stack pointer's
    /// index is the one after the last callee-saved register.
    Abi,
    /// The `.eh_frame` section of a module that has `.debug_frame` too
    /// ([`Process::add_both`](crate::Process::add_both)). The offset counts bytes from its start.
    EhFrame,
    /// A number that this crate doesn't know, because the library is newer.
    Other(u32),
}

impl Section {
    pub(crate) fn from_number(number: u32) -> Section {
        match number {
            ffi::IN_FRAME => Section::Frame,
            ffi::IN_LISTS => Section::Lists,
            ffi::IN_EXPRESSION => Section::Expression,
            ffi::IN_ABI => Section::Abi,
            ffi::IN_EH_FRAME => Section::EhFrame,
            other => Section::Other(other),
        }
    }
}

impl fmt::Display for Section {
    fn fmt(&self, f: &mut fmt::Formatter<'_>) -> fmt::Result {
        f.pad(match self {
            Section::Frame => "frame",
            Section::Lists => "lists",
            Section::Expression => "expression",
            Section::Abi => "abi",
            Section::EhFrame => "eh_frame",
            Section::Other(_) => "unknown section",
        })
    }
}

/// The first thing that is wrong with an input, and where it is.
///
/// As text, a fault shows the section, the kind's number and name, and the offset:
///
/// ```
/// let cut = [1, 0, 0, 0];
/// let frame = dwcheck::DebugFrame(&cut);
/// let lists = dwcheck::DebugLoclists(&[]);
/// let error = dwcheck::check(frame, lists, dwcheck::Target::LITTLE_64).unwrap_err();
/// assert_eq!(error.to_string(), "frame: 1 Truncated at 0x00000004");
/// ```
#[derive(Clone, Copy, Debug, PartialEq, Eq, Hash)]
pub struct Fault {
    /// What is wrong.
    pub kind: FaultKind,
    /// Where it is: the number of bytes from the start of the input that `section` names. For
    /// [`Section::Abi`] it is an index instead.
    pub offset: u32,
    /// Which input the offset refers to.
    pub section: Section,
}

impl Fault {
    /// The number of the fault's kind.
    pub fn number(&self) -> u32 {
        self.kind.number()
    }

    /// The name of the fault's kind, such as `NoSuchCie`.
    pub fn name(&self) -> &'static str {
        self.kind.name()
    }

    pub(crate) fn of(raw: ffi::Fault) -> Fault {
        Fault {
            kind: FaultKind::from_number(raw.number),
            offset: raw.offset,
            section: Section::from_number(raw.within),
        }
    }
}

impl fmt::Display for Fault {
    fn fmt(&self, f: &mut fmt::Formatter<'_>) -> fmt::Result {
        let Fault {
            kind,
            offset,
            section,
        } = self;
        write!(
            f,
            "{}: {} {} at {:#010x}",
            section,
            kind.number(),
            kind,
            offset
        )
    }
}

impl error::Error for Fault {}

/// Why a call failed. A failed call changes nothing.
#[derive(Clone, Copy, Debug, PartialEq, Eq, Hash)]
#[non_exhaustive]
pub enum Error {
    /// The input is refused because of this fault.
    Refused(Fault),
    /// Memory ran out.
    NoMemory,
    /// The table of the section can take more bytes than the module's
    /// [`room`](crate::Module::room). Or a look-up [in place](crate::EhFrameInPlace) has no room for
    /// the expressions of an FDE and its CIE.
    NoRoom,
    /// The section or the expression has 2^32 bytes or more.
    TooLong,
    /// The module's range shares an address with the range of this other module of the process.
    Overlaps(ModuleId),
    /// The module has no range that it could answer for. Either its range is given and is empty, or
    /// passes the highest address, 2^w - 1 (w is the address size in bits). Or no range is given,
    /// and its section covers no address, or covers addresses on both sides of the highest one, as
    /// loaded.
    Range,
    /// A register with a number of 96 or more is known, which has no place in a
    /// [`Cursor`](crate::Cursor).
    NoPlace,
    /// The `.eh_frame_hdr` section has no search table as linkers write it, or is shorter than the table.
    NoTable,
    /// The number of a status that this crate doesn't know, because the library is newer.
    Other(u32),
}

impl Error {
    /// The fault, if the input is refused. `None` for any other error.
    pub fn fault(&self) -> Option<Fault> {
        match self {
            Error::Refused(fault) => Some(*fault),
            _ => None,
        }
    }

    /// Makes a call of the C interface that writes its fault to a place, and turns its status into a result.
    pub(crate) fn of_call(call: impl FnOnce(&mut ffi::Fault) -> u32) -> Result<(), Error> {
        let mut fault = ffi::Fault::default();
        let status = call(&mut fault);
        Error::check(status, fault)
    }

    /// Turns the status that a call returned into a result. `fault` is used only if the status is
    /// `REFUSED`. Only adding a module has the status `OVERLAPS`, which isn't known here.
    pub(crate) fn check(status: u32, fault: ffi::Fault) -> Result<(), Error> {
        match status {
            ffi::DONE => Ok(()),
            ffi::REFUSED => Err(Error::Refused(Fault::of(fault))),
            ffi::NO_MEMORY => Err(Error::NoMemory),
            ffi::NO_ROOM => Err(Error::NoRoom),
            ffi::TOO_LONG => Err(Error::TooLong),
            ffi::BAD_RANGE => Err(Error::Range),
            ffi::NO_PLACE => Err(Error::NoPlace),
            ffi::NO_TABLE => Err(Error::NoTable),
            other => Err(Error::Other(other)),
        }
    }
}

impl fmt::Display for Error {
    fn fmt(&self, f: &mut fmt::Formatter<'_>) -> fmt::Result {
        match self {
            Error::Refused(fault) => fault.fmt(f),
            Error::NoMemory => f.pad("out of memory"),
            Error::NoRoom => f.pad("the rows of the section may take more than the room given"),
            Error::TooLong => f.pad("2^32 bytes or more"),
            Error::Overlaps(id) => write!(f, "the range shares addresses with module {}", id),
            Error::Range => f.pad("no range of addresses to answer for"),
            Error::NoPlace => f.pad("a register has no place in a cursor"),
            Error::NoTable => f.pad("the header has no search table of the usual form"),
            Error::Other(status) => write!(f, "unknown status {}", status),
        }
    }
}

impl error::Error for Error {}

impl From<Fault> for Error {
    fn from(fault: Fault) -> Error {
        Error::Refused(fault)
    }
}

#[cfg(test)]
mod tests {
    use super::{library_name, FaultKind};

    #[test]
    fn names_are_those_of_the_library() {
        for number in (0..1000).chain([u32::MAX]) {
            let mut text = [0; 32];
            match (
                FaultKind::from_number(number),
                library_name(number, &mut text),
            ) {
                (FaultKind::Other(_), name) => assert_eq!(name, None),
                (kind, name) => assert_eq!(name, Some(kind.name())),
            }
        }
    }

    #[test]
    fn a_name_is_cut_where_the_text_is_short() {
        assert_eq!(library_name(9, &mut [0; 4]), Some("NoSu"));
        assert_eq!(library_name(9, &mut []), Some(""));
    }
}
