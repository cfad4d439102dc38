//! The modules of a process: what is said of one to add it, and what a process says of it.

use crate::ffi;
use dwcheck_types::target::Target;
use std::fmt;
use std::num::NonZeroU64;
use std::ops::RangeInclusive;

/// The number of a module in its process.
///
/// Numbers count up from 1, so a process doesn't give a number twice, even if the module is removed.
/// They start over when a process is [cleared](crate::Process::clear). A process that
/// [`share`](crate::Process::share) makes counts on from the same number, so of two processes that
/// share modules, only one should get new ones.
#[derive(Clone, Copy, Debug, PartialEq, Eq, PartialOrd, Ord, Hash)]
pub struct ModuleId(pub(crate) u64);

impl ModuleId {
    /// The number itself.
    pub const fn number(self) -> u64 {
        self.0
    }
}

impl fmt::Display for ModuleId {
    fn fmt(&self, f: &mut fmt::Formatter<'_>) -> fmt::Result {
        self.0.fmt(f)
    }
}

/// An `.eh_frame` section, beside its bytes. All addresses are as linked.
///
/// ```
/// use dwcheck::{EhFrame, Module};
///
/// let module = Module::at(0x7f00_0000_0000).eh_frame(EhFrame::at(0x2040));
/// assert_eq!(module.eh_frame, Some(EhFrame::at(0x2040)));
/// ```
#[derive(Clone, Debug, PartialEq, Eq, Hash)]
#[non_exhaustive]
pub struct EhFrame {
    /// The address of the section's first byte.
    pub address: u64,
    /// What pointers relative to text count from. If this is `None`, a section with such a pointer is
    /// refused. Compilers don't write them.
    pub text_start: Option<NonZeroU64>,
    /// The same for pointers relative to data.
    pub data_start: Option<NonZeroU64>,
    /// Whether the section is for aarch64, which has instructions of its own.
    pub is_aarch64: bool,
    /// Whether bad records are left out instead of refusing the section; see
    /// [`leave_out_bad_records`](EhFrame::leave_out_bad_records).
    pub leaves_out_bad_records: bool,
}

impl EhFrame {
    /// A section whose first byte has this address, for another processor than aarch64.
    pub const fn at(address: u64) -> EhFrame {
        EhFrame {
            address,
            text_start: None,
            data_start: None,
            is_aarch64: false,
            leaves_out_bad_records: false,
        }
    }

    /// The same section, but for aarch64.
    #[must_use]
    pub fn aarch64(mut self) -> EhFrame {
        self.is_aarch64 = true;
        self
    }

    /// The same section, but bad records are left out instead of refusing it. A record is bad if it
    /// can't be read, if it is an FDE whose CIE is missing or bad, or if its program has a fault. All
    /// others keep their rows. [`FrameSection::left_out`](crate::FrameSection::left_out) lists the bad
    /// ones. A walk ends at a function without rows. Pass the module's range: without one it is that of
    /// what is kept.
    ///
    /// Two faults are still the section's: a record's length that is reserved or goes past the section's
    /// end, and two FDEs that are kept and cover one address. A wrong length that stays inside the
    /// section is believed. If the section has no fault, this changes nothing.
    #[must_use]
    pub fn leave_out_bad_records(mut self) -> EhFrame {
        self.leaves_out_bad_records = true;
        self
    }

    /// C's number for what the section is.
    fn kind(&self) -> u32 {
        let kind = if self.is_aarch64 {
            ffi::EH_FRAME_AARCH64
        } else {
            ffi::EH_FRAME
        };
        if self.leaves_out_bad_records {
            kind | ffi::LEAVE_OUT
        } else {
            kind
        }
    }
}

/// What [`Process::add`](crate::Process::add) has to know about a module besides the bytes of its
/// section: above all, where it is loaded.
///
/// ```
/// use dwcheck::Module;
///
/// let library = Module::at(0x7f00_0000_0000);
/// let with_range = Module::at(0x40_0000).range(0x40_1000..=0x40_1fff).cookie(7);
/// assert_eq!((library.range, with_range.cookie), (None, 7));
/// ```
#[derive(Clone, Debug, PartialEq, Eq, Hash)]
#[non_exhaustive]
pub struct Module {
    /// What is added to an address as linked, modulo 2^w (w is the address size in bits), to get the
    /// address as loaded: for a position-independent module, the `dlpi_addr` that `dl_iterate_phdr`
    /// gives; for any other module, 0.
    pub load_address: u64,
    /// The addresses, as loaded, that the module answers for. If this is `None`, these are the
    /// addresses from the first to the last one that the module's section covers.
    pub range: Option<RangeInclusive<u64>>,
    /// A number of the caller's own, such as an index. It is given back with the module and its
    /// rows.
    pub cookie: u64,
    /// A bound on the number of bytes that the module's table takes, or each of its two tables; see
    /// [`Module::room`].
    pub room: usize,
    /// What has to be known of an `.eh_frame` section. If this is `None`, the section is a
    /// `.debug_frame` section.
    pub eh_frame: Option<EhFrame>,
}

impl Module {
    /// For [`room`](Module::room): no bound on the bytes that the table of a section may take.
    pub const NO_BOUND: usize = usize::MAX;

    /// A module with a `.debug_frame` section that is loaded at this address, with no range, the
    /// cookie 0, and no bound on the bytes that its table may take.
    pub const fn at(load_address: u64) -> Module {
        Module {
            load_address,
            range: None,
            cookie: 0,
            room: Module::NO_BOUND,
            eh_frame: None,
        }
    }

    /// The same module, but its section is this `.eh_frame` section.
    #[must_use]
    pub fn eh_frame(mut self, section: EhFrame) -> Module {
        self.eh_frame = Some(section);
        self
    }

    /// The same module, but it answers for these addresses, as loaded, and for no others. For
    /// example, they are those of the segments that may be executed.
    #[must_use]
    pub fn range(mut self, range: RangeInclusive<u64>) -> Module {
        self.range = Some(range);
        self
    }

    /// The same module, but with this cookie.
    #[must_use]
    pub fn cookie(mut self, cookie: u64) -> Module {
        self.cookie = cookie;
        self
    }

    /// The same module, but its table takes at most `room` bytes.
    ///
    /// They are counted as 16 for each row and for each gap after a row, 64 for each set of rules
    /// (rows may share one), 16 for each register's rule in a set, and 24 for each expression and
    /// its length. The table of a compiler's section takes some 1.5 times the section's length. That
    /// of a hostile section may take 700 times its length or more. `room` doesn't bound the memory
    /// that [`Process::add`](crate::Process::add) uses while it checks and compiles.
    #[must_use]
    pub fn room(mut self, room: usize) -> Module {
        self.room = room;
        self
    }

    /// This module and its section as a C structure. The pointer in it is valid as long as
    /// `section`.
    pub(crate) fn raw(&self, section: &[u8], target: Target) -> ffi::Module {
        let (first, last) = match &self.range {
            Some(range) => (*range.start(), *range.end()),
            None => (0, 0),
        };
        let eh_frame = self.eh_frame.as_ref();
        let number = |address: Option<NonZeroU64>| address.map_or(0, NonZeroU64::get);
        ffi::Module {
            frame: section.as_ptr(),
            frame_length: section.len(),
            load_address: self.load_address,
            first,
            last,
            cookie: self.cookie,
            room: self.room,
            order: ffi::order_number(target),
            address_size: target.address_size.bytes().into(),
            has_range: u32::from(self.range.is_some()),
            kind: eh_frame.map_or(ffi::DEBUG_FRAME, EhFrame::kind),
            section_address: eh_frame.map_or(0, |section| section.address),
            text_start: number(eh_frame.and_then(|section| section.text_start)),
            data_start: number(eh_frame.and_then(|section| section.data_start)),
        }
    }
}

/// A module of a process. [`Process::module_at`](crate::Process::module_at) gives it.
#[derive(Clone, Debug, PartialEq, Eq, Hash)]
#[non_exhaustive]
pub struct LoadedModule {
    /// The module's number.
    pub id: ModuleId,
    /// The number that was passed as the module's [cookie](Module::cookie).
    pub cookie: u64,
    /// What is added to an address as linked to get the address as loaded.
    pub load_address: u64,
    /// The addresses, as loaded, that the module answers for.
    pub range: RangeInclusive<u64>,
}

impl LoadedModule {
    pub(crate) fn of(raw: &ffi::Loaded) -> LoadedModule {
        LoadedModule {
            id: ModuleId(raw.id),
            cookie: raw.cookie,
            load_address: raw.load_address,
            range: raw.first..=raw.last,
        }
    }
}
