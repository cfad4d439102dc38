//! Compares the rows of an accepted section with gimli's.

use crate::sections::Section;
use dwcheck::{AddressSize, CfaRule, Order, Process, Record, RecordKind, Rows, Rule};
use gimli::{
    BaseAddresses, EndianSlice, Register, RegisterRule, RunTimeEndian, UnwindContext, UnwindSection, UnwindTableRow,
};
use std::fmt;
use std::ops::Range;

type Bytes<'a> = EndianSlice<'a, RunTimeEndian>;
type Fde<'a> = gimli::FrameDescriptionEntry<Bytes<'a>>;

/// What of `.eh_frame` gimli doesn't read, although the library does.
#[derive(Clone, Copy, Debug, PartialEq, Eq, PartialOrd, Ord)]
pub enum Limit {
    /// In a CIE of version 4, the sizes of addresses and segments.
    Version4,
    /// The letters B and G, and the old augmentation `eh`.
    Letters,
    /// An encoding of the letters L or P that isn't one, or a pointer with it that isn't there: the library reads
    /// neither pointer.
    UnreadPointer,
    /// Addresses that are aligned.
    Aligned,
    /// Registers whose numbers are written in more than three bytes.
    LongRegister,
    /// aarch64's own instructions.
    Aarch64,
}

/// How an FDE compares.
pub enum Compared {
    /// How many rows it has, which are all equal.
    Equal(usize),
    /// gimli can't read it.
    Unread(Limit),
    /// What differs.
    Differs(Difference),
}

/// What gimli reads otherwise of an FDE.
#[derive(Debug)]
pub enum Difference {
    /// The record is no FDE.
    NoFde,
    /// gimli refuses it, and isn't known to.
    Refused(gimli::Error),
    /// gimli's addresses: the first, and their number.
    Addresses(u64, u64),
    /// Only one of the two is of a signal frame.
    SignalFrame,
    /// The row at this address is another; gimli's, as it shows it.
    Row(u64, String),
    /// gimli has no row at this address.
    NoRow(u64),
}

impl fmt::Display for Difference {
    fn fmt(&self, f: &mut fmt::Formatter<'_>) -> fmt::Result {
        match self {
            Difference::NoFde => f.write_str("it is no FDE"),
            Difference::Refused(why) => write!(f, "gimli can't read it: {}", why),
            Difference::Addresses(first, count) => {
                write!(f, "gimli's addresses are {:#x} and {:#x} more", first, count)
            }
            Difference::SignalFrame => f.write_str("one is a signal frame"),
            Difference::Row(address, row) => write!(f, "the row of {:#x} differs: gimli {}", address, row),
            Difference::NoRow(address) => write!(f, "gimli has no row of {:#x}", address),
        }
    }
}

impl std::error::Error for Difference {
    fn source(&self) -> Option<&(dyn std::error::Error + 'static)> {
        match self {
            Difference::Refused(why) => Some(why),
            _ => None,
        }
    }
}

impl From<gimli::Error> for Difference {
    fn from(why: gimli::Error) -> Self {
        Difference::Refused(why)
    }
}

/// A section as gimli reads it, beside the process that has it.
pub struct Beside<'a> {
    section: &'a Section,
    frames: gimli::EhFrame<Bytes<'a>>,
    bases: BaseAddresses,
    process: &'a Process,
    context: UnwindContext<Bytes<'a>>,
}

impl<'a> Beside<'a> {
    pub fn new(section: &'a Section, process: &'a Process) -> Self {
        let little = section.target.order == Order::Little;
        let order = if little { RunTimeEndian::Little } else { RunTimeEndian::Big };
        let mut frames = gimli::EhFrame::new(&section.bytes, order);
        frames.set_address_size(if section.target.address_size == AddressSize::Four { 4 } else { 8 });
        let mut bases = BaseAddresses::default().set_eh_frame(section.eh_frame.address);
        if let Some(address) = section.eh_frame.text_start {
            bases = bases.set_text(address.get());
        }
        if let Some(address) = section.eh_frame.data_start {
            bases = bases.set_got(address.get());
        }
        Beside { section, frames, bases, process, context: UnwindContext::new() }
    }

    /// Compares the rows of an FDE, whose CIE is the other record.
    pub fn compare(&mut self, fde: &Record, cie: &Record) -> Compared {
        let addresses = match &fde.kind {
            RecordKind::Fde { addresses, .. } => addresses.clone(),
            _ => return Compared::Differs(Difference::NoFde),
        };
        if matches!(cie.kind, RecordKind::Cie { version: 4, .. }) {
            return Compared::Unread(Limit::Version4);
        }
        let offset = gimli::EhFrameOffset(fde.offset as usize);
        let read = self.frames.fde_from_offset(&self.bases, offset, gimli::EhFrame::cie_from_offset);
        let compared = read.map_err(Difference::Refused).and_then(|read| self.compare_rows(&read, fde, addresses));
        match compared {
            Ok(rows) => Compared::Equal(rows),
            Err(Difference::Refused(why)) => match self.limit(why, cie) {
                Some(limit) => Compared::Unread(limit),
                None => Compared::Differs(Difference::Refused(why)),
            },
            Err(difference) => Compared::Differs(difference),
        }
    }

    /// The number of rows, or what differs.
    fn compare_rows(&mut self, read: &Fde<'a>, fde: &Record, addresses: Range<u64>) -> Result<usize, Difference> {
        let top = self.section.top();
        let theirs = read.initial_address() & top;
        if (theirs, theirs.checked_add(read.len())) != (addresses.start, Some(addresses.end)) {
            return Err(Difference::Addresses(theirs, read.len()));
        }
        if read.is_signal_trampoline() != fde.is_signal_frame {
            return Err(Difference::SignalFrame);
        }
        let register = read.cie().return_address_register().0;
        let mut table = read.rows(&self.frames, &self.bases, &mut self.context)?;
        let mut rows = self.process.rows();
        let (mut next, mut count) = (addresses.start, 0);
        while let Some(theirs) = table.next_row()? {
            let extent = theirs.start_address() & top..theirs.end_address() & top;
            if extent.is_empty() {
                continue;
            }
            if extent.start != next || !is_same(self.process, &mut rows, theirs, &extent, register) {
                return Err(Difference::Row(next, format!("{:?}", theirs)));
            }
            next = extent.end;
            count += 1;
        }
        if next == addresses.end {
            Ok(count)
        } else {
            Err(Difference::NoRow(next))
        }
    }

    /// Why gimli can't read an FDE with this CIE, if the error comes from what is known of gimli.
    fn limit(&self, error: gimli::Error, cie: &Record) -> Option<Limit> {
        use gimli::Error::*;
        let letters = letters(&self.section.bytes[cie.offset as usize..cie.next as usize]);
        let has = |some: &[u8]| letters.iter().any(|letter| some.contains(letter));
        match error {
            // gimli takes the address after the string for the fields that follow it.
            _ if letters == b"eh" => Some(Limit::Letters),
            UnknownAugmentation if has(b"BG") => Some(Limit::Letters),
            UnsupportedPointerEncoding if has(b"R") => Some(Limit::Aligned),
            BadUnsignedLeb128 | BadSignedLeb128 | UnexpectedEof(_) | UnknownPointerEncoding if has(b"LP") => {
                Some(Limit::UnreadPointer)
            }
            CannotParseOmitPointerEncoding
            | UnsupportedPointerEncoding
            | FuncRelativePointerInBadContext
            | TextRelativePointerButTextBaseIsUndefined
            | DataRelativePointerButDataBaseIsUndefined
                if has(b"LP") =>
            {
                Some(Limit::UnreadPointer)
            }
            BadUnsignedLeb128 => Some(Limit::LongRegister),
            UnknownCallFrameInstruction(_) if self.section.eh_frame.is_aarch64 => Some(Limit::Aarch64),
            _ => None,
        }
    }
}

/// The letters of the augmentation of a CIE, which follow the length, the id and the version.
fn letters(cie: &[u8]) -> &[u8] {
    let begin = if cie.starts_with(&[0xff; 4]) { 17 } else { 9 };
    let rest = cie.get(begin..).unwrap_or_default();
    rest.split(|byte| *byte == 0).next().unwrap_or_default()
}

/// Whether the library's row of an address is gimli's. gimli stores no rule of a register that is undefined, so such
/// rules aren't counted.
fn is_same(
    process: &Process,
    rows: &mut Rows<'_>,
    theirs: &UnwindTableRow<Bytes<'_>>,
    extent: &Range<u64>,
    register: u16,
) -> bool {
    let ours = match rows.row(extent.start) {
        Some(row) if row.addresses == *extent && row.return_register == register => row,
        _ => return false,
    };
    let has_bytes = |register, bytes: &[u8]| process.rule_bytes(extent.start, register).as_deref() == Some(bytes);
    let is_same_cfa = match (&ours.cfa, theirs.cfa()) {
        (
            CfaRule::RegisterAndOffset { register, offset },
            gimli::CfaRule::RegisterAndOffset { register: other, offset: by },
        ) => *register == other.0 && offset == by,
        (CfaRule::Expression(_), gimli::CfaRule::Expression(other)) => has_bytes(None, other.0.slice()),
        _ => false,
    };
    let is_same_rule = |(register, rule): &(u16, Rule)| match (*rule, theirs.register(Register(*register))) {
        (Rule::Undefined, RegisterRule::Undefined) | (Rule::SameValue, RegisterRule::SameValue) => true,
        (Rule::Offset(offset), RegisterRule::Offset(other)) => offset == other,
        (Rule::ValOffset(offset), RegisterRule::ValOffset(other)) => offset == other,
        (Rule::Register(register), RegisterRule::Register(other)) => register == other.0,
        (Rule::Expression(_), RegisterRule::Expression(other)) => has_bytes(Some(*register), other.0.slice()),
        (Rule::ValExpression(_), RegisterRule::ValExpression(other)) => has_bytes(Some(*register), other.0.slice()),
        _ => false,
    };
    let defined = ours.rules.iter().filter(|(_, rule)| *rule != Rule::Undefined).count();
    is_same_cfa && ours.rules.iter().all(is_same_rule) && defined == theirs.registers().count()
}
