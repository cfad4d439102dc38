//! Checksums of what gimli reads from a section or an expression. crates/dw_times makes checksums
//! of what dwcheck reads in the same way, so they are equal if both read the same.

use crate::random::Random;
use crate::target::Target;
use gimli::{
    BaseAddresses, CfaRule, CieOrFde, CommonInformationEntry, DebugFrame, DebugLoc, DebugLocLists, EndianSlice, Error,
    Evaluation, EvaluationResult, EvaluationStorage, Expression, FrameDescriptionEntry, Location, LocationLists,
    LocationListsOffset, Operation, Piece, RawLocListEntry, Reader, Register, RegisterRule, RunTimeEndian, UnwindContext,
    UnwindContextStorage, UnwindSection, UnwindTableRow, Value,
};

type Bytes<'a> = EndianSlice<'a, RunTimeEndian>;
type Frame<'a> = DebugFrame<Bytes<'a>>;

/// A checksum of numbers, made in the same way as by `Mixed` in crates/dw_times.
#[derive(Default)]
struct Mixed {
    number: u64,
}

impl Mixed {
    fn add(&mut self, number: u64) {
        let product = (self.number ^ number).wrapping_mul(0x9e37_79b9_7f4a_7c15);
        self.number = product ^ (product >> 32);
    }

    fn add_three(&mut self, first: u64, second: u64, third: u64) {
        self.add(first);
        self.add(second);
        self.add(third);
    }

    fn add_bytes(&mut self, bytes: &[u8]) {
        self.add(bytes.len() as u64);
        for byte in bytes {
            self.add(u64::from(*byte));
        }
    }

    fn answer(self) -> u64 {
        self.number | 1 << 63
    }
}

/// Storage for gimli that is large enough for every expression and row that dwcheck accepts.
struct Places;

impl<R: Reader> EvaluationStorage<R> for Places {
    type Stack = [Value; 128];
    type ExpressionStack = [(R, R); 4];
    type Result = [Piece<R>; 32];
}

impl<R: Reader> UnwindContextStorage<R> for Places {
    type Rules = [(Register, RegisterRule<R>); 192];
    type Stack = Vec<UnwindTableRow<R, Self>>;
}

type Parts = (u64, u64, u64);

fn pushing(operation: Operation<Bytes<'_>>) -> Option<Parts> {
    Some(match operation {
        Operation::Address { address } => (1, address, 0),
        Operation::UnsignedConstant { value } => (2, value, 0),
        Operation::SignedConstant { value } => (3, value as u64, 0),
        Operation::Pick { index } => (4, u64::from(index), 0),
        Operation::RegisterOffset { register, offset, .. } => (5, u64::from(register.0), offset as u64),
        Operation::FrameOffset { offset } => (6, offset as u64, 0),
        Operation::PushObjectAddress => (7, 0, 0),
        Operation::CallFrameCFA => (8, 0, 0),
        _ => return None,
    })
}

fn computing(operation: Operation<Bytes<'_>>) -> Option<Parts> {
    let number = match operation {
        Operation::Abs => 20,
        Operation::And => 21,
        Operation::Div => 22,
        Operation::Minus => 23,
        Operation::Mod => 24,
        Operation::Mul => 25,
        Operation::Neg => 26,
        Operation::Not => 27,
        Operation::Or => 28,
        Operation::Plus => 29,
        Operation::PlusConstant { value } => return Some((30, value, 0)),
        Operation::Shl => 31,
        Operation::Shr => 32,
        Operation::Shra => 33,
        Operation::Xor => 34,
        Operation::Eq => 35,
        Operation::Ge => 36,
        Operation::Gt => 37,
        Operation::Le => 38,
        Operation::Lt => 39,
        Operation::Ne => 40,
        _ => return None,
    };
    Some((number, 0, 0))
}

fn other(operation: Operation<Bytes<'_>>) -> Parts {
    match operation {
        Operation::Deref { size, .. } => (50, u64::from(size), 0),
        Operation::Drop => (51, 0, 0),
        Operation::Swap => (52, 0, 0),
        Operation::Rot => (53, 0, 0),
        Operation::Nop => (54, 0, 0),
        Operation::Bra { target } => (55, i64::from(target) as u64, 0),
        Operation::Skip { target } => (56, i64::from(target) as u64, 0),
        Operation::Register { register } => (57, u64::from(register.0), 0),
        Operation::Piece { size_in_bits, bit_offset: None } => (58, size_in_bits, 0),
        Operation::Piece { size_in_bits, bit_offset: Some(offset) } => (59, size_in_bits, offset),
        Operation::ImplicitValue { data } => (60, data.len() as u64, 0),
        Operation::StackValue => (61, 0, 0),
        _ => (u64::MAX, 0, 0),
    }
}

/// Adds to the checksum the number of an expression's operations, and each operation with its
/// offset.
fn add_operations(mixed: &mut Mixed, expression: Expression<Bytes<'_>>, target: Target) -> Result<(), Error> {
    let mut found = Vec::new();
    let mut operations = expression.operations(target.encoding());
    let mut at = 0;
    while let Some(operation) = operations.next()? {
        found.push((at, pushing(operation).or_else(|| computing(operation)).unwrap_or_else(|| other(operation))));
        at = operations.offset_from(&expression);
    }
    mixed.add(found.len() as u64);
    for (at, (code, first, second)) in found {
        mixed.add(at as u64);
        mixed.add_three(code, first, second);
    }
    Ok(())
}

fn add_location(mixed: &mut Mixed, location: &Location<Bytes<'_>>, target: Target) -> Result<(), Error> {
    match *location {
        Location::Empty => mixed.add(1),
        Location::Address { address } => mixed.add_three(2, address, 0),
        Location::Register { register } => mixed.add_three(3, u64::from(register.0), 0),
        Location::Value { value } => mixed.add_three(4, value.to_u64(target.greatest())?, 0),
        Location::Bytes { value } => mixed.add_bytes(value.slice()),
        Location::ImplicitPointer { .. } => mixed.add(u64::MAX),
    }
    Ok(())
}

/// What an expression is used for: a CFA, a register's rule, or a location.
#[derive(Clone, Copy, PartialEq)]
pub enum Kind {
    Cfa,
    Register,
    Location,
}

fn add_pieces(mixed: &mut Mixed, pieces: &[Piece<Bytes<'_>>], kind: Kind, target: Target) -> Result<(), Error> {
    if let [Piece { size_in_bits: None, location, .. }] = pieces {
        if let (Location::Address { address }, true) = (location, kind != Kind::Location) {
            mixed.add_three(1, *address, 0);
            return Ok(());
        }
        mixed.add(2);
        return add_location(mixed, location, target);
    }
    mixed.add(3);
    for piece in pieces {
        add_location(mixed, &piece.location, target)?;
        match piece.bit_offset {
            None => mixed.add_three(1, piece.size_in_bits.unwrap_or(0), 0),
            Some(offset) => mixed.add_three(2, piece.size_in_bits.unwrap_or(0), offset),
        }
    }
    Ok(())
}

/// Evaluates an expression, and adds its outcome to the checksum. The registers and the memory are
/// those that crates/dw_times uses: register N contains N + 7, and each byte of memory is 0x5a.
fn add_value(mixed: &mut Mixed, expression: Expression<Bytes<'_>>, kind: Kind, target: Target) -> Result<(), Error> {
    let mut evaluation = Evaluation::<_, Places>::new_in(expression.0, target.encoding());
    evaluation.set_object_address(0x3000);
    if kind == Kind::Register {
        evaluation.set_initial_value(0x1000);
    }
    let mut result = evaluation.evaluate();
    loop {
        result = match result {
            Ok(EvaluationResult::Complete) => break,
            Ok(EvaluationResult::RequiresRegister { register, .. }) => {
                evaluation.resume_with_register(Value::Generic(u64::from(register.0) + 7))
            }
            Ok(EvaluationResult::RequiresMemory { address, size, .. }) => {
                if address > target.greatest() - (u64::from(size) - 1) {
                    mixed.add(4);
                    return Ok(());
                }
                evaluation.resume_with_memory(Value::Generic(0x5a5a_5a5a_5a5a_5a5a >> (64 - 8 * size)))
            }
            Ok(EvaluationResult::RequiresFrameBase) => evaluation.resume_with_frame_base(0x2000),
            Ok(EvaluationResult::RequiresCallFrameCfa) => evaluation.resume_with_call_frame_cfa(0x1000),
            Ok(EvaluationResult::RequiresRelocatedAddress(address)) => evaluation.resume_with_relocated_address(address),
            Ok(_) => return Err(Error::UnsupportedEvaluation),
            Err(Error::DivisionByZero) => {
                mixed.add(5);
                return Ok(());
            }
            Err(error) => return Err(error),
        }
    }
    add_pieces(mixed, evaluation.as_result(), kind, target)
}

fn add_expression(
    mixed: &mut Mixed,
    section: Bytes<'_>,
    expression: Expression<Bytes<'_>>,
    kind: Kind,
    target: Target,
) -> Result<(), Error> {
    mixed.add(expression.0.offset_from(section) as u64);
    add_operations(mixed, expression, target)?;
    if expression.0.is_empty() && kind == Kind::Location {
        // An empty location means that the object was optimized away. gimli would report an empty
        // stack, so its users don't evaluate an empty location either.
        mixed.add(2);
        mixed.add(1);
        return Ok(());
    }
    add_value(mixed, expression, kind, target)
}

fn add_named(mixed: &mut Mixed, section: Bytes<'_>, expression: &Expression<Bytes<'_>>) {
    mixed.add(expression.0.offset_from(section) as u64);
    mixed.add(expression.0.len() as u64);
}

fn add_row(mixed: &mut Mixed, section: Bytes<'_>, row: &UnwindTableRow<Bytes<'_>, Places>) {
    mixed.add(row.start_address());
    mixed.add(row.end_address());
    match row.cfa() {
        CfaRule::RegisterAndOffset { register, offset } => {
            mixed.add_three(1, u64::from(register.0), *offset as u64);
        }
        CfaRule::Expression(expression) => {
            mixed.add(2);
            add_named(mixed, section, expression);
        }
    }
    let mut rules: Vec<_> = row.registers().collect();
    rules.sort_by_key(|rule| rule.0.0);
    for (register, rule) in rules {
        let number = u64::from(register.0);
        match rule {
            RegisterRule::Undefined => {}
            RegisterRule::SameValue => mixed.add_three(number, 1, 0),
            RegisterRule::Offset(offset) => mixed.add_three(number, 2, *offset as u64),
            RegisterRule::ValOffset(offset) => mixed.add_three(number, 3, *offset as u64),
            RegisterRule::Register(other) => mixed.add_three(number, 4, u64::from(other.0)),
            RegisterRule::Expression(expression) => {
                mixed.add_three(number, 5, 0);
                add_named(mixed, section, expression);
            }
            RegisterRule::ValExpression(expression) => {
                mixed.add_three(number, 6, 0);
                add_named(mixed, section, expression);
            }
            RegisterRule::Architectural => mixed.add(u64::MAX),
        }
    }
}

/// Appends the expressions in a program's instructions to `found`, each with its kind.
fn expressions_of<'a>(
    mut instructions: gimli::CallFrameInstructionIter<'_, Bytes<'a>>,
    found: &mut Vec<(Kind, Expression<Bytes<'a>>)>,
) -> Result<(), Error> {
    use gimli::CallFrameInstruction as Instruction;
    while let Some(instruction) = instructions.next()? {
        match instruction {
            Instruction::DefCfaExpression { expression } => found.push((Kind::Cfa, expression)),
            Instruction::Expression { expression, .. } | Instruction::ValExpression { expression, .. } => {
                found.push((Kind::Register, expression));
            }
            _ => {}
        }
    }
    Ok(())
}

fn add_cie(mixed: &mut Mixed, cie: &CommonInformationEntry<Bytes<'_>>) {
    mixed.add(cie.offset() as u64);
    mixed.add_three(
        cie.code_alignment_factor(),
        cie.data_alignment_factor() as u64,
        u64::from(cie.return_address_register().0),
    );
}

/// Adds an FDE and its rows to the checksum. Rows that cover no address are left out.
fn add_fde(mixed: &mut Mixed, frame: &Frame<'_>, section: Bytes<'_>, fde: &FrameDescriptionEntry<Bytes<'_>>) -> Result<(), Error> {
    mixed.add(fde.offset() as u64);
    mixed.add_three(fde.cie().offset() as u64, fde.initial_address(), fde.len());
    let bases = BaseAddresses::default();
    let mut context = UnwindContext::<_, Places>::new_in();
    let mut table = fde.rows(frame, &bases, &mut context)?;
    while let Some(row) = table.next_row()? {
        if row.start_address() != row.end_address() {
            add_row(mixed, section, row);
        }
    }
    Ok(())
}

/// The checksum of a frame section, or gimli's error if it can't read the section.
pub fn frame_answer(bytes: &[u8], target: Target) -> Result<u64, Error> {
    let section = EndianSlice::new(bytes, target.order());
    let mut frame = DebugFrame::from(section);
    frame.set_address_size(target.size());
    let bases = BaseAddresses::default();
    let (mut cies, mut fdes, mut found) = (Vec::new(), Vec::new(), Vec::new());
    let mut entries = frame.entries(&bases);
    while let Some(entry) = entries.next()? {
        match entry {
            CieOrFde::Cie(cie) => cies.push(cie),
            CieOrFde::Fde(partial) => fdes.push(partial.parse(DebugFrame::cie_from_offset)?),
        }
    }
    let mut mixed = Mixed::default();
    for cie in &cies {
        add_cie(&mut mixed, cie);
        expressions_of(cie.instructions(&frame, &bases), &mut found)?;
    }
    for fde in &fdes {
        add_fde(&mut mixed, &frame, section, fde)?;
        expressions_of(fde.instructions(&frame, &bases), &mut found)?;
    }
    for (kind, expression) in found {
        add_expression(&mut mixed, section, expression, kind, target)?;
    }
    Ok(mixed.answer())
}

/// The FDEs that cover at least one address, in order of address.
fn covering<'a>(frame: &Frame<'a>) -> Result<Vec<FrameDescriptionEntry<Bytes<'a>>>, Error> {
    let bases = BaseAddresses::default();
    let mut fdes = Vec::new();
    let mut entries = frame.entries(&bases);
    while let Some(entry) = entries.next()? {
        if let CieOrFde::Fde(partial) = entry {
            let fde = partial.parse(DebugFrame::cie_from_offset)?;
            if fde.len() > 0 {
                fdes.push(fde);
            }
        }
    }
    fdes.sort_by_key(|fde| fde.initial_address());
    Ok(fdes)
}

/// Adds an address to the checksum; then the return address register of its CIE and its row, or
/// `u64::MAX` if the address has no row.
fn add_found(
    mixed: &mut Mixed,
    frame: &Frame<'_>,
    section: Bytes<'_>,
    fdes: &[FrameDescriptionEntry<Bytes<'_>>],
    address: u64,
) -> Result<(), Error> {
    mixed.add(address);
    let place = fdes.partition_point(|fde| fde.initial_address() <= address);
    let fde = place.checked_sub(1).map(|place| &fdes[place]).filter(|fde| fde.contains(address));
    let Some(fde) = fde else {
        mixed.add(u64::MAX);
        return Ok(());
    };
    let bases = BaseAddresses::default();
    let mut context = UnwindContext::<_, Places>::new_in();
    let mut table = fde.rows(frame, &bases, &mut context)?;
    while let Some(row) = table.next_row()? {
        if row.contains(address) {
            mixed.add(u64::from(fde.cie().return_address_register().0));
            add_row(mixed, section, row);
            return Ok(());
        }
    }
    Err(Error::NoUnwindInfoForAddress)
}

/// A frame section that gimli can read, with its FDEs in order of address.
pub struct Rows<'a> {
    section: Bytes<'a>,
    frame: Frame<'a>,
    fdes: Vec<FrameDescriptionEntry<Bytes<'a>>>,
}

impl<'a> Rows<'a> {
    pub fn read(bytes: &'a [u8], target: Target) -> Result<Self, Error> {
        let section = EndianSlice::new(bytes, target.order());
        let mut frame = DebugFrame::from(section);
        frame.set_address_size(target.size());
        let fdes = covering(&frame)?;
        Ok(Rows { section, frame, fdes })
    }

    /// Addresses at the bounds of each FDE: its first address and the one before, its last address
    /// and the one after, and a random one inside.
    pub fn addresses(&self, random: &mut Random) -> Vec<u64> {
        let around = |fde: &FrameDescriptionEntry<Bytes<'_>>| {
            let (start, end) = (fde.initial_address(), fde.initial_address().wrapping_add(fde.len()));
            [start.wrapping_sub(1), start, start.wrapping_add(random.next() % fde.len()), end.wrapping_sub(1), end]
        };
        self.fdes.iter().flat_map(around).collect()
    }

    /// The checksum of the rows at these addresses.
    pub fn answer(&self, addresses: &[u64]) -> Result<u64, Error> {
        let mut mixed = Mixed::default();
        for &address in addresses {
            add_found(&mut mixed, &self.frame, self.section, &self.fdes, address)?;
        }
        Ok(mixed.answer())
    }
}

/// An entry of a location list, of a kind that has an expression.
struct Entry<'a> {
    /// A base address, and the beginning and the end of the range relative to the base address. A
    /// base address `None` stands for that of the unit. The whole is `None` for a default location.
    range: Option<(Option<u64>, u64, u64)>,
    expression: Expression<Bytes<'a>>,
}

/// A location list: its offset in the section, and its entries that have an expression.
struct List<'a> {
    at: usize,
    entries: Vec<Entry<'a>>,
}

/// Reads the list at an offset. Returns the offset just after the list, and the list.
fn list<'a>(lists: &LocationLists<Bytes<'a>>, section: Bytes<'a>, at: usize, target: Target) -> Result<(usize, List<'a>), Error> {
    let mut raw = lists.raw_locations(LocationListsOffset(at), target.encoding())?;
    let (mut end, mut base, mut entries) = (at, None, Vec::new());
    while let Some(entry) = raw.next()? {
        let (range, expression) = match entry {
            RawLocListEntry::BaseAddress { addr } => {
                end += 1 + usize::from(target.size());
                base = Some(addr);
                continue;
            }
            RawLocListEntry::OffsetPair { begin, end, data } => (Some((base, begin, end)), data),
            RawLocListEntry::DefaultLocation { data } => (None, data),
            RawLocListEntry::StartEnd { begin, end, data } => (Some((Some(0), begin, end)), data),
            RawLocListEntry::StartLength { begin, length, data } => (Some((Some(begin), 0, length)), data),
            _ => return Err(Error::UnsupportedOffset),
        };
        end = expression.0.offset_from(section) + expression.0.len();
        entries.push(Entry { range, expression });
    }
    Ok((end + 1, List { at, entries }))
}

/// All lists of a section, as gimli reads them.
pub struct Lists<'a> {
    section: Bytes<'a>,
    target: Target,
    lists: Vec<List<'a>>,
}

impl<'a> Lists<'a> {
    pub fn read(bytes: &'a [u8], target: Target) -> Result<Self, Error> {
        let section = EndianSlice::new(bytes, target.order());
        let lists = LocationLists::new(
            DebugLoc::from(EndianSlice::new(&[], target.order())),
            DebugLocLists::from(section),
        );
        let (mut rest, mut found) = (section, Vec::new());
        while !rest.is_empty() {
            let (length, format) = rest.read_initial_length()?;
            let mut table = rest.split(length)?;
            table.skip(4)?;
            let offsets = table.read_u32()? as usize;
            table.skip(offsets.checked_mul(format.word_size() as usize).ok_or(Error::UnsupportedOffset)?)?;
            let mut at = table.offset_from(section);
            let end = at + table.len();
            while at < end {
                let (next, list) = list(&lists, section, at, target)?;
                at = next;
                found.push(list);
            }
        }
        Ok(Lists { section, target, lists: found })
    }

    /// Addresses at the bounds of each range: its first address and the one before, its last
    /// address and the one after.
    pub fn bounds(&self, unit: u64) -> Vec<u64> {
        let entries = self.lists.iter().flat_map(|list| &list.entries);
        let ranges = entries.filter_map(|entry| entry.range);
        let greatest = self.target.greatest();
        ranges
            .flat_map(|(base, begin, end)| {
                let base = base.unwrap_or(unit);
                let (begin, end) = (base.wrapping_add(begin), base.wrapping_add(end));
                [begin.wrapping_sub(1), begin, end.wrapping_sub(1), end]
            })
            .map(|address| address & greatest)
            .collect()
    }

    /// The checksum of the lists. It contains, for each list, the expressions that apply at each of
    /// these addresses in a unit with the base address `unit`; and then all expressions.
    pub fn answer(&self, unit: u64, addresses: &[u64]) -> Result<u64, Error> {
        let mut mixed = Mixed::default();
        for list in &self.lists {
            mixed.add(list.at as u64);
            for &address in addresses {
                self.add_held(&mut mixed, list, unit, address);
                mixed.add(0);
            }
        }
        for entry in self.lists.iter().flat_map(|list| &list.entries) {
            add_expression(&mut mixed, self.section, entry.expression, Kind::Location, self.target)?;
        }
        Ok(mixed.answer())
    }

    fn add_held(&self, mixed: &mut Mixed, list: &List<'_>, unit: u64, address: u64) {
        let holds = |entry: &&Entry<'_>| match entry.range {
            Some((base, begin, end)) => {
                let (base, address) = (u128::from(base.unwrap_or(unit)), u128::from(address));
                base + u128::from(begin) <= address && address < base + u128::from(end)
            }
            None => false,
        };
        let mut held: Vec<_> = list.entries.iter().filter(holds).collect();
        if held.is_empty() {
            held.extend(list.entries.iter().find(|entry| entry.range.is_none()));
        }
        for entry in held {
            mixed.add(entry.expression.0.offset_from(self.section) as u64);
        }
    }
}

/// Whether an expression has a shift and addresses have four bytes. Then the results of dwcheck and
/// gimli may differ: dwcheck takes each stack entry modulo 2^32, but gimli may keep a greater
/// number, from a longer constant or from `not`, and as the count of a shift this shifts all bits
/// out.
pub fn may_shift_further(bytes: &[u8], target: Target) -> bool {
    let mut operations = Expression(EndianSlice::new(bytes, target.order())).operations(target.encoding());
    let mut shifts = false;
    while let Ok(Some(operation)) = operations.next() {
        shifts |= matches!(operation, Operation::Shl | Operation::Shr | Operation::Shra);
    }
    target.small && shifts
}

/// The checksum of an expression's operations and outcome, or gimli's error if it can't read or
/// evaluate the expression.
pub fn expression_answer(bytes: &[u8], kind: Kind, target: Target) -> Result<u64, Error> {
    let section = EndianSlice::new(bytes, target.order());
    let mut mixed = Mixed::default();
    add_expression(&mut mixed, section, Expression(section), kind, target)?;
    Ok(mixed.answer())
}
