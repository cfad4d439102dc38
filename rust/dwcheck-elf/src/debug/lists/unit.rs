//! The location lists of a unit, rewritten as tables of `.debug_loclists` that `dwcheck` takes: one for
//! each list, so that a list can be looked up by itself.

use super::entry::{Bounds, Expression, Item, ListReader};
use super::expression::{rewrite_expression, Rewritten, Scope};
use super::problem::{Kind, Problem};
use super::references::Reference;
use super::unsupported::{Unsupported, UnsupportedAt, UNREADABLE};
use crate::elf::format::Name;
use dwcheck::FaultKind;
use dwcheck_types::codes::lle;
use dwcheck_types::cursor::push_uleb;
use dwcheck_types::target::Target;
use std::collections::BTreeMap;
use std::ops::Range;

/// The number of bytes of a table before its list: a length of 4 bytes, the version, the sizes of an
/// address and of a segment selector, and the number of offsets.
pub(crate) const TABLE_HEADER: usize = 12;

/// The lists of a unit, rewritten.
#[derive(Debug, Default)]
pub(crate) struct UnitLists {
    /// The tables.
    pub bytes: Vec<u8>,
    /// The lists, in the order of their offsets.
    pub lists: Vec<List>,
    /// The entries of all lists that have an expression.
    pub entries: Vec<Entry>,
    /// How many entries have a hole of each kind.
    pub all_unsupported: BTreeMap<Unsupported, usize>,
    /// How many entries have a hole.
    pub with_unsupported: usize,
    /// How many bytes the lists have in their section.
    pub original_bytes: usize,
}

/// A location list.
#[derive(Clone, Debug, PartialEq, Eq)]
pub(crate) struct List {
    /// What refers to it.
    pub reference: Reference,
    /// Its bytes in its section.
    pub original: Range<usize>,
    /// Its table in [`UnitLists::bytes`].
    pub table: Range<usize>,
    /// Its entries in [`UnitLists::entries`].
    pub entries: Range<usize>,
    /// Whether gimli reads it in another way: it doesn't know view numbers that are entries, and takes
    /// the highest address for that of a dropped function only in DWARF 5.
    pub is_unlike_gimli: bool,
}

/// An entry of a list.
#[derive(Clone, Debug, PartialEq, Eq)]
pub(crate) struct Entry {
    /// Its offset in the section.
    pub offset: usize,
    /// The addresses at which it applies. `None` if it applies where no other entry does.
    pub range: Option<Range<u64>>,
    /// Whether the linker dropped its function, so that the base address isn't an address.
    pub is_dropped: bool,
    /// Where its expression is in the section.
    pub original: Range<usize>,
    /// Where its expression is in [`UnitLists::bytes`].
    pub rewritten: Range<usize>,
}

/// What a list is rewritten with.
pub(crate) struct Source<'s> {
    /// The bytes of the section.
    pub bytes: &'s [u8],
    /// The section: `.debug_loc` or `.debug_loclists`.
    pub section: Name,
    /// What expressions depend on.
    pub scope: Scope<'s>,
    /// The base address of the unit.
    pub base: u64,
}

impl Source<'_> {
    fn target(&self) -> Target {
        self.scope.target
    }

    /// The base address that linkers write for functions that they drop.
    fn tombstone(&self) -> u64 {
        let highest = self.target().address_size.highest();
        if self.section == Name::DebugLoc {
            highest - 1
        } else {
            highest
        }
    }

    /// The base address that a table has for one of the section. That of dropped functions differs
    /// between DWARF 4 and 5.
    pub fn new_base(&self, base: u64) -> u64 {
        if base == self.tombstone() {
            self.target().address_size.highest()
        } else {
            base
        }
    }

    /// The expression of an entry, rewritten.
    pub fn rewritten(&self, entry: &Entry) -> Rewritten<'_> {
        rewrite_expression(self.bytes.get(entry.original.clone()).unwrap_or(&[]), &self.scope)
    }
}

impl UnitLists {
    /// Reads a list, and appends its table. If the list can't be read to its end, nothing is appended.
    /// `is_left_out` says which entries, by their offset, have an expression that is unreadable in the
    /// place of their own. Returns what is wrong with the list.
    pub fn add_list(
        &mut self,
        reference: Reference,
        source: &Source<'_>,
        is_left_out: impl Fn(usize) -> bool,
    ) -> Result<Vec<Problem>, Problem> {
        let list = reference.list.ok_or_else(|| Problem::of(&reference, 0, Kind::NoSuchList))?;
        let no_list = Problem::of(&reference, list as usize, Kind::Dwcheck(FaultKind::Truncated));
        let mut reader = ListReader::new(source.bytes, source.section, list, &source.scope).ok_or(no_list)?;
        let (table, first) = (self.bytes.len(), self.entries.len());
        self.bytes.resize(table + TABLE_HEADER, 0);
        let mut state = State { base: source.base, problems: Vec::new(), is_unlike_gimli: false };
        loop {
            let at = reader.at();
            match reader.item() {
                Ok(Item::End) => break,
                Ok(item) => self.add_list_item(at, item, &reference, source, &mut state, &is_left_out),
                Err(kind) => {
                    self.original_bytes += at - list as usize;
                    self.bytes.truncate(table);
                    self.entries.truncate(first);
                    return Err(Problem::of(&reference, at, Kind::Dwcheck(kind)));
                }
            }
        }
        self.bytes.push(0);
        self.write_header(table, source.target());
        self.original_bytes += reader.at() - list as usize;
        self.lists.push(List {
            reference,
            original: list as usize..reader.at(),
            table: table..self.bytes.len(),
            entries: first..self.entries.len(),
            is_unlike_gimli: state.is_unlike_gimli,
        });
        Ok(state.problems)
    }

    fn add_list_item(
        &mut self,
        at: usize,
        item: Item<'_>,
        reference: &Reference,
        source: &Source<'_>,
        state: &mut State,
        is_left_out: &impl Fn(usize) -> bool,
    ) {
        let target = source.target();
        match item {
            Item::Entry(bounds, expression) => {
                let rewritten = rewrite_expression(expression.bytes, &source.scope);
                if let Some(operation) = rewritten.without_address {
                    let problem = Problem::of(reference, expression.offset + operation, Kind::NoSuchAddress);
                    state.problems.push(Problem { entry: at, ..problem });
                }
                self.count_list_item(&rewritten.all_unsupported);
                self.write_bounds(bounds, target);
                let bytes = if is_left_out(at) { &UNREADABLE[..] } else { &rewritten.bytes };
                let rewritten = self.write_expression(bytes);
                self.entries.push(list_entry(at, bounds, expression, rewritten, source, state.base));
            }
            Item::Base(address) => {
                state.base = address;
                state.is_unlike_gimli |= source.section == Name::DebugLoc && address == target.address_size.highest();
                self.bytes.push(lle::BASE_ADDRESS);
                target.push(&mut self.bytes, source.new_base(address), target.address_size.bytes());
            }
            Item::NoAddress => state.problems.push(Problem::of(reference, at, Kind::NoSuchAddress)),
            Item::Views => state.is_unlike_gimli = true,
            Item::End => {}
        }
    }

    fn count_list_item(&mut self, all_unsupported: &[UnsupportedAt]) {
        self.with_unsupported += usize::from(!all_unsupported.is_empty());
        for (index, spot) in all_unsupported.iter().enumerate() {
            if all_unsupported[..index].iter().all(|other| other.unsupported != spot.unsupported) {
                *self.all_unsupported.entry(spot.unsupported).or_default() += 1;
            }
        }
    }

    fn write_bounds(&mut self, bounds: Bounds, target: Target) {
        let size = target.address_size.bytes();
        let bytes = &mut self.bytes;
        match bounds {
            Bounds::Offsets(begin, end) => {
                bytes.push(lle::OFFSET_PAIR);
                push_uleb(bytes, begin);
                push_uleb(bytes, end);
            }
            Bounds::Default => bytes.push(lle::DEFAULT_LOCATION),
            Bounds::Addresses(begin, end) => {
                bytes.push(lle::START_END);
                target.push(bytes, begin, size);
                target.push(bytes, end, size);
            }
            Bounds::Length(begin, length) => {
                bytes.push(lle::START_LENGTH);
                target.push(bytes, begin, size);
                push_uleb(bytes, length);
            }
        }
    }

    /// Writes an expression with its length before it. Returns where the expression is.
    fn write_expression(&mut self, expression: &[u8]) -> Range<usize> {
        push_uleb(&mut self.bytes, expression.len() as u64);
        let begin = self.bytes.len();
        self.bytes.extend_from_slice(expression);
        begin..self.bytes.len()
    }

    /// Writes the header of the table that begins at an offset and ends at the last byte.
    fn write_header(&mut self, table: usize, target: Target) {
        let mut header = Vec::with_capacity(TABLE_HEADER);
        target.push(&mut header, (self.bytes.len() - table - 4) as u64, 4);
        target.push(&mut header, 5, 2);
        header.extend_from_slice(&[target.address_size.bytes(), 0, 0, 0, 0, 0]);
        self.bytes[table..table + TABLE_HEADER].copy_from_slice(&header);
    }

    /// The table of a list.
    pub fn rewritten_table(&self, list: &List) -> &[u8] {
        self.bytes.get(list.table.clone()).unwrap_or(&[])
    }

    /// The entries of a list.
    pub fn entries_of(&self, list: &List) -> &[Entry] {
        self.entries.get(list.entries.clone()).unwrap_or(&[])
    }
}

/// What is known while a list is read.
struct State {
    base: u64,
    problems: Vec<Problem>,
    is_unlike_gimli: bool,
}

fn list_entry(
    offset: usize,
    bounds: Bounds,
    expression: Expression<'_>,
    rewritten: Range<usize>,
    source: &Source<'_>,
    base: u64,
) -> Entry {
    let target = source.target();
    let add = |base: u64, number: u64| target.wrap(base.wrapping_add(number));
    let range = match bounds {
        Bounds::Offsets(begin, end) => Some(add(base, begin)..add(base, end)),
        Bounds::Addresses(begin, end) => Some(begin..end),
        Bounds::Length(begin, length) => Some(begin..add(begin, length)),
        Bounds::Default => None,
    };
    let is_tombstone = |address: u64| address == source.tombstone();
    let is_dropped = matches!(bounds, Bounds::Offsets(..)) && is_tombstone(base)
        || range.as_ref().map_or(false, |range| is_tombstone(range.start));
    let original = expression.offset..expression.offset + expression.bytes.len();
    Entry { offset, range, is_dropped, original, rewritten }
}
