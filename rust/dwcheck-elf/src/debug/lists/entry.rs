//! Reads the entries of a location list (DWARF 5, section 2.6.2; DWARF 4, section 2.6.2).

use super::expression::Scope;
use crate::elf::format::Name;
use dwcheck::FaultKind;
use dwcheck_types::codes::lle;
use dwcheck_types::cursor::{Cursor, ReadError};

/// What a list has at some place.
#[derive(Clone, Copy, Debug, PartialEq, Eq)]
pub(crate) enum Item<'a> {
    /// The list ends.
    End,
    /// View numbers, which gcc writes with `-gvariable-location-views=incompat5`.
    Views,
    /// The base address of the entries that follow.
    Base(u64),
    /// An expression, and where it applies.
    Entry(Bounds, Expression<'a>),
    /// An entry with an index that isn't in `.debug_addr`.
    NoAddress,
}

/// The addresses at which an expression applies, as the entry says them.
#[derive(Clone, Copy, Debug, PartialEq, Eq)]
pub(crate) enum Bounds {
    /// From the base address plus the first number to the base address plus the second one.
    Offsets(u64, u64),
    /// From the first address to the second one.
    Addresses(u64, u64),
    /// From an address on, this many bytes.
    Length(u64, u64),
    /// Where no other expression does.
    Default,
}

/// An expression, and its offset in the section.
#[derive(Clone, Copy, Debug, PartialEq, Eq)]
pub(crate) struct Expression<'a> {
    /// The offset in the section of its first byte.
    pub offset: usize,
    /// Its bytes.
    pub bytes: &'a [u8],
}

/// Reads the items of a list one after another.
pub(crate) struct ListReader<'a, 's> {
    cursor: Cursor<'a>,
    section: Name,
    scope: &'s Scope<'s>,
}

impl<'a, 's> ListReader<'a, 's> {
    /// Begins at an offset of a section, either `.debug_loc` or `.debug_loclists`. `None` if the section
    /// ends before.
    pub fn new(bytes: &'a [u8], section: Name, offset: u64, scope: &'s Scope<'s>) -> Option<Self> {
        let mut cursor = Cursor::new(bytes, scope.target);
        cursor.take(offset).ok()?;
        Some(ListReader { cursor, section, scope })
    }

    /// The offset in the section of the next item.
    pub fn at(&self) -> usize {
        self.cursor.at()
    }

    /// The next item.
    pub fn item(&mut self) -> Result<Item<'a>, FaultKind> {
        let read = if self.section == Name::DebugLoc { self.old_item() } else { self.new_item() };
        match read {
            Ok(Some(item)) => Ok(item),
            Ok(None) => Err(FaultKind::UnknownEntry),
            Err(ReadError::Truncated) => Err(FaultKind::Truncated),
            Err(ReadError::LebRange) => Err(FaultKind::LebRange),
        }
    }

    fn old_item(&mut self) -> Result<Option<Item<'a>>, ReadError> {
        let (begin, end) = (self.word()?, self.word()?);
        if (begin, end) == (0, 0) {
            return Ok(Some(Item::End));
        }
        if begin == self.scope.target.address_size.highest() {
            return Ok(Some(Item::Base(end)));
        }
        let length = self.cursor.number(2)?;
        Ok(Some(Item::Entry(Bounds::Offsets(begin, end), self.expression(length)?)))
    }

    /// `None` if the code of the entry isn't known.
    fn new_item(&mut self) -> Result<Option<Item<'a>>, ReadError> {
        Ok(Some(match self.cursor.byte()? {
            lle::END_OF_LIST => Item::End,
            lle::BASE_ADDRESSX => self.indexed()?.map_or(Item::NoAddress, Item::Base),
            lle::STARTX_ENDX => {
                let (begin, end) = (self.indexed()?, self.indexed()?);
                let bounds = begin.and_then(|begin| Some(Bounds::Addresses(begin, end?)));
                self.entry(bounds)?
            }
            lle::STARTX_LENGTH => {
                let (begin, length) = (self.indexed()?, self.cursor.uleb()?);
                self.entry(begin.map(|begin| Bounds::Length(begin, length)))?
            }
            lle::OFFSET_PAIR => {
                let bounds = Bounds::Offsets(self.cursor.uleb()?, self.cursor.uleb()?);
                self.entry(Some(bounds))?
            }
            lle::DEFAULT_LOCATION => self.entry(Some(Bounds::Default))?,
            lle::BASE_ADDRESS => Item::Base(self.word()?),
            lle::START_END => {
                let bounds = Bounds::Addresses(self.word()?, self.word()?);
                self.entry(Some(bounds))?
            }
            lle::START_LENGTH => {
                let bounds = Bounds::Length(self.word()?, self.cursor.uleb()?);
                self.entry(Some(bounds))?
            }
            lle::GNU_VIEW_PAIR => {
                self.cursor.skip_leb()?;
                self.cursor.skip_leb()?;
                Item::Views
            }
            _ => return Ok(None),
        }))
    }

    /// Reads the expression of an entry whose bounds were read, if they are known.
    fn entry(&mut self, bounds: Option<Bounds>) -> Result<Item<'a>, ReadError> {
        let length = self.cursor.uleb()?;
        let expression = self.expression(length)?;
        Ok(bounds.map_or(Item::NoAddress, |bounds| Item::Entry(bounds, expression)))
    }

    fn expression(&mut self, length: u64) -> Result<Expression<'a>, ReadError> {
        let offset = self.cursor.at();
        Ok(Expression { offset, bytes: self.cursor.take(length)? })
    }

    fn word(&mut self) -> Result<u64, ReadError> {
        self.cursor.number(self.scope.target.address_size.bytes())
    }

    fn indexed(&mut self) -> Result<Option<u64>, ReadError> {
        Ok((self.scope.address)(self.cursor.uleb()?))
    }
}

/// The offset where `count` view numbers end that begin at `offset`. `None` if the section ends before.
pub(crate) fn end_of_views(bytes: &[u8], offset: u64, count: usize, scope: &Scope<'_>) -> Option<usize> {
    let mut cursor = Cursor::new(bytes, scope.target);
    cursor.take(offset).ok()?;
    (0..count).try_for_each(|_| cursor.skip_leb()).ok()?;
    Some(cursor.at())
}
