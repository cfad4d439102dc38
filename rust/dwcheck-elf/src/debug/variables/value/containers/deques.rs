//! Reads containers to which elements are added at both ends: blocks of elements, and circles.

use super::fields::Field;
use crate::debug::debug_info::Die;
use crate::debug::variables::location::Locator;
use crate::debug::variables::types::type_size;
use crate::debug::variables::value::{Part, Shape, Value};
use crate::debug::variables::value_location::ValueLocation;

/// Elements in blocks of the same size, whose addresses are next to each other.
pub(super) struct Blocks<'v, 'a> {
    pub begin: InBlock<'v, 'a>,
    /// After the last element.
    pub end: InBlock<'v, 'a>,
    pub element: Die<'v, 'a>,
}

/// The members that say where an element is in its block.
pub(super) struct InBlock<'v, 'a> {
    pub current: Field<'v, 'a>,
    /// The first element of the block, and the address after the last one.
    pub first: Field<'v, 'a>,
    pub last: Field<'v, 'a>,
    /// Where the address of the block is.
    pub block: Field<'v, 'a>,
}

/// Elements in blocks of a known number of elements, whose addresses are next to each other.
pub(super) struct Pages<'v, 'a> {
    /// Where the address of the first block is, and the end of these addresses.
    pub begin: Field<'v, 'a>,
    pub end: Field<'v, 'a>,
    /// How many places of the first blocks have no element.
    pub skipped: Field<'v, 'a>,
    pub count: Field<'v, 'a>,
    /// How many elements a block has.
    pub in_block: u64,
    pub element: Die<'v, 'a>,
}

/// Elements next to each other, of which the first one comes after the last place.
pub(super) struct Circle<'v, 'a> {
    /// The address of the first place.
    pub first: Field<'v, 'a>,
    /// The number of the place with the first element.
    pub begin: Field<'v, 'a>,
    pub extent: Extent<'v, 'a>,
    /// How many places there are.
    pub room: Field<'v, 'a>,
    pub element: Die<'v, 'a>,
}

/// How the number of elements is kept.
pub(super) enum Extent<'v, 'a> {
    Count(Field<'v, 'a>),
    /// As the place after the last one, which is free.
    End(Field<'v, 'a>),
}

/// What the members of a place in a block say.
struct Spot {
    current: u64,
    first: u64,
    last: u64,
    block: u64,
}

impl<'v, 'a> Locator<'v, 'a> {
    pub(super) fn blocks(
        &self,
        blocks: &Blocks<'v, 'a>,
        part: Part<'_>,
        inner: Shape,
        left: &mut usize,
    ) -> Option<Value> {
        let size = type_size(&blocks.element).filter(|size| *size > 0)?;
        let (begin, end) = (self.spot(&blocks.begin, part)?, self.spot(&blocks.end, part)?);
        let length = begin.last.checked_sub(begin.first)?;
        let pointer = u64::from(self.machine.target.address_size.bytes());
        let distance = end.block.checked_sub(begin.block)?;
        let is_whole = length > 0 && length % size == 0 && end.last.checked_sub(end.first)? == length;
        if !is_whole || distance % pointer != 0 {
            return None;
        }
        let inside =
            |spot: &Spot| spot.current.checked_sub(spot.first).filter(|past| *past < length && past % size == 0);
        let (skipped, past) = (inside(&begin)? / size, inside(&end)? / size);
        let in_block = length / size;
        let count = (distance / pointer).checked_mul(in_block)?.checked_add(past)?.checked_sub(skipped)?;
        let mut block = (begin.block, begin.first);
        let place = |index: u64| {
            let wanted = begin.block + (skipped + index) / in_block * pointer;
            if block.0 != wanted {
                block = (wanted, self.pointer_at(wanted)?);
            }
            block.1.checked_add((skipped + index) % in_block * size)
        };
        self.elements_at(&blocks.element, (size, count), place, inner, left)
    }

    pub(super) fn pages(&self, pages: &Pages<'v, 'a>, part: Part<'_>, inner: Shape, left: &mut usize) -> Option<Value> {
        let size = type_size(&pages.element).filter(|size| *size > 0)?;
        let word = |field| self.word(field, part);
        let (begin, skipped, count) = (word(&pages.begin)?, word(&pages.skipped)?, word(&pages.count)?);
        let (pointer, in_block) = (u64::from(self.machine.target.address_size.bytes()), pages.in_block);
        let distance = word(&pages.end)?.checked_sub(begin)?;
        let room = (distance / pointer).checked_mul(in_block)?;
        if distance % pointer != 0 || skipped.checked_add(count)? > room {
            return None;
        }
        let place = |index: u64| {
            let block = self.pointer_at(begin + (skipped + index) / in_block * pointer)?;
            block.checked_add(((skipped + index) % in_block).checked_mul(size)?)
        };
        self.elements_at(&pages.element, (size, count), place, inner, left)
    }

    fn spot(&self, place: &InBlock<'v, 'a>, part: Part<'_>) -> Option<Spot> {
        let word = |field| self.word(field, part);
        let InBlock { current, first, last, block } = place;
        Some(Spot { current: word(current)?, first: word(first)?, last: word(last)?, block: word(block)? })
    }

    pub(super) fn circle(
        &self,
        circle: &Circle<'v, 'a>,
        part: Part<'_>,
        inner: Shape,
        left: &mut usize,
    ) -> Option<Value> {
        let size = type_size(&circle.element).filter(|size| *size > 0)?;
        let word = |field| self.word(field, part);
        let (first, begin, room) = (word(&circle.first)?, word(&circle.begin)?, word(&circle.room)?);
        let count = match &circle.extent {
            Extent::Count(count) => word(count)?,
            Extent::End(end) => {
                let end = word(end).filter(|end| *end < room)?;
                if end >= begin {
                    end - begin
                } else {
                    room - begin + end
                }
            }
        };
        if count > room || begin >= room && count > 0 {
            return None;
        }
        let place = |index: u64| first.checked_add((begin + index) % room * size);
        first.checked_add(room.checked_mul(size)?)?;
        self.elements_at(&circle.element, (size, count), place, inner, left)
    }

    /// The first ones of some elements of a size, each at the address that `place` gives for its number. All of these
    /// have to be in memory that is known.
    fn elements_at(
        &self,
        element: &Die<'v, 'a>,
        (size, count): (u64, u64),
        mut place: impl FnMut(u64) -> Option<u64>,
        inner: Shape,
        left: &mut usize,
    ) -> Option<Value> {
        let shown = self.shown(count, inner, *left);
        let mut elements = Vec::new();
        for index in 0..shown as u64 {
            *left = left.saturating_sub(1);
            let address = place(index)?;
            self.machine.memory(address, 1).ok()?;
            let (place, size) = (ValueLocation::Memory(address), usize::try_from(size).ok()?);
            elements.push(self.value_of_part(element, Part { place: &place, size, offset: 0 }, inner, left));
        }
        Some(Value::Elements(elements, count - shown as u64))
    }
}
