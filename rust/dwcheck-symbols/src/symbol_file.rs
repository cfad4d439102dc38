//! A symbol file, and what it says of an address.

use crate::architecture::Architecture;
use crate::error::SymbolsError;
use crate::identity::Identity;
use crate::index::{Index, Stamp, Table};
use crate::record::{
    FrameRecord, FrameRowRecord, FunctionRecord, InlineRecord, LineRecord, Lines, NumberedRecord, PublicRecord,
};
use crate::row::Row;
use std::borrow::Cow;
use std::collections::BTreeMap;

/// How many functions or frames are looked at that begin before an address, since their ranges may overlap.
const MOST_TRIED: usize = 16;

/// How many bytes of the records of a function are read for an answer, and of those of a frame.
const MOST_READ: usize = 16 << 20;
const MOST_ROWS: usize = 4 << 20;

/// How many inlined functions may be nested.
const DEEPEST: usize = 256;

/// How many lines are looked at for the record `INFO CODE_ID`.
const MOST_INFO: usize = 16;

/// A symbol file.
#[derive(Clone, Debug)]
pub struct SymbolFile<'data> {
    text: &'data [u8],
    identity: Identity<'data>,
    index: Index<'data>,
}

/// A line of a source file.
#[derive(Clone, Debug, PartialEq, Eq)]
pub struct SourceLine<'t> {
    /// The path of the file. `None` if the symbol file has no such `FILE`.
    pub file: Option<Cow<'t, str>>,
    /// The number of the line, 0 if it isn't known.
    pub line: u32,
}

/// A function that is inlined at an address.
#[derive(Clone, Debug, PartialEq, Eq)]
pub struct Call<'t> {
    /// Its name. `None` if the symbol file has no such `INLINE_ORIGIN`.
    pub name: Option<Cow<'t, str>>,
    /// The line that calls it.
    pub call: SourceLine<'t>,
}

/// What a symbol file says of where an address is.
#[derive(Clone, Debug, PartialEq, Eq)]
pub struct Position<'t> {
    /// The name of the function that isn't inlined.
    pub name: Cow<'t, str>,
    /// Its first address.
    pub begin: u64,
    /// The line of the innermost function.
    pub line: Option<SourceLine<'t>>,
    /// The inlined functions, the outermost first.
    pub inlined: Vec<Call<'t>>,
}

/// All rows of a symbol file.
pub struct Rows<'s, 'data> {
    symbols: &'s SymbolFile<'data>,
    /// The number of the next frame, and the rows of the current one that are left.
    next: usize,
    open: Option<RowsOfFrame<'data>>,
}

impl<'data> SymbolFile<'data> {
    /// Reads a symbol file in one pass.
    ///
    /// # Errors
    ///
    /// If it doesn't begin as one.
    pub fn read(text: &'data [u8]) -> Result<Self, SymbolsError> {
        let identity = SymbolFile::identity_of(text)?;
        Ok(SymbolFile { text, identity, index: Index::of(text, Stamp::default()) })
    }

    /// Reads a symbol file by its index.
    ///
    /// # Errors
    ///
    /// If it doesn't begin as one.
    pub fn with_index(text: &'data [u8], index: Index<'data>) -> Result<Self, SymbolsError> {
        Ok(SymbolFile { text, identity: SymbolFile::identity_of(text)?, index })
    }

    /// What a symbol file is for, by its first line.
    ///
    /// # Errors
    ///
    /// If it doesn't begin as one.
    pub fn identity_of(text: &'data [u8]) -> Result<Identity<'data>, SymbolsError> {
        let first = Lines::from(text, 0).next().ok_or(SymbolsError::NoModule)?;
        Identity::parse(first.1).ok_or(SymbolsError::NoModule)
    }

    /// What it is for.
    pub fn identity(&self) -> &Identity<'data> {
        &self.identity
    }

    /// The machine, if its rows are known.
    pub fn architecture(&self) -> Option<Architecture> {
        Architecture::named(&self.identity.machine)
    }

    /// The whole build id, in hex digits, if the file has it (`INFO CODE_ID`).
    pub fn code_id(&self) -> Option<&'data str> {
        let lines = Lines::from(self.text, 0).take(MOST_INFO);
        let found = lines.filter_map(|(_, line)| line.strip_prefix(b"INFO CODE_ID ")).next()?;
        std::str::from_utf8(found).ok()?.split(' ').next()
    }

    /// Where its records are.
    pub fn index(&self) -> &Index<'data> {
        &self.index
    }

    /// Where an address is, relative to the beginning of the file. `None` if no function or public name has it.
    pub fn position(&self, address: u64) -> Option<Position<'data>> {
        match self.function(address) {
            Some((offset, function)) => Some(self.in_function(address, offset, function)),
            None => self.public(address),
        }
    }

    /// The records at the offsets of the entries before an address, the last first.
    fn lines_before(&self, table: Table, address: u64) -> impl Iterator<Item = (usize, &'data [u8])> + '_ {
        let count = self.index.count_up_to(table, address);
        let places = (0..count).rev().take(MOST_TRIED);
        places.filter_map(move |place| Lines::from(self.text, self.index.entry(table, place)?.1).next())
    }

    /// The function that has an address, and where its record is. If several have it, the one that begins last.
    fn function(&self, address: u64) -> Option<(usize, FunctionRecord<'data>)> {
        let functions = self.lines_before(Table::Functions, address);
        let mut functions = functions.filter_map(|(offset, line)| Some((offset, FunctionRecord::parse(line)?)));
        functions.find(|(_, function)| address.checked_sub(function.begin).map_or(false, |past| past < function.size))
    }

    fn in_function(&self, address: u64, offset: usize, function: FunctionRecord<'data>) -> Position<'data> {
        let (mut line, mut levels) = (None, BTreeMap::new());
        for (at, text) in Lines::from(self.text, offset).skip(1) {
            if at - offset > MOST_READ {
                break;
            }
            if let Some(inline) = InlineRecord::parse(text) {
                if levels.len() < DEEPEST && inline.has(address) {
                    levels.entry(inline.level).or_insert(inline);
                }
            } else if let Some(record) = LineRecord::parse(text) {
                line = line.or_else(|| Some(record).filter(|record| record.has(address)));
            } else {
                break;
            }
        }
        // A function that is inlined in one of which nothing is said isn't.
        let nested = levels.iter().enumerate().take_while(|(place, (level, _))| *place as u64 == **level);
        Position {
            name: String::from_utf8_lossy(function.name),
            begin: function.begin,
            line: line.map(|record| self.source_line(record.line, record.file)),
            inlined: nested.map(|(_, (_, inline))| self.call(inline)).collect(),
        }
    }

    fn call(&self, inline: &InlineRecord<'data>) -> Call<'data> {
        Call {
            name: self.numbered(Table::Origins, inline.origin, NumberedRecord::origin),
            call: self.source_line(inline.call_line, inline.call_file),
        }
    }

    fn source_line(&self, line: u32, file: u64) -> SourceLine<'data> {
        SourceLine { file: self.numbered(Table::Files, file, NumberedRecord::file), line }
    }

    /// The name of a record with a number.
    fn numbered(
        &self,
        table: Table,
        number: u64,
        parse: impl Fn(&'data [u8]) -> Option<NumberedRecord<'data>>,
    ) -> Option<Cow<'data, str>> {
        let (_, line) = Lines::from(self.text, self.index.first(table, number)?).next()?;
        let record = parse(line).filter(|record| record.number == number)?;
        Some(String::from_utf8_lossy(record.name))
    }

    /// The public name before an address, unless another function begins between the two.
    fn public(&self, address: u64) -> Option<Position<'data>> {
        let public = self.lines_before(Table::Publics, address).find_map(|(_, line)| PublicRecord::parse(line))?;
        let function = self.lines_before(Table::Functions, address).next();
        let function = function.and_then(|(_, line)| FunctionRecord::parse(line)).map(|function| function.begin);
        let frame = self.frame(address).map(|(_, frame)| frame.begin);
        if public.address > address || function.into_iter().chain(frame).any(|begin| begin > public.address) {
            return None;
        }
        let name = String::from_utf8_lossy(public.name);
        Some(Position { name, begin: public.address, line: None, inlined: Vec::new() })
    }

    /// The frame record that has an address, and where it is.
    fn frame(&self, address: u64) -> Option<(usize, FrameRecord<'data>)> {
        let frames = self.lines_before(Table::Frames, address);
        let mut frames = frames.filter_map(|(offset, line)| Some((offset, FrameRecord::parse(line)?)));
        frames.find(|(_, frame)| address.checked_sub(frame.begin).map_or(false, |past| past < frame.size))
    }

    /// The row of an address. `None` if no `STACK CFI` record covers it, or if one before it can't be read.
    pub fn row(&self, address: u64) -> Option<Row<'data>> {
        let (offset, _) = self.frame(address)?;
        RowsOfFrame::at(self.text, offset)?.row(address)
    }

    /// The rows of the frame that has an address, up to one that can't be read.
    pub fn rows_of_frame(&self, address: u64) -> Vec<Row<'data>> {
        let mut rows = self.frame(address).and_then(|(offset, _)| RowsOfFrame::at(self.text, offset));
        let next = || rows.as_mut().and_then(RowsOfFrame::advance).cloned();
        std::iter::from_fn(next).filter(|row| row.begin < row.end).collect()
    }

    /// The address after the last one of the frame that has an address.
    pub fn end_of_frame(&self, address: u64) -> Option<u64> {
        self.frame(address).map(|(_, frame)| frame.begin + frame.size)
    }

    /// All rows, by the addresses of their frame records.
    pub fn rows(&self) -> Rows<'_, 'data> {
        Rows { symbols: self, next: 0, open: None }
    }

    /// The ranges of addresses that frame records cover, ascending.
    pub fn covered(&self) -> impl Iterator<Item = std::ops::Range<u64>> + '_ {
        let all = 0..self.index.count(Table::Frames);
        let lines =
            all.filter_map(move |place| Lines::from(self.text, self.index.entry(Table::Frames, place)?.1).next());
        lines.filter_map(|(_, line)| FrameRecord::parse(line)).map(|frame| frame.begin..frame.begin + frame.size)
    }
}

/// The rows of a frame record and of the records after it, one after another.
struct RowsOfFrame<'data> {
    lines: Lines<'data>,
    /// The offset up to which records are read.
    limit: usize,
    /// The address after the last row.
    end: u64,
    /// The current row.
    row: Row<'data>,
    next: Next<'data>,
}

/// The row after the current one.
enum Next<'data> {
    /// The first one, which is the current one already.
    First,
    /// The one of this record.
    Record(FrameRowRecord<'data>),
    /// There is none, or it can't be read.
    None,
}

impl<'data> RowsOfFrame<'data> {
    /// Those of the frame record at an offset.
    fn at(text: &'data [u8], offset: usize) -> Option<Self> {
        let mut lines = Lines::from(text, offset);
        let frame = FrameRecord::parse(lines.next()?.1)?;
        let end = frame.begin + frame.size;
        let mut row = Row { begin: frame.begin, end, ..Row::default() };
        row.rules.add(frame.rules).ok()?;
        Some(RowsOfFrame { lines, limit: offset.saturating_add(MOST_ROWS), end, row, next: Next::First })
    }

    /// Goes to the next row. After a record that can't be read it isn't known any more what is so, and since it may be
    /// for any address, the row before it isn't known to its end.
    fn advance(&mut self) -> Option<&Row<'data>> {
        match std::mem::replace(&mut self.next, Next::None) {
            Next::First => {}
            Next::Record(record) => {
                self.row.begin = record.address;
                self.row.rules.add(record.rules).ok()?;
            }
            Next::None => return None,
        }
        self.row.end = self.end;
        let is_row = |line: &[u8]| line.starts_with(b"STACK CFI ") && !line.starts_with(b"STACK CFI INIT ");
        if let Some((at, line)) = self.lines.next().filter(|(_, line)| is_row(line)) {
            let is_inside = |record: &FrameRowRecord<'_>| (self.row.begin..self.end).contains(&record.address);
            let record = FrameRowRecord::parse(line).filter(|record| at < self.limit && is_inside(record))?;
            self.row.end = record.address;
            self.next = Next::Record(record);
        }
        Some(&self.row)
    }

    /// The row of an address.
    fn row(mut self, address: u64) -> Option<Row<'data>> {
        while !(self.advance()?.begin..self.row.end).contains(&address) {}
        Some(self.row)
    }
}

impl<'data> Iterator for Rows<'_, 'data> {
    type Item = Row<'data>;

    fn next(&mut self) -> Option<Row<'data>> {
        loop {
            while let Some(row) = self.open.as_mut().and_then(RowsOfFrame::advance) {
                // A row of the same address as the one after it is empty.
                if row.begin < row.end {
                    return Some(row.clone());
                }
            }
            let (_, offset) = self.symbols.index.entry(Table::Frames, self.next)?;
            self.next += 1;
            self.open = RowsOfFrame::at(self.symbols.text, offset);
        }
    }
}

#[cfg(test)]
mod tests {
    use super::*;

    fn position(text: &str, address: u64) -> Option<Position<'_>> {
        SymbolFile::read(text.as_bytes()).unwrap().position(address)
    }

    fn line(position: &Position<'_>) -> (Option<String>, u32) {
        let line = position.line.as_ref().unwrap();
        (line.file.as_ref().map(|file| file.to_string()), line.line)
    }

    const FILE: &str = "MODULE Linux x86_64 00 a\r
INFO CODE_ID ABCD\r
FILE 0 a.c\r
FILE 1 b.c\r
INLINE_ORIGIN 0 inner\r
INLINE_ORIGIN 1 middle\r
FUNC 1000 100 0 outer(int)\r
INLINE 0 7 0 1 1010 20 1080 10\r
INLINE 1 8 1 0 1018 8\r
1000 10 5 0\r
1010 30 20 1\r
FUNC 2000 10 0 other\r
PUBLIC 1f00 0 exported\r
PUBLIC 3000 0 next\r
STACK CFI INIT 3100 10 .cfa: $rsp 8 + .ra: .cfa -8 + ^\r
";

    #[test]
    fn inlined_functions_are_nested_by_their_levels() {
        let found = position(FILE, 0x1018).unwrap();
        assert_eq!((found.name.as_ref(), found.begin, line(&found)), ("outer(int)", 0x1000, (Some("b.c".into()), 20)));
        let names: Vec<_> = found.inlined.iter().map(|call| (call.name.as_deref(), call.call.line)).collect();
        assert_eq!(names, [(Some("middle"), 7), (Some("inner"), 8)]);
        assert_eq!(position(FILE, 0x1085).unwrap().inlined.len(), 1);
        assert_eq!(position(FILE, 0x1085).unwrap().line, None);
        assert_eq!(SymbolFile::read(FILE.as_bytes()).unwrap().code_id(), Some("ABCD"));
    }

    /// Levels that skip one, or that say the same twice, would be calls without a caller.
    #[test]
    fn levels_that_do_not_follow_one_another_end_the_nesting() {
        let text =
            "MODULE Linux x86_64 00 a\nFUNC 10 10 0 f\nINLINE 1 1 0 0 10 10\nINLINE 18446744073709551615 1 0 0 10 10\n";
        assert_eq!(position(text, 0x11).unwrap().inlined, []);
        let text = "MODULE Linux x86_64 00 a\nFUNC 10 10 0 f\nINLINE 0 1 9 9 10 10\nINLINE 0 2 0 0 10 10\n";
        let found = position(text, 0x11).unwrap();
        assert_eq!(found.inlined.len(), 1);
        assert_eq!((&found.inlined[0].name, &found.inlined[0].call.file), (&None, &None));
    }

    #[test]
    fn a_public_name_ends_where_another_function_begins() {
        assert_eq!(position(FILE, 0x1f80).unwrap().name, "exported");
        assert_eq!(position(FILE, 0x2080), None);
        assert_eq!(position(FILE, 0x3000).unwrap().name, "next");
        assert_eq!(position(FILE, 0x3108), None);
        assert_eq!(position(FILE, 0xfff), None);
    }

    #[test]
    fn rows_follow_one_another_up_to_one_that_cannot_be_read() {
        let text = "MODULE Linux x86_64 00 a\nSTACK CFI INIT 10 20 .cfa: $rsp 8 +\nSTACK CFI 14 .cfa: $rsp 16 +\nSTACK CFI 18 garbage\nSTACK CFI 1c .cfa: $rsp 8 +\nSTACK CFI INIT 40 4 .cfa: $rsp 8 +\nSTACK CFI 50 .cfa: $rsp 16 +\n";
        let symbols = SymbolFile::read(text.as_bytes()).unwrap();
        let range = |address| symbols.row(address).map(|row| (row.begin, row.end));
        assert_eq!([range(0x10), range(0x17)], [Some((0x10, 0x14)), Some((0x14, 0x18))]);
        assert_eq!([range(0x18), range(0x1c), range(0x30), range(0x40)], [None; 4]);
        assert_eq!(symbols.rows().count(), 2);
        assert_eq!(symbols.covered().collect::<Vec<_>>(), [0x10..0x30, 0x40..0x44]);
    }

    #[test]
    fn files_that_are_no_symbol_files_are_refused() {
        for text in ["", "MODULE Linux x86_64 00 a", "FUNC 0 1 0 f\n", "MODULE Linux x86_64 00\n"] {
            assert_eq!(SymbolFile::read(text.as_bytes()).err(), Some(SymbolsError::NoModule), "{}", text);
        }
    }
}
