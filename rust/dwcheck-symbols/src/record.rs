//! The lines of a symbol file, and the records in them.

use std::ops::Range;

/// The lines from an offset on, each with its offset and without its end. A last line without an end may be cut off, and
/// isn't one of them.
#[derive(Clone)]
pub(crate) struct Lines<'t> {
    text: &'t [u8],
    next: usize,
}

impl<'t> Lines<'t> {
    pub fn from(text: &'t [u8], offset: usize) -> Self {
        Lines { text, next: offset }
    }
}

impl<'t> Iterator for Lines<'t> {
    type Item = (usize, &'t [u8]);

    fn next(&mut self) -> Option<Self::Item> {
        let begin = self.next;
        let rest = self.text.get(begin..)?;
        let length = memchr::memchr(b'\n', rest)?;
        self.next = begin + length + 1;
        let line = &rest[..length];
        Some((begin, line.strip_suffix(b"\r").unwrap_or(line)))
    }
}

/// The words of a line, which spaces separate.
#[derive(Clone, Copy)]
struct Words<'t>(&'t [u8]);

impl<'t> Words<'t> {
    fn word(&mut self) -> Option<&'t [u8]> {
        let begin = self.0.iter().position(|byte| *byte != b' ')?;
        let rest = &self.0[begin..];
        let end = memchr::memchr(b' ', rest).unwrap_or(rest.len());
        self.0 = &rest[end..];
        Some(&rest[..end])
    }

    /// What is left, without the space before it.
    fn rest(self) -> &'t [u8] {
        self.0.strip_prefix(b" ").unwrap_or(self.0)
    }

    fn hexadecimal(&mut self) -> Option<u64> {
        number(self.word()?, 16)
    }

    fn decimal(&mut self) -> Option<u64> {
        number(self.word()?, 10)
    }
}

/// A number without a sign.
fn number(word: &[u8], radix: u32) -> Option<u64> {
    if word.is_empty() || word.len() > 20 {
        return None;
    }
    word.iter().try_fold(0_u64, |number, byte| {
        let digit = char::from(*byte).to_digit(radix)?;
        number.checked_mul(u64::from(radix))?.checked_add(u64::from(digit))
    })
}

/// `FUNC [m] ADDRESS SIZE PARAMETERS NAME`.
#[derive(Clone, Copy, Debug, PartialEq, Eq)]
pub(crate) struct FunctionRecord<'t> {
    pub begin: u64,
    pub size: u64,
    pub name: &'t [u8],
}

/// `PUBLIC [m] ADDRESS PARAMETERS NAME`.
#[derive(Clone, Copy, Debug, PartialEq, Eq)]
pub(crate) struct PublicRecord<'t> {
    pub address: u64,
    pub name: &'t [u8],
}

/// `ADDRESS SIZE LINE FILE`.
#[derive(Clone, Copy, Debug, PartialEq, Eq)]
pub(crate) struct LineRecord {
    pub begin: u64,
    pub size: u64,
    pub line: u32,
    pub file: u64,
}

/// `INLINE NEST_LEVEL CALL_LINE CALL_FILE ORIGIN {ADDRESS SIZE}`.
#[derive(Clone, Copy)]
pub(crate) struct InlineRecord<'t> {
    pub level: u64,
    pub call_line: u32,
    pub call_file: u64,
    pub origin: u64,
    ranges: Words<'t>,
}

/// `FILE NUMBER NAME` or `INLINE_ORIGIN NUMBER NAME`.
#[derive(Clone, Copy, Debug, PartialEq, Eq)]
pub(crate) struct NumberedRecord<'t> {
    pub number: u64,
    pub name: &'t [u8],
}

/// `STACK CFI INIT ADDRESS SIZE RULES`.
#[derive(Clone, Copy, Debug, PartialEq, Eq)]
pub(crate) struct FrameRecord<'t> {
    pub begin: u64,
    pub size: u64,
    pub rules: &'t [u8],
}

/// `STACK CFI ADDRESS RULES`.
#[derive(Clone, Copy, Debug, PartialEq, Eq)]
pub(crate) struct FrameRowRecord<'t> {
    pub address: u64,
    pub rules: &'t [u8],
}

/// What a range of addresses has to be: not empty, and below the highest address.
fn end(begin: u64, size: u64) -> Option<u64> {
    begin.checked_add(size).filter(|_| size > 0)
}

/// The words after the name of a record, and after `m`, which says that the code has several names.
fn words<'t>(line: &'t [u8], name: &[u8]) -> Option<Words<'t>> {
    let rest = line.strip_prefix(name)?.strip_prefix(b" ")?;
    Some(Words(rest.strip_prefix(b"m ").unwrap_or(rest)))
}

impl<'t> FunctionRecord<'t> {
    pub fn parse(line: &'t [u8]) -> Option<Self> {
        let mut words = words(line, b"FUNC")?;
        let (begin, size) = (words.hexadecimal()?, words.hexadecimal()?);
        end(begin, size)?;
        words.hexadecimal()?;
        Some(FunctionRecord { begin, size, name: words.rest() })
    }
}

impl<'t> PublicRecord<'t> {
    pub fn parse(line: &'t [u8]) -> Option<Self> {
        let mut words = words(line, b"PUBLIC")?;
        let address = words.hexadecimal()?;
        words.hexadecimal()?;
        Some(PublicRecord { address, name: words.rest() })
    }
}

impl LineRecord {
    pub fn parse(line: &[u8]) -> Option<Self> {
        let mut words = Words(line);
        let (begin, size) = (words.hexadecimal()?, words.hexadecimal()?);
        end(begin, size)?;
        let line = u32::try_from(words.decimal()?).ok()?;
        Some(LineRecord { begin, size, line, file: words.decimal()? })
    }

    /// Whether an address is in its range.
    pub fn has(&self, address: u64) -> bool {
        address.checked_sub(self.begin).map_or(false, |past| past < self.size)
    }
}

impl<'t> InlineRecord<'t> {
    pub fn parse(line: &'t [u8]) -> Option<Self> {
        let mut words = Words(line.strip_prefix(b"INLINE ")?);
        let level = words.decimal()?;
        let call_line = u32::try_from(words.decimal()?).ok()?;
        Some(InlineRecord { level, call_line, call_file: words.decimal()?, origin: words.decimal()?, ranges: words })
    }

    /// Its ranges of addresses, up to one that can't be read.
    pub fn ranges(&self) -> impl Iterator<Item = Range<u64>> + 't {
        let mut words = self.ranges;
        std::iter::from_fn(move || {
            let (begin, size) = (words.hexadecimal()?, words.hexadecimal()?);
            Some(begin..end(begin, size)?)
        })
    }

    /// Whether an address is in one of its ranges.
    pub fn has(&self, address: u64) -> bool {
        self.ranges().any(|range| range.contains(&address))
    }
}

impl<'t> NumberedRecord<'t> {
    pub fn file(line: &'t [u8]) -> Option<Self> {
        NumberedRecord::parse(Words(line.strip_prefix(b"FILE ")?))
    }

    pub fn origin(line: &'t [u8]) -> Option<Self> {
        NumberedRecord::parse(Words(line.strip_prefix(b"INLINE_ORIGIN ")?))
    }

    fn parse(mut words: Words<'t>) -> Option<Self> {
        let number = words.decimal()?;
        Some(NumberedRecord { number, name: words.rest() })
    }
}

impl<'t> FrameRecord<'t> {
    pub fn parse(line: &'t [u8]) -> Option<Self> {
        let mut words = Words(line.strip_prefix(b"STACK CFI INIT ")?);
        let (begin, size) = (words.hexadecimal()?, words.hexadecimal()?);
        end(begin, size)?;
        Some(FrameRecord { begin, size, rules: words.rest() })
    }
}

impl<'t> FrameRowRecord<'t> {
    pub fn parse(line: &'t [u8]) -> Option<Self> {
        let mut words = Words(line.strip_prefix(b"STACK CFI ")?);
        let address = words.hexadecimal()?;
        Some(FrameRowRecord { address, rules: words.rest() })
    }
}

#[cfg(test)]
mod tests {
    use super::*;

    #[test]
    fn records_of_breakpads_page_are_read() {
        let function =
            FunctionRecord::parse(b"FUNC m c184 30 0 nsQueryInterface::operator()(nsID const&) const").unwrap();
        assert_eq!((function.begin, function.size), (0xc184, 0x30));
        assert_eq!(function.name, b"nsQueryInterface::operator()(nsID const&) const");
        let public = PublicRecord::parse(b"PUBLIC 2160 0 Public2_1").unwrap();
        assert_eq!(public, PublicRecord { address: 0x2160, name: b"Public2_1" });
        let line = LineRecord::parse(b"c184 7 59 4").unwrap();
        assert_eq!(line, LineRecord { begin: 0xc184, size: 7, line: 59, file: 4 });
        let inline = InlineRecord::parse(b"INLINE 0 10 3 4 d30 2a fa1 b").unwrap();
        assert_eq!((inline.level, inline.call_line, inline.call_file, inline.origin), (0, 10, 3, 4));
        assert_eq!(inline.ranges().collect::<Vec<_>>(), [0xd30..0xd5a, 0xfa1..0xfac]);
        let file = NumberedRecord::file(b"FILE 2 /home/jimb/mc/in/browser/app/nsBrowserApp.cpp").unwrap();
        assert_eq!((file.number, file.name), (2, &b"/home/jimb/mc/in/browser/app/nsBrowserApp.cpp"[..]));
        let frame = FrameRecord::parse(b"STACK CFI INIT 804c4b0 40 .cfa: $esp 4 + $eip: .cfa 4 - ^").unwrap();
        assert_eq!((frame.begin, frame.size), (0x804_c4b0, 0x40));
        assert_eq!(frame.rules, b".cfa: $esp 4 + $eip: .cfa 4 - ^");
    }

    #[test]
    fn negative_and_endless_sizes_are_no_records() {
        assert_eq!(FunctionRecord::parse(b"FUNC 1000 -5 0 f"), None);
        assert_eq!(FunctionRecord::parse(b"FUNC 1000 0 0 f"), None);
        assert_eq!(FunctionRecord::parse(b"FUNC ffffffffffffffff 2 0 f"), None);
        assert_eq!(FunctionRecord::parse(b"FUNC 10000000000000000 2 0 f"), None);
        assert_eq!(LineRecord::parse(b"1000 5 4294967296 0"), None);
        assert_eq!(LineRecord::parse(b"1000 5 -1 0"), None);
        assert_eq!(InlineRecord::parse(b"INLINE -1 1 1 1 1000 5").map(|inline| inline.level), None);
        let ranges = |line: &'static [u8]| InlineRecord::parse(line).unwrap().ranges().count();
        assert_eq!(ranges(b"INLINE 0 1 1 1 1000 5 2000 -1 3000 5"), 1);
        assert_eq!(ranges(b"INLINE 0 1 1 1"), 0);
    }

    #[test]
    fn lines_may_end_as_on_windows_and_a_last_one_without_an_end_is_left_out() {
        let lines: Vec<_> = Lines::from(b"a b\r\nc\n\nd", 0).collect();
        assert_eq!(lines, [(0, &b"a b"[..]), (5, b"c"), (7, b"")]);
        assert_eq!(Lines::from(b"a\n", 7).count(), 0);
    }
}
