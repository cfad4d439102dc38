//! Writes the records of a symbol file.

use crate::architecture::Architecture;
use crate::expression::{Expression, Variable};
use crate::identity::Identity;
use std::io::{self, Write};
use std::ops::Range;

/// Writes records. Names may have anything but control characters, which are left out.
pub struct Writer<W> {
    out: W,
    architecture: Architecture,
}

/// A function that is inlined in another one.
#[derive(Clone, Debug, PartialEq, Eq)]
pub struct Inline {
    /// In how many inlined functions it is.
    pub level: usize,
    /// The number of the line that calls it, 0 if it isn't known.
    pub call_line: u32,
    /// The number of the file of this line.
    pub call_file: usize,
    /// The number of its name.
    pub origin: usize,
    /// Its addresses.
    pub ranges: Vec<Range<u64>>,
}

impl<W: Write> Writer<W> {
    /// Writes to `out` for a machine.
    pub fn new(out: W, architecture: Architecture) -> Self {
        Writer { out, architecture }
    }

    /// Where it writes to.
    pub fn into_inner(self) -> W {
        self.out
    }

    /// Writes `MODULE`, which has to be first, and `INFO CODE_ID` if there is a build id.
    ///
    /// # Errors
    ///
    /// Those of the writer; so for all records.
    pub fn module(&mut self, identity: &Identity<'_>, build_id: Option<&[u8]>) -> io::Result<()> {
        let Identity { system, machine, id, name } = identity;
        write!(self.out, "MODULE {} {} {} ", system, machine, id)?;
        self.name(name)?;
        match build_id {
            Some(id) => {
                let digits: String = id.iter().map(|byte| format!("{:02X}", byte)).collect();
                writeln!(self.out, "INFO CODE_ID {}", digits)
            }
            None => Ok(()),
        }
    }

    /// Writes `FILE`.
    ///
    /// # Errors
    ///
    /// Those of the writer.
    pub fn file(&mut self, number: usize, path: &str) -> io::Result<()> {
        write!(self.out, "FILE {} ", number)?;
        self.name(path)
    }

    /// Writes `INLINE_ORIGIN`.
    ///
    /// # Errors
    ///
    /// Those of the writer.
    pub fn origin(&mut self, number: usize, name: &str) -> io::Result<()> {
        write!(self.out, "INLINE_ORIGIN {} ", number)?;
        self.name(name)
    }

    /// Writes `FUNC`. `has_other_names` says that the code has several names.
    ///
    /// # Errors
    ///
    /// Those of the writer.
    pub fn function(&mut self, range: &Range<u64>, name: &str, has_other_names: bool) -> io::Result<()> {
        let flag = if has_other_names { "m " } else { "" };
        write!(self.out, "FUNC {}{:x} {:x} 0 ", flag, range.start, range.end - range.start)?;
        self.name(name)
    }

    /// Writes `INLINE`, which belongs to the function before it.
    ///
    /// # Errors
    ///
    /// Those of the writer.
    pub fn inline(&mut self, inline: &Inline) -> io::Result<()> {
        let Inline { level, call_line, call_file, origin, ranges } = inline;
        write!(self.out, "INLINE {} {} {} {}", level, call_line, call_file, origin)?;
        ranges.iter().try_for_each(|range| write!(self.out, " {:x} {:x}", range.start, range.end - range.start))?;
        writeln!(self.out)
    }

    /// Writes a line of a source file, which belongs to the function before it.
    ///
    /// # Errors
    ///
    /// Those of the writer.
    pub fn line(&mut self, range: &Range<u64>, line: u32, file: usize) -> io::Result<()> {
        writeln!(self.out, "{:x} {:x} {} {}", range.start, range.end - range.start, line, file)
    }

    /// Writes `PUBLIC`.
    ///
    /// # Errors
    ///
    /// Those of the writer.
    pub fn public(&mut self, address: u64, name: &str, has_other_names: bool) -> io::Result<()> {
        write!(self.out, "PUBLIC {}{:x} 0 ", if has_other_names { "m " } else { "" }, address)?;
        self.name(name)
    }

    /// Writes `STACK CFI INIT`: the range of addresses of a frame, and the rules of its first row.
    ///
    /// # Errors
    ///
    /// Those of the writer.
    pub fn frame<'r>(
        &mut self,
        range: &Range<u64>,
        rules: impl IntoIterator<Item = &'r (Variable, Expression)>,
    ) -> io::Result<()> {
        write!(self.out, "STACK CFI INIT {:x} {:x}", range.start, range.end - range.start)?;
        self.rules(rules)
    }

    /// Writes `STACK CFI`: the first address of a row, and the rules that are other ones than in the row before.
    ///
    /// # Errors
    ///
    /// Those of the writer.
    pub fn row<'r>(
        &mut self,
        address: u64,
        rules: impl IntoIterator<Item = &'r (Variable, Expression)>,
    ) -> io::Result<()> {
        write!(self.out, "STACK CFI {:x}", address)?;
        self.rules(rules)
    }

    fn rules<'r>(&mut self, rules: impl IntoIterator<Item = &'r (Variable, Expression)>) -> io::Result<()> {
        let machine = self.architecture;
        for (variable, expression) in rules {
            write!(self.out, " {}: {}", variable.text(machine), expression.text(machine))?;
        }
        writeln!(self.out)
    }

    fn name(&mut self, name: &str) -> io::Result<()> {
        if name.contains(char::is_control) {
            let shown: String = name.chars().filter(|c| !c.is_control()).collect();
            return writeln!(self.out, "{}", shown);
        }
        writeln!(self.out, "{}", name)
    }
}

#[cfg(test)]
mod tests {
    use super::*;
    use crate::symbol_file::SymbolFile;

    #[test]
    fn what_is_written_is_read() {
        let mut writer = Writer::new(Vec::new(), Architecture::X86_64);
        let (system, machine, id, name) = ("Linux".into(), "x86_64".into(), "00".into(), "a\nb".into());
        writer.module(&Identity { system, machine, id, name }, Some(&[0xab])).unwrap();
        writer.file(0, "a.c").unwrap();
        writer.origin(3, "inner").unwrap();
        writer.function(&(0x10..0x20), "f", true).unwrap();
        writer
            .inline(&Inline { level: 0, call_line: 4, call_file: 0, origin: 3, ranges: vec![0x12..0x14, 0x18..0x19] })
            .unwrap();
        writer.line(&(0x10..0x20), 9, 0).unwrap();
        writer.public(0x30, "g\r\nFUNC 0 100 0 h", false).unwrap();
        let rule = |text| Expression::parse(text, Architecture::X86_64).unwrap();
        writer.frame(&(0x10..0x20), &[(Variable::Cfa, rule("$rsp 8 +"))]).unwrap();
        writer.row(0x11, &[(Variable::Cfa, rule("$rsp 16 +"))]).unwrap();
        let text = writer.into_inner();
        let symbols = SymbolFile::read(&text).unwrap();
        assert_eq!((symbols.identity().name.as_ref(), symbols.code_id()), ("ab", Some("AB")));
        let found = symbols.position(0x13).unwrap();
        assert_eq!((found.name.as_ref(), found.inlined[0].name.as_deref()), ("f", Some("inner")));
        assert_eq!(symbols.position(0x31).unwrap().name, "gFUNC 0 100 0 h");
        assert_eq!(symbols.row(0x11).unwrap().begin, 0x11);
        assert_eq!(symbols.index().unread_lines(), 0);
    }
}
