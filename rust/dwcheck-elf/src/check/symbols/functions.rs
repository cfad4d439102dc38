//! Writes the functions of debug information as `FUNC`, with their lines, and other names of code as `PUBLIC`.

use super::{SymbolCounts, SymbolSource};
use crate::debug::inlined::{LineRange, UnitFunction, UnitSource, WholeUnit, WholeUnits};
use crate::elf::covered::Covered;
use crate::elf::demangle::{raw_name, shown_name, without_version};
use crate::elf::escaped::Escaped;
use crate::elf::functions::Functions;
use dwcheck_symbols::{Inline, Writer};
use rustc_hash::FxHashMap;
use std::io::{self, Write};
use std::ops::Range;

/// Writes functions to `body`, and the names that they use to `head`.
pub(super) struct FunctionWriter<'w, H, B> {
    source: &'w SymbolSource<'w, 'w>,
    functions: &'w Functions<'w>,
    head: Writer<H>,
    body: Writer<B>,
    /// The address to which addresses are relative.
    image: u64,
    /// The addresses of the program's code.
    code: Covered,
    /// The addresses of the functions that were written.
    written: Covered,
    /// The numbers of the paths of source files, and of the names of inlined functions.
    files: FxHashMap<String, usize>,
    origins: FxHashMap<String, usize>,
}

/// The files that have the functions of single units, and aren't there.
#[derive(Default)]
struct Missing {
    count: usize,
    /// The name of the first one.
    first: Option<String>,
}

impl Missing {
    fn add(&mut self, name: Option<&str>) {
        self.count += usize::from(name.is_some());
        self.first = self.first.take().or_else(|| name.map(str::to_string));
    }

    /// What is said of them.
    fn problem(&self) -> Option<String> {
        let first = Escaped(self.first.as_deref()?);
        Some(match self.count {
            1 => format!(".debug_info: the functions of a unit are in another file, {}, which isn't there", first),
            count => {
                format!(
                    ".debug_info: the functions of {} units are in other files, such as {}, which aren't there",
                    count, first
                )
            }
        })
    }
}

/// What a name is written as if it isn't known.
const NAMELESS: &str = "<name omitted>";

impl<'w, H: Write, B: Write> FunctionWriter<'w, H, B> {
    /// Writes the functions of a program.
    pub fn new(
        source: &'w SymbolSource<'w, 'w>,
        functions: &'w Functions<'w>,
        head: Writer<H>,
        body: Writer<B>,
    ) -> Self {
        let mut code = Covered::default();
        source.program.code_sections().iter().for_each(|(_, range)| code.insert(range.start, range.end));
        FunctionWriter {
            source,
            functions,
            head,
            body,
            image: source.program.image_address(),
            code,
            written: Covered::default(),
            files: FxHashMap::default(),
            origins: FxHashMap::default(),
        }
    }

    /// Writes the functions of all units.
    pub fn write_units(&mut self, counts: &mut SymbolCounts) -> io::Result<()> {
        let SymbolSource { program, path, bytes, separate, shared, files, .. } = self.source;
        // A package may be named after the program or after its separate file.
        let whole = path.canonicalize().unwrap_or_else(|_| path.to_path_buf());
        let mut source = UnitSource { program, paths: vec![&whole], shared: *shared, files, mapped: vec![bytes] };
        if let Some(separate) = separate.as_ref().filter(|_| !program.has_section(".debug_info")) {
            source.program = separate.program;
            source.paths.push(separate.path);
            source.mapped.push(separate.bytes);
        }
        let units = match WholeUnits::read(source) {
            Some(units) => units,
            None => return Ok(()),
        };
        let mut missing = Missing::default();
        let unread = units.each(|unit| {
            missing.add(unit.missing.as_deref());
            self.write_unit(&unit, counts)
        })?;
        if unread > 0 {
            counts.unused.push(format!(".debug_info: {} units can't be read", unread));
        }
        counts.unused.extend(missing.problem());
        Ok(())
    }

    fn write_unit(&mut self, unit: &WholeUnit, counts: &mut SymbolCounts) -> io::Result<()> {
        for function in &unit.functions {
            for range in &function.ranges {
                // A function that the linker dropped has no code; one that several units have has it once.
                if self.code.has_all(range.start, range.end) && !self.written.meets(range.start, range.end) {
                    self.written.insert(range.start, range.end);
                    self.write_part(unit, function, range, counts)?;
                }
            }
        }
        Ok(())
    }

    /// Writes a part of a function whose addresses follow one another.
    fn write_part(
        &mut self,
        unit: &WholeUnit,
        function: &UnitFunction,
        range: &Range<u64>,
        counts: &mut SymbolCounts,
    ) -> io::Result<()> {
        let name = self.name_of_symbol(range.start).or_else(|| Some(self.shown(function.name.as_ref()?)));
        let name = name.unwrap_or_else(|| NAMELESS.to_string());
        self.body.function(&self.relative(range), &name, false)?;
        counts.functions += 1;
        for call in &function.inlined {
            let inside = call.ranges.iter().filter_map(|one| common_part(one, range));
            let ranges: Vec<_> = inside.map(|one| self.relative(&one)).collect();
            if ranges.is_empty() {
                continue;
            }
            let (level, call_line) = (call.level, call.call_line);
            let call_file = call.call_file.map_or(Ok(0), |file| self.file(unit, file))?;
            let origin = self.origin(call.name.as_deref());
            self.body.inline(&Inline { level, call_line, call_file, origin, ranges })?;
            counts.inlined += 1;
        }
        let first = unit.lines.partition_point(|line| line.range.end <= range.start);
        let lines = unit.lines[first..].iter().take_while(|line| line.range.start < range.end);
        for LineRange { range: addresses, file, line } in lines {
            if let Some(part) = common_part(addresses, range) {
                let file = self.file(unit, *file)?;
                self.body.line(&self.relative(&part), *line, file)?;
                counts.lines += 1;
            }
        }
        Ok(())
    }

    /// Writes the names of code that no function has.
    pub fn write_publics(&mut self, counts: &mut SymbolCounts) -> io::Result<()> {
        let mut rest = self.functions.all();
        while let Some(first) = rest.first() {
            let count = rest.iter().take_while(|other| other.begin == first.begin).count();
            let (named, others) = rest.split_at(count);
            rest = others;
            let is_in_code = self.code.has_all(first.begin, first.begin.saturating_add(1));
            if !is_in_code || self.written.meets(first.begin, first.begin.saturating_add(1)) {
                continue;
            }
            let name = self.name_of_symbol(first.begin).or_else(|| Some(self.shown(&named.last()?.name)));
            let address = first.begin.wrapping_sub(self.image);
            let has_other_names = named.iter().any(|other| other.name != first.name);
            self.body.public(address, &name.unwrap_or_default(), has_other_names)?;
            counts.publics += 1;
        }
        Ok(())
    }

    /// Writes what the functions used, and returns where the rest of the file is written to.
    pub fn finish(mut self) -> io::Result<H> {
        let mut origins: Vec<_> = self.origins.iter().collect();
        origins.sort_by_key(|(_, number)| **number);
        origins.iter().try_for_each(|(name, number)| self.head.origin(**number, name))?;
        self.body.into_inner().flush()?;
        Ok(self.head.into_inner())
    }

    /// The name of the symbol that begins at an address.
    fn name_of_symbol(&self, address: u64) -> Option<String> {
        let (function, past) = self.functions.at(address)?;
        (past == 0).then(|| self.shown(&function.name))
    }

    fn shown(&self, name: &str) -> String {
        let name = without_version(name);
        if self.source.raw_names {
            raw_name(name)
        } else {
            shown_name(name)
        }
    }

    fn relative(&self, range: &Range<u64>) -> Range<u64> {
        range.start.wrapping_sub(self.image)..range.end.wrapping_sub(self.image)
    }

    /// The number of a source file of a unit, whose record is written when it is first needed.
    fn file(&mut self, unit: &WholeUnit, file: u64) -> io::Result<usize> {
        let path = unit.files.get(&file).and_then(Option::as_deref).unwrap_or("");
        if let Some(number) = self.files.get(path) {
            return Ok(*number);
        }
        let number = self.files.len();
        self.files.insert(path.to_string(), number);
        self.head.file(number, path)?;
        Ok(number)
    }

    fn origin(&mut self, name: Option<&str>) -> usize {
        let next = self.origins.len();
        let name = name.map_or_else(|| NAMELESS.to_string(), |name| self.shown(name));
        *self.origins.entry(name).or_insert(next)
    }
}

/// The addresses that two ranges have in common, if there are any.
fn common_part(one: &Range<u64>, other: &Range<u64>) -> Option<Range<u64>> {
    let common = one.start.max(other.start)..one.end.min(other.end);
    (common.start < common.end).then_some(common)
}
