//! The variables of units whose debug information is in files of their own (`-gsplit-dwarf`).

use super::functions::FunctionIndex;
use super::scopes::{scopes_at, Scope};
use super::{Variables, NEEDED};
use crate::debug::debug_info::{file_path, Package, SplitFile};
use crate::debug::lines::SourceLine;
use crate::elf::mapped::Bytes;
use crate::elf::program::Program;
use gimli::AttributeValue;
use std::cell::RefCell;
use std::path::{Path, PathBuf};
use std::rc::Rc;

/// The file with the debug information of a unit isn't there, or isn't the unit's. It has this name.
#[derive(Clone, Debug, PartialEq, Eq)]
pub(crate) struct MissingFile(pub String);

/// A function at an address.
#[derive(Clone, Debug, PartialEq, Eq)]
pub(crate) struct Called {
    /// Its name as linkers see it, or else as in the source code. `None` if it has none.
    pub name: Option<String>,
    /// If it is inlined, the line that calls it.
    pub call: Option<SourceLine>,
}

impl<'a> Variables<'a> {
    /// The functions at an address, the outermost first, if the debug information of the unit there is in a file of
    /// its own: the function, then those that are inlined there. `None` if the unit has no function there, or isn't
    /// such a one.
    ///
    /// # Errors
    ///
    /// If the file isn't there or isn't the unit's.
    pub(crate) fn split_functions(&self, address: u64) -> Result<Option<Vec<Called>>, MissingFile> {
        let named = self.functions.units_at(address).find_map(|index| Some((index, self.split_name(index)?)));
        let (index, name) = match named {
            Some(named) => named,
            None => return Ok(None),
        };
        let split = self.split_at(address).ok_or(MissingFile(name))?;
        let function = split.functions.function(&split.units, address);
        let called =
            |scope: &Scope<'_, 'a>| Called { name: split.linked_name(scope), call: self.call_line(index, scope) };
        Ok(function.map(|function| scopes_at(function, address).iter().map(called).collect()))
    }

    fn linked_name(&self, scope: &Scope<'_, 'a>) -> Option<String> {
        let linked = scope.function.inherited(gimli::DW_AT_linkage_name);
        linked.and_then(|(die, name)| die.string(name)).or_else(|| scope.function.name())
    }

    /// The line that calls an inlined function. The program has the table of lines to which its entry refers, with
    /// the unit that has this index.
    fn call_line(&self, index: usize, scope: &Scope<'_, 'a>) -> Option<SourceLine> {
        let number = |name| scope.function.attribute(name)?.udata_value();
        let file = match scope.function.attribute(gimli::DW_AT_call_file)? {
            AttributeValue::FileIndex(file) => file,
            _ => return None,
        };
        let file = file_path(&self.units.dwarf, &*self.units.unit(index).ok()?, file)?;
        let line = |name| number(name).and_then(|line| u32::try_from(line).ok());
        let column = line(gimli::DW_AT_call_column).filter(|column| *column > 0);
        Some(SourceLine { file, line: line(gimli::DW_AT_call_line), column })
    }

    /// Says where the file of the program is, next to which a package may be that has the rest of its units.
    pub fn look_for_packages(&mut self, path: &Path, program: &Program<'_>) {
        let files = self.files;
        let found = files.packages(path, program).into_iter();
        let read = |(path, bytes): (PathBuf, &'a Bytes)| Package::read(path, bytes, files.unpacked());
        self.packages.extend(found.filter_map(read).map(Rc::new));
    }

    /// What a file of its own has of the unit with an address of code. `None` if the unit has no such file, or
    /// if the file isn't there or isn't the unit's.
    pub(super) fn split_at(&self, address: u64) -> Option<Rc<Variables<'a>>> {
        let index = self.functions.units_at(address).find(|index| self.split_name(*index).is_some())?;
        if let Some(opened) = self.splits.borrow().get(&index) {
            return opened.clone();
        }
        let opened = self.open_split(index).map(Rc::new);
        self.splits.borrow_mut().insert(index, opened.clone());
        opened
    }

    /// The name of the file that has the rest of a unit, by the unit's index.
    pub(super) fn split_name(&self, index: usize) -> Option<String> {
        self.units.root(index)?.skeleton().file_name()
    }

    fn open_split(&self, index: usize) -> Option<Variables<'a>> {
        let split = SplitFile::open(&self.units.root(index)?.skeleton(), self.files, &self.packages)?;
        let (units, loclists) = (split.units(&NEEDED)?, split.loclists().ok()?);
        let functions = FunctionIndex::of_split(self.functions.ranges_of(index));
        let (target, machine, files) = (self.target, self.machine, self.files);
        let (packages, splits) = (Vec::new(), RefCell::default());
        Some(Variables { units, functions, target, machine, loc: &[], loclists, files, packages, splits })
    }
}
