//! Walks and names by symbol files, in modules whose ELF files aren't there.

use super::{Frame, Inlined, NameOptions, Position, SourceLine, Stacks};
use crate::process::symbol_store::{SymbolFiles, SymbolModule};
use crate::process::without_row::View;
use dwcheck::Registers;
use dwcheck_symbols::{Call, Variable};
use std::borrow::Cow;

/// The functions to which signal handlers return: of the C library, and of the vDSOs of i386 and aarch64.
const SIGNAL_RETURNS: [&str; 4] = ["__restore_rt", "__restore", "__kernel_rt_sigreturn", "__kernel_sigreturn"];

/// The caller of a frame, by a row of a symbol file.
pub(super) struct SymbolCaller {
    /// The CFA, if it is known.
    pub cfa: Option<u64>,
    /// The return address, if it is known. 0 if the frame is the outermost one.
    pub return_address: Option<u64>,
    /// What is known of the caller's registers.
    pub registers: Registers,
    /// Whether the frame is that of code to which a signal handler returns.
    pub is_signal_frame: bool,
}

/// A frame whose rules are evaluated.
struct Evaluated<'w, 'a> {
    stacks: &'w Stacks<'a>,
    registers: &'w Registers,
    cfa: Option<u64>,
}

impl dwcheck_symbols::Frame for Evaluated<'_, '_> {
    fn variable(&self, variable: Variable) -> Option<u64> {
        match variable {
            Variable::Cfa => self.cfa,
            Variable::ReturnAddress => None,
            Variable::Register(number) => self.registers.get(number),
        }
    }

    fn word(&self, address: u64) -> Option<u64> {
        let target = self.stacks.target();
        let mut bytes = [0; 8];
        let word = bytes.get_mut(..usize::from(target.address_size.bytes()))?;
        (self.stacks.read(address, word) == word.len()).then(|| target.number(word))
    }

    fn highest_address(&self) -> u64 {
        self.stacks.target().address_size.highest()
    }
}

impl<'a> Stacks<'a> {
    /// Uses symbol files for the modules whose ELF files aren't there.
    pub fn use_symbols(&mut self, files: &'a SymbolFiles) {
        self.symbols = files.modules();
        let symbols = &self.symbols;
        // Such a module isn't missed.
        self.unread.retain(|(path, _)| symbols.iter().all(|module| module.path != path));
        self.unread.extend(files.problems().iter().cloned());
    }

    /// The number of the module with a symbol file that has an address.
    pub(super) fn symbol_module_at(&self, address: u64) -> Option<usize> {
        let next = self.symbols.partition_point(|module| module.begin <= address);
        next.checked_sub(1).filter(|last| address < self.symbols[*last].end)
    }

    fn symbols_at(&self, address: u64) -> Option<&SymbolModule<'a>> {
        self.symbols.get(self.symbol_module_at(address)?)
    }

    /// Whether a symbol file has a row for an address.
    pub(super) fn has_symbol_row(&self, address: u64) -> bool {
        self.symbols_at(address).map_or(false, |module| module.symbols.row(address - module.begin).is_some())
    }

    /// The caller of a frame, by the row of a symbol file. `None` if no symbol file has one.
    pub(super) fn symbol_caller(&self, frame: &Frame, registers: &Registers) -> Option<SymbolCaller> {
        let looked_up = frame.looked_up();
        let module = self.symbols_at(looked_up)?;
        let architecture = module.symbols.architecture()?;
        let abi = architecture.abi();
        let row = module.symbols.row(looked_up - module.begin)?;
        let mut callee = Evaluated { stacks: self, registers, cfa: None };
        let mut caller = Registers::default();
        for number in abi.callee_saved {
            registers.get(*number).into_iter().for_each(|value| caller.set(*number, value));
        }
        let mut return_address = None;
        // The rule of the CFA comes first.
        for (variable, rule) in row.rules.expressions(architecture) {
            let value = rule.ok().and_then(|rule| rule.evaluate(&callee));
            match variable {
                Variable::Cfa => {
                    callee.cfa = value;
                    value.into_iter().for_each(|cfa| caller.set(abi.stack_pointer, cfa));
                }
                Variable::ReturnAddress => return_address = value,
                Variable::Register(number) => {
                    caller.remove(number);
                    value.into_iter().for_each(|value| caller.set(number, value));
                }
            }
        }
        return_address.into_iter().for_each(|address| caller.set(abi.program_counter, address));
        let name = module.symbols.position(frame.address.wrapping_sub(module.begin)).map(|position| position.name);
        let is_signal_frame = name.map_or(false, |name| SIGNAL_RETURNS.contains(&name.as_ref()));
        Some(SymbolCaller { cfa: callee.cfa, return_address, registers: caller, is_signal_frame })
    }

    /// Where an address is, by a symbol file.
    pub(super) fn symbol_position(&self, address: u64, looked_up: u64) -> Option<Position> {
        let module = self.symbols_at(looked_up)?;
        let relative = looked_up - module.begin;
        let mut position = Position {
            module: Some(module.path.to_path_buf()),
            build_id: Some(module.build_id.clone()),
            address_in_module: Some(address.wrapping_sub(module.begin)),
            ..Position::default()
        };
        if let Some(found) = module.symbols.position(relative) {
            position.offset = Some(address.wrapping_sub(module.begin).wrapping_sub(found.begin));
            position.function = Some(shown(found.name));
            position.set_inlined(found.inlined, found.line, self.name_options);
        }
        Some(position)
    }
}

impl Position {
    /// Sets the lines, and the inlined functions, of which `calls` has the outermost first. `line` is that of the
    /// innermost one.
    fn set_inlined(
        &mut self,
        calls: Vec<Call<'_>>,
        line: Option<dwcheck_symbols::SourceLine<'_>>,
        options: NameOptions,
    ) {
        let mut source = line.and_then(source_line);
        for call in calls.into_iter().rev() {
            let name = call.name.map_or_else(String::new, shown);
            let outer = source_line(call.call);
            let inlined = Inlined { name, source: std::mem::replace(&mut source, outer).filter(|_| options.source) };
            self.inlined.extend(Some(inlined).filter(|_| options.inlined));
        }
        self.source = source.filter(|_| options.source);
    }
}

fn source_line(line: dwcheck_symbols::SourceLine<'_>) -> Option<SourceLine> {
    let file = shown(line.file.filter(|file| !file.is_empty())?);
    Some(SourceLine { file, line: Some(line.line).filter(|line| *line > 0), column: None })
}

/// A name without control characters.
fn shown(name: Cow<'_, str>) -> String {
    match name.contains(char::is_control) {
        true => name.chars().filter(|c| !c.is_control()).collect(),
        false => name.into_owned(),
    }
}
