//! The variables that are in scope at an address, where they are, and their values.
//!
//! Expressions are rewritten as for a check of location lists ([`crate::debug::lists`]), and `dwcheck` evaluates
//! them. Entry values are taken from the caller's call site, if the debug information says that its target
//! is the function.

mod call_sites;
mod functions;
mod json;
mod location;
mod scopes;
mod split;
mod tail_calls;
mod text;
mod thread_local;
mod typed;
mod types;
mod value;
mod value_location;

pub(crate) use split::Called;
pub(crate) use tail_calls::CallSites;
pub use tail_calls::TailCall;
pub use text::Lines;
pub use thread_local::Loaded;
pub use value::{Shape, Value};
pub use value_location::{Machine, Missing, Pointee, ValueLocation};

use crate::debug::debug_info::{debug_section_bytes, open_dwarf, Package, Units};
use crate::elf::debug_files::DebugFiles;
use crate::elf::program::{Program, ProgramError};
use dwcheck::{Block, Registers};
use dwcheck_types::target::Target;
use functions::FunctionIndex;
use gimli::SectionId;
use location::Locator;
use scopes::{scopes_at, Scope};
use std::cell::RefCell;
use std::collections::HashMap;
use std::fmt;
use std::rc::Rc;

/// The sections that are needed.
const NEEDED: [SectionId; 13] = [
    SectionId::DebugAbbrev,
    SectionId::DebugAddr,
    SectionId::DebugInfo,
    SectionId::DebugLine,
    SectionId::DebugLineStr,
    SectionId::DebugLoc,
    SectionId::DebugLocLists,
    SectionId::DebugRanges,
    SectionId::DebugRngLists,
    SectionId::DebugStr,
    SectionId::DebugStrOffsets,
    SectionId::DebugTypes,
    SectionId::DebugAranges,
];

/// The debug information of a program, in which variables are looked up.
pub struct Variables<'a> {
    units: Units<'a>,
    functions: FunctionIndex,
    target: Target,
    /// The machine's number (`e_machine`).
    machine: u16,
    loc: &'a [u8],
    loclists: &'a [u8],
    files: &'a DebugFiles,
    /// The packages that may have the debug information of units that isn't here.
    packages: Vec<Rc<Package<'a>>>,
    /// What was opened of units whose debug information is in files of their own, by the units' indexes.
    splits: RefCell<HashMap<usize, Option<Rc<Variables<'a>>>>>,
}

/// What is known of a frame by unwinding.
#[derive(Clone, Debug)]
pub struct Step {
    /// Where the frame continues.
    pub address: u64,
    /// Whether `address` follows a call.
    pub is_after_call: bool,
    /// The registers that are known.
    pub registers: Registers,
    /// The canonical frame address (CFA), if it is known.
    pub cfa: Option<u64>,
}

/// A frame whose variables are looked up.
#[derive(Clone, Copy)]
pub struct Frame<'f> {
    /// The byte order and the address size.
    pub target: Target,
    /// What is added to addresses of the file to get those in the process.
    pub load: u64,
    /// The frame, then its callers as far as they are in the same file and known. Never empty.
    pub steps: &'f [Step],
    /// The memory that is known.
    pub memory: &'f [Block<'f>],
    /// The file, for variables of the thread. `None` if it isn't known.
    pub file: Option<Loaded<'f>>,
    /// The thread pointer (fs_base on x86-64), which is the same in all frames of a thread.
    pub thread_pointer: Option<u64>,
}

impl<'f> Frame<'f> {
    /// The frame that made the call.
    fn caller(&self) -> Option<Self> {
        let steps = self.steps.get(1..).filter(|steps| !steps.is_empty())?;
        Some(Frame { steps, ..*self })
    }

    /// Where the frame continues, as the address is in the file.
    fn address(&self) -> u64 {
        self.steps.first().map_or(0, |step| self.target.wrap(step.address.wrapping_sub(self.load)))
    }

    /// The address whose variables are in scope, as it is in the file: that of the call, if the frame made
    /// one.
    fn looked_up(&self) -> u64 {
        let is_after_call = self.steps.first().map_or(false, |step| step.is_after_call);
        self.address().wrapping_sub(u64::from(is_after_call))
    }

    fn cfa(&self) -> Option<u64> {
        self.steps.first()?.cfa
    }

    /// Where the thread's variables of the file are.
    fn thread_block(&self) -> Option<u64> {
        thread_local::thread_local_block(self.file.as_ref()?, self.thread_pointer?, &self.machine()?)
    }

    /// The registers and the memory.
    fn machine(&self) -> Option<Machine<'f>> {
        let registers = &self.steps.first()?.registers;
        Some(Machine { target: self.target, registers, memory: self.memory })
    }
}

/// A function with its variables that are in scope.
#[derive(Clone, Debug, PartialEq, Eq)]
pub struct Function {
    /// Its name. `None` if it has none.
    pub name: Option<String>,
    /// Where it is declared, such as `a.c:4`.
    pub source: Option<String>,
    /// Whether it is inlined into the function before it.
    pub is_inlined: bool,
    /// Its variables, those of inner blocks last.
    pub variables: Vec<Variable>,
}

/// A variable or a parameter.
#[derive(Clone, Debug, PartialEq, Eq)]
pub struct Variable {
    /// Its name. `None` if it has none.
    pub name: Option<String>,
    /// Whether it is a parameter.
    pub is_parameter: bool,
    /// The name of its type.
    pub type_name: String,
    /// Where it is.
    pub place: Result<ValueLocation, Missing>,
    /// Its value.
    pub value: Result<Value, Missing>,
}

/// Why the variables of a program can't be looked up.
#[derive(Clone, Debug, PartialEq, Eq)]
pub enum VariablesError {
    /// A section can't be read.
    Program(ProgramError),
    /// The headers of `.debug_info` can't be read.
    DebugInfo(String),
}

impl<'a> Variables<'a> {
    /// Opens the debug information of a program. `shared` is the file that its `.gnu_debugaltlink` names.
    /// `files` keeps what is decompressed, and files that have the debug information of single units.
    ///
    /// # Errors
    ///
    /// If a section or the header of a unit can't be read.
    pub fn read(
        program: &Program<'a>,
        shared: Option<&Program<'a>>,
        files: &'a DebugFiles,
    ) -> Result<Self, VariablesError> {
        let (fail, unpacked) = (VariablesError::Program, files.unpacked());
        let loc = debug_section_bytes(program, SectionId::DebugLoc, unpacked).map_err(fail)?.slice();
        let loclists = debug_section_bytes(program, SectionId::DebugLocLists, unpacked).map_err(fail)?.slice();
        let shared = shared.map(|shared| open_dwarf(shared, &NEEDED, unpacked)).transpose().map_err(fail)?;
        let units = Units::read(open_dwarf(program, &NEEDED, unpacked).map_err(fail)?, shared);
        let units = units.map_err(|error| VariablesError::DebugInfo(error.to_string()))?;
        let functions = FunctionIndex::of(&units);
        let (target, machine) = (program.target(), program.machine());
        let (packages, splits) = (Vec::new(), RefCell::default());
        Ok(Variables { units, functions, target, machine, loc, loclists, files, packages, splits })
    }

    /// The functions at the address of a frame with their variables, the outermost first: the function, then
    /// those that are inlined there. Empty if the debug information has no function there.
    pub fn at(&self, frame: &Frame<'_>, shape: Shape) -> Vec<Function> {
        let function = self.functions.function(&self.units, frame.looked_up());
        let (function, machine) = match (function, frame.machine()) {
            (Some(function), Some(machine)) => (function, machine),
            (None, Some(_)) => {
                let split = self.split_at(frame.looked_up());
                return split.map_or_else(Vec::new, |split| split.at(frame, shape));
            }
            _ => return Vec::new(),
        };
        let locator = Locator::new(self, function.clone(), *frame, machine);
        let scopes = scopes_at(function, frame.looked_up());
        scopes.iter().map(|scope| self.function(scope, &locator, shape)).collect()
    }

    /// The name of the file that should have the debug information of a frame's address (`-gsplit-dwarf`), but
    /// isn't there or can't be used.
    pub fn missing_file(&self, frame: &Frame<'_>) -> Option<String> {
        let name = self.functions.units_at(frame.looked_up()).find_map(|index| self.split_name(index));
        name.filter(|_| self.split_at(frame.looked_up()).is_none())
    }

    fn function<'v>(&self, scope: &Scope<'v, 'a>, locator: &Locator<'v, 'a>, shape: Shape) -> Function {
        let variables = scope.variables.iter().map(|variable| {
            let place = locator.locate_variable(&variable.die, variable.is_abstract);
            let kind = types::type_of(&variable.die);
            let value = place.clone().and_then(|place| locator.value_of_variable(kind.as_ref(), &place, shape));
            Variable {
                name: variable.die.name(),
                is_parameter: variable.is_parameter,
                type_name: types::type_name(kind),
                place,
                value,
            }
        });
        Function {
            name: scope.function.name(),
            source: scope.function.source(),
            is_inlined: scope.is_inlined,
            variables: variables.collect(),
        }
    }
}

impl fmt::Display for VariablesError {
    fn fmt(&self, f: &mut fmt::Formatter<'_>) -> fmt::Result {
        match self {
            VariablesError::Program(error) => error.fmt(f),
            VariablesError::DebugInfo(error) => write!(f, ".debug_info: {}", error),
        }
    }
}

impl std::error::Error for VariablesError {
    fn source(&self) -> Option<&(dyn std::error::Error + 'static)> {
        match self {
            VariablesError::Program(error) => Some(error),
            _ => None,
        }
    }
}

impl fmt::Debug for Variables<'_> {
    fn fmt(&self, f: &mut fmt::Formatter<'_>) -> fmt::Result {
        f.debug_struct("Variables").field("units", &self.units.headers.len()).finish_non_exhaustive()
    }
}
