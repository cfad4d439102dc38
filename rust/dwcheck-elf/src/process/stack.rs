//! Unwinds the stacks of the threads of a core file.
//!
//! A row is used for an address only if the address is in an executable mapping of the very file
//! and offset that the row describes. Each FDE is checked when a frame needs it, so that what is
//! refused costs that FDE alone. A frame that no row is found for may have a caller that is found by
//! another rule; such a caller is a guess, and marked with the rule ([`FoundBy`]).

mod abort;
mod both_ends;
pub(crate) mod frame_names;
mod in_place;
mod instruction;
mod json;
mod listed;
mod lost;
mod overflow;
mod per_file;
mod symbols;
mod tables;
mod tail_calls;
mod text;
mod variables;
mod view;
mod walker;

pub use crate::debug::lines::SourceLine;
pub use crate::process::without_row::FoundBy;
pub(crate) use frame_names::Names;
pub use frame_names::{Inlined, NameOptions, Position};
pub use instruction::Instruction;
pub use listed::Listed;
pub use text::Lines;

use crate::debug::variables::{Shape, TailCall, Variables};
use crate::elf::mapped::Bytes;
use crate::process::core_file::{CoreFile, Files, Memory, Module, Thread};
use crate::process::symbol_store::SymbolModule;
use crate::process::without_row::Growth;
use both_ends::Walked;
use dwcheck::{Block, Registers};
use lost::Lost;
use std::cell::{Cell, RefCell};
use std::collections::{BTreeMap, BTreeSet, HashMap};
use std::fmt;
use std::path::{Path, PathBuf};
use tables::Tables;
use walker::Walker;

/// A sensible limit for [`Stacks::walk`]. A stack with more frames is most likely corrupt, or in a
/// loop.
pub const MOST_FRAMES: usize = 10_000;

/// After how many walks the pages of the file with the stacks are given back. To do it after each would take the kernel
/// longer than the walks, since it looks at all that was ever read of the file.
const WALKS: usize = 32;

/// A process that died: its memory and its modules.
///
/// ```no_run
/// use dwcheck_elf::core_file::{CoreFile, Files};
/// use dwcheck_elf::stack::Stacks;
///
/// let bytes = std::fs::read("core")?;
/// let core = CoreFile::read(&bytes)?;
/// let files = Files::read(&core, "/".as_ref());
/// let stacks = Stacks::of(&core, &files);
/// for thread in core.threads() {
///     print!("{}", stacks.walk(thread, Default::default())?);
/// }
/// # Ok::<(), Box<dyn std::error::Error>>(())
/// ```
pub struct Stacks<'a> {
    core: &'a CoreFile<'a>,
    memory: Memory<'a>,
    /// The file that has the memory of threads, if its pages are given back.
    mapped: Option<Bytes>,
    /// How many stacks were walked.
    walked: Cell<usize>,
    /// All blocks of the memory, after a place for the stack of the thread that is walked: the first block that has an
    /// address is the one that is found fastest.
    blocks: RefCell<Vec<Block<'a>>>,
    /// The modules that a minidump lists, and whose files aren't known.
    lost: Vec<Lost>,
    /// The modules whose files aren't there, and whose symbol files are, by their addresses.
    symbols: Vec<SymbolModule<'a>>,
    /// The files that can't be read.
    unread: Vec<(PathBuf, String)>,
    files: &'a Files,
    tables: RefCell<Tables<'a>>,
    name_options: NameOptions,
    /// The names of each module that a stack passes, by its index.
    names: RefCell<HashMap<usize, Names<'a>>>,
    /// The debug information of each module of whose frames the variables were asked for, by its index.
    variables: RefCell<HashMap<usize, Option<Variables<'a>>>>,
    /// The functions that ended with a jump between a call and the function that it reached, by the module's index, the
    /// address after the call, and one in the function.
    tail_calls: RefCell<HashMap<(usize, u64, u64), Vec<TailCall>>>,
    /// The modules of which debug information is in files that aren't read, and what is said of one of these.
    split: RefCell<BTreeMap<PathBuf, String>>,
    /// The modules of which the debug information that they share with others isn't there.
    unshared: RefCell<BTreeMap<PathBuf, String>>,
    /// How much of variables texts and JSON show. `None` if they show none.
    shape: Option<Shape>,
    /// Whether texts and JSON show the registers of frames that have them.
    shows_registers: bool,
    /// Whether texts show where in their modules frames are.
    shows_modules: bool,
}

/// How to walk.
#[derive(Clone, Copy, Debug, PartialEq, Eq)]
pub struct WalkOptions {
    /// The most frames of a thread.
    pub limit: usize,
    /// Whether to leave out frames that are guesses: those that are found by another rule than a row.
    pub is_strict: bool,
    /// Whether to look on the stack for a return address where no other rule finds a caller.
    pub scans: bool,
    /// Whether to store the registers of each frame.
    pub keeps_registers: bool,
    /// Whether to add the frames of functions that ended with a jump, where call sites of the debug information prove
    /// them. They come beside those up to the limit.
    pub finds_tail_calls: bool,
    /// How many of the outermost frames a stack has beside those up to the limit. If it is 0, the walk ends at the
    /// limit. Else it goes on, to at most 1,048,576 frames.
    pub outermost: usize,
}

/// The frames that are left out between the innermost and the outermost ones.
#[derive(Clone, Copy, Debug, PartialEq, Eq)]
pub struct LeftOut {
    /// How many frames come before them.
    pub after: usize,
    /// How many they are.
    pub count: usize,
}

/// A frame of a stack.
#[derive(Clone, Debug, PartialEq, Eq)]
pub struct Frame {
    /// Where the frame continues: the instruction pointer of a thread, or a return address.
    pub address: u64,
    /// Whether `address` follows a call. It doesn't in the first frame, nor in a frame that a
    /// signal interrupted.
    pub is_after_call: bool,
    /// How the frame was found.
    pub found_by: FoundBy,
    /// Whether it is the frame in which the kernel called a signal handler, or Go's `runtime.sigpanic`,
    /// which its signal handler calls in the place of the interrupted code.
    pub is_signal_frame: bool,
    /// The canonical frame address (CFA): the stack pointer before the call of this frame. `None` if
    /// it isn't known.
    pub cfa: Option<u64>,
    /// The frame's registers, as far as they are known, by their DWARF numbers, ascending. Empty
    /// unless [`WalkOptions::keeps_registers`] is set.
    pub registers: Vec<(u16, u64)>,
}

/// Why a stack has no more frames.
#[derive(Clone, Copy, Debug, PartialEq, Eq, Hash)]
pub enum Stop {
    /// It has as many frames as the limit allows.
    Limit,
    /// No row covers the last frame, and no other rule finds its caller.
    NotCovered,
    /// The return address of the last frame is undefined: that is how tables mark the end.
    ReturnUndefined,
    /// The return address isn't known, because memory or a register isn't.
    ReturnUnreadable,
    /// The expression of the return address divides by zero.
    ReturnDivisionByZero,
    /// The return address is this one, where no code is.
    NotExecutable(u64),
    /// The return address is this one, in no module, and the minidump doesn't say whether code is there.
    NotKnown(u64),
    /// The CFA of the last frame isn't above that of the frame that it called.
    CfaNotGrowing,
    /// The caller of the last frame is one of the frames before, with the same CFA.
    Loop,
}

/// The frames of a thread. Its text has a line for the thread, a line for each frame, and a line
/// that says why there are no more frames.
#[derive(Debug)]
pub struct Stack<'s, 'a> {
    stacks: &'s Stacks<'a>,
    /// The thread's id.
    pub thread: u64,
    /// Its frames, the innermost first.
    pub frames: Vec<Frame>,
    /// Those that are left out of `frames`.
    pub left_out: Option<LeftOut>,
    /// Why there are no more frames.
    pub stop: Stop,
}

impl Stack<'_, '_> {
    /// A frame by its index in `frames`, and its callers, up to those that are left out.
    fn without_gap(&self, index: usize) -> &[Frame] {
        let gap = self.left_out.map(|left_out| left_out.after).filter(|after| index < *after);
        self.frames.get(index..gap.unwrap_or(self.frames.len())).unwrap_or(&[])
    }

    /// The number of a frame, by its index in `frames`: how many frames it called, one through another.
    pub fn number(&self, index: usize) -> usize {
        let before = self.left_out.filter(|left_out| index >= left_out.after);
        before.map_or(index, |left_out| index.saturating_add(left_out.count))
    }
}

/// Why a thread has no stack.
#[derive(Clone, Copy, Debug, PartialEq, Eq)]
pub enum StackError {
    /// The thread's registers have no instruction pointer.
    NoInstructionPointer,
    /// `dwcheck` returned an error.
    Dwcheck(dwcheck::Error),
}

impl Default for WalkOptions {
    fn default() -> Self {
        WalkOptions {
            limit: MOST_FRAMES,
            is_strict: false,
            scans: false,
            keeps_registers: false,
            finds_tail_calls: false,
            outermost: 0,
        }
    }
}

impl Frame {
    /// The frame that a thread is in.
    fn first(address: u64, found_by: FoundBy) -> Self {
        Frame { is_after_call: false, ..Frame::caller(address, found_by) }
    }

    /// A frame that made a call.
    fn caller(address: u64, found_by: FoundBy) -> Self {
        let registers = Vec::new();
        Frame { address, is_after_call: true, found_by, is_signal_frame: false, cfa: None, registers }
    }

    /// The address at which the frame's row is looked up.
    fn looked_up(&self) -> u64 {
        self.address.wrapping_sub(u64::from(self.is_after_call))
    }
}

impl<'a> Stacks<'a> {
    /// Finds the modules of a core file. Their unwind tables are read when a walk needs them.
    pub fn of(core: &'a CoreFile<'a>, files: &'a Files) -> Self {
        let missed = files.all().iter().filter(|file| file.is_missed());
        let unread = missed.filter_map(|file| Some((file.path.clone(), file.bytes.as_ref().err()?.to_string())));
        let memory = core.memory(files);
        let blocks = memory.blocks().map(|block| Block::new(block.address, block.bytes));
        Stacks {
            core,
            blocks: RefCell::new(std::iter::once(Block::new(0, &[])).chain(blocks).collect()),
            memory,
            mapped: None,
            walked: Cell::new(0),
            lost: Lost::of(core, files),
            symbols: Vec::new(),
            unread: unread.collect(),
            files,
            tables: RefCell::new(Tables::new(core.target(), core.modules(files))),
            name_options: NameOptions::default(),
            names: RefCell::default(),
            variables: RefCell::default(),
            tail_calls: RefCell::default(),
            split: RefCell::default(),
            unshared: RefCell::default(),
            shape: None,
            shows_registers: true,
            shows_modules: false,
        }
    }

    /// Says which names to show.
    pub fn show_names(&mut self, options: NameOptions) {
        self.name_options = options;
        self.names.get_mut().clear();
    }

    /// Says that the variables of frames are shown, and whether their registers are. Walks have to keep
    /// registers ([`WalkOptions::keeps_registers`]).
    pub fn show_variables(&mut self, shape: Shape, shows_registers: bool) {
        self.shape = Some(shape);
        self.shows_registers = shows_registers;
    }

    /// Says that texts show the addresses of frames as they are in the files of their modules.
    pub fn show_modules(&mut self) {
        self.shows_modules = true;
    }

    /// Adds the program of a core that doesn't list its mapped files, such as qemu's. Does nothing
    /// for any other core, whose modules are known: for these, see
    /// [`Files::use_program`](crate::process::core_file::Files::use_program).
    pub fn add_program(&mut self, path: &Path, bytes: &'a [u8]) {
        if !self.core.names_files() {
            if let Some(module) = self.core.program_module(path, bytes) {
                self.tables.get_mut().add(module);
            }
        }
    }

    /// Says which file the core or the minidump is. Its pages are given back now and then: nearly all of them are
    /// stacks, each of which is read for one thread alone.
    pub fn use_mapped(&mut self, file: &Bytes) {
        file.give_back(0..file.len());
        self.mapped = Some(file.clone());
    }

    /// Counts a walk, and gives back the pages of the core or the minidump after some.
    fn count_walk(&self) {
        let walked = self.walked.get() + 1;
        self.walked.set(walked);
        if let Some(file) = self.mapped.as_ref().filter(|_| walked % WALKS == 0) {
            file.give_back(0..file.len());
        }
    }

    /// The files that can't be read; after walks, the parts of their unwind tables that the walks
    /// needed but that can't be used; after frames were named, the files of debug information that
    /// can't be used; and, after variables were asked for, what has debug information that isn't read; each
    /// with the reason.
    pub fn missing(&self) -> Vec<(PathBuf, String)> {
        let (tables, names) = (self.tables.borrow(), self.names.borrow());
        let mut named: BTreeSet<_> = names.values().flat_map(|names| &names.problems).cloned().collect();
        named.extend(self.unshared.borrow().clone());
        let split = self.split.borrow().clone();
        self.unread.iter().chain(tables.problems()).cloned().chain(named).chain(split).collect()
    }

    /// Whether a file is a module of the process.
    pub fn has(&self, path: &Path) -> bool {
        self.tables.borrow().modules().iter().any(|module| module.path == path)
    }

    /// The frames of a thread.
    ///
    /// The row for a frame is looked up at the byte before the frame's address, where the call is.
    /// For the first frame and for the caller of a signal frame, it is looked up at the address
    /// itself, because that address doesn't follow a call.
    ///
    /// # Errors
    ///
    /// If the thread has no instruction pointer, or `dwcheck` gives an error.
    pub fn walk<'s>(&'s self, thread: &Thread, options: WalkOptions) -> Result<Stack<'s, 'a>, StackError> {
        self.count_walk();
        let abi = self.core.abi();
        let registers: Registers = thread.registers.iter().copied().collect();
        let address = thread.register(abi.program_counter).ok_or(StackError::NoInstructionPointer)?;
        let pointer = thread.register(abi.stack_pointer).unwrap_or(0);
        let mut blocks = self.blocks.borrow_mut();
        let begin = match (self.memory.from(pointer), blocks.first_mut()) {
            (Some(bytes), Some(first)) => {
                *first = Block::new(pointer, bytes);
                0
            }
            _ => 1,
        };
        let walker = Walker {
            stacks: self,
            blocks: blocks.get(begin..).unwrap_or(&[]),
            options,
            signed_bits: self.core.signed_bits(),
            growth: Growth::default(),
        };
        let walked = walker.walk(address, registers).map_err(StackError::Dwcheck)?;
        drop(blocks);
        let walked = if options.finds_tail_calls { self.with_tail_calls(walked) } else { walked };
        let Walked { frames, left_out, stop } = walked;
        Ok(Stack { stacks: self, thread: u64::from(thread.id), frames, left_out, stop })
    }

    /// All blocks of memory. The one that has the address `stack` comes first.
    fn blocks(&self, stack: u64) -> Vec<Block<'a>> {
        let first = self.memory.from(stack).map(|bytes| Block::new(stack, bytes));
        first.into_iter().chain(self.memory.blocks().map(|block| Block::new(block.address, block.bytes))).collect()
    }

    /// Where a frame is: its function, file and line. If the frame's address follows a call, these
    /// are those of the call.
    pub fn position(&self, frame: &Frame) -> Position {
        let tables = self.tables.borrow();
        let looked_up = frame.looked_up();
        if let Some(position) = self.symbol_position(frame.address, looked_up) {
            return position;
        }
        let found = tables.module_at(looked_up);
        let (place, module) = match found.and_then(|place| Some((place, tables.modules().get(place)?))) {
            Some(found) => found,
            None => return Lost::position(&self.lost, frame.address, looked_up),
        };
        let mut names = self.names.borrow_mut();
        let names = names.entry(place).or_insert_with(|| self.read_names(module));
        let linked = |address: u64| self.core.target().wrap(address.wrapping_sub(module.bias));
        let (address, looked_up, options) = (linked(frame.address), linked(looked_up), self.name_options);
        let split = names.is_split(looked_up).then(|| self.split_functions(place, module, looked_up)).flatten();
        let found = match split {
            Some(called) => names.position_in(address, looked_up, called, options),
            None => names.position(address, looked_up, options),
        };
        let (build_id, address_in_module) = (names.build_id.clone(), Some(address));
        Position { module: Some(module.path.clone()), build_id, address_in_module, ..found }
    }

    fn read_names(&self, module: &Module<'a>) -> Names<'a> {
        Names::read(&module.path, module.image.bytes(), self.files.debug_files(), self.name_options)
    }
}

impl fmt::Debug for Stacks<'_> {
    fn fmt(&self, f: &mut fmt::Formatter<'_>) -> fmt::Result {
        let modules = self.tables.borrow().modules().len();
        f.debug_struct("Stacks").field("modules", &modules).field("unread", &self.unread).finish_non_exhaustive()
    }
}

impl fmt::Display for StackError {
    fn fmt(&self, f: &mut fmt::Formatter<'_>) -> fmt::Result {
        match self {
            StackError::NoInstructionPointer => f.write_str("the thread has no instruction pointer"),
            StackError::Dwcheck(error) => error.fmt(f),
        }
    }
}

impl std::error::Error for StackError {
    fn source(&self) -> Option<&(dyn std::error::Error + 'static)> {
        match self {
            StackError::NoInstructionPointer => None,
            StackError::Dwcheck(error) => Some(error),
        }
    }
}
