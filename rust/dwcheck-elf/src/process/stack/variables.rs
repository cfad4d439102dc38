//! The variables of the frames of a stack.

use super::{Frame, Stack, Stacks};
use crate::cfi::text::Escaped;
use crate::debug::variables::{self, Called, Function, Loaded, Shape, Step, Variables};
use crate::elf::program::Program;
use crate::process::core_file::Module;

/// How many callers of a frame may be asked for entry values.
const MAX_CALLERS: usize = 16;

impl<'a> Stacks<'a> {
    /// The functions at a frame of a stack with their variables, the outermost first: the function, then those
    /// that are inlined there. The stack has to have the registers of its frames. Empty if the debug
    /// information has no function there.
    pub fn variables(&self, stack: &Stack<'_, 'a>, frame: usize, shape: Shape) -> Vec<Function> {
        let tables = self.tables.borrow();
        let module_of = |frame: &Frame| tables.module_at(frame.looked_up());
        let (is_innermost, frames) = (frame == 0, stack.without_gap(frame));
        let place = frames.first().and_then(module_of);
        let (place, module) = match place.and_then(|place| Some((place, tables.modules().get(place)?))) {
            Some(found) => found,
            None => return Vec::new(),
        };
        let in_file = frames.iter().take(1 + MAX_CALLERS).take_while(|frame| module_of(frame) == Some(place));
        let mut steps: Vec<_> = in_file.map(step_of_frame).collect();
        if let Some(first) = steps.first_mut().filter(|_| is_innermost) {
            stack.vectors().for_each(|(number, value)| first.registers.set(number, value));
        }
        let pointer = self.core.abi().stack_pointer;
        let blocks = self.blocks(steps.first().and_then(|step| step.registers.get(pointer)).unwrap_or(0));
        let mut opened = self.variables.borrow_mut();
        let opened = opened.entry(place).or_insert_with(|| self.open_debug_information(module));
        let (target, load) = (self.core.target(), module.bias);
        let file = Some(self.loaded_debug_information(module, tables.modules()));
        let thread_pointer = stack.thread_pointer();
        let frame = variables::Frame { target, load, steps: &steps, memory: &blocks, file, thread_pointer };
        let variables = match opened {
            Some(variables) => variables,
            None => return Vec::new(),
        };
        let functions = variables.at(&frame, shape);
        let missing = if functions.is_empty() { variables.missing_file(&frame) } else { None };
        missing.into_iter().for_each(|name| self.note_missing(module, &name));
        functions
    }

    /// The functions at an address of a module's file, the outermost first, if the debug information of the unit there
    /// is in a file of its own. `None` if that isn't there, or has no function there.
    pub(super) fn split_functions(&self, place: usize, module: &Module<'a>, address: u64) -> Option<Vec<Called>> {
        let mut opened = self.variables.borrow_mut();
        let variables = opened.entry(place).or_insert_with(|| self.open_debug_information(module)).as_ref()?;
        variables.split_functions(address).map_err(|missing| self.note_missing(module, &missing.0)).ok()?
    }

    /// Notes that a file isn't there that has the debug information of a unit of a module.
    fn note_missing(&self, module: &Module<'a>, name: &str) {
        let why = format!("its debug information is in another file, {}, which isn't there", Escaped(name));
        self.split.borrow_mut().insert(module.path.clone(), why);
    }

    /// The debug information of a module. `None` if it has none that can be read.
    fn open_debug_information(&self, module: &Module<'a>) -> Option<Variables<'a>> {
        let files = self.files.debug_files();
        let program = Program::read(module.image.bytes()).ok()?;
        let separate = files.find(&module.path, &program).ok().flatten();
        let separate = separate.and_then(|(path, bytes)| Some((path, Program::read(bytes).ok()?)));
        let separate = separate.filter(|_| !program.has_bytes(".debug_info"));
        let (path, debug) = separate.unwrap_or_else(|| (module.path.clone(), program));
        let shared = files.shared(&path, &debug).unwrap_or_else(|why| {
            self.unshared.borrow_mut().insert(module.path.clone(), why.to_string());
            None
        });
        let shared = shared.and_then(|bytes| Program::read(bytes).ok());
        let mut variables = Variables::read(&debug, shared.as_ref(), files).ok()?;
        variables.look_for_packages(&module.path, &debug);
        if path != module.path {
            variables.look_for_packages(&path, &debug);
        }
        Some(variables)
    }

    fn loaded_debug_information(&self, module: &Module<'a>, modules: &[Module<'a>]) -> Loaded<'a> {
        let has_glibc = modules.iter().any(|module| module.path.ends_with("libc.so.6"));
        let (bytes, bias) = (module.image.bytes(), module.bias);
        Loaded { bytes, bias, is_program: self.core.begins_in(module), has_glibc }
    }
}

impl Stack<'_, '_> {
    /// The thread pointer, which rows say nothing of: callers have the one of the thread.
    fn thread_pointer(&self) -> Option<u64> {
        let number = self.stacks.core.abi().thread_pointer?;
        let (_, pointer) = self.frames.first()?.registers.iter().find(|(one, _)| *one == number)?;
        Some(*pointer)
    }

    /// The vector registers of the thread. Calls don't keep them, so that they are those of its first frame alone.
    fn vectors(&self) -> impl Iterator<Item = (u16, u64)> + '_ {
        let thread = self.stacks.core.threads().iter().find(|thread| u64::from(thread.id) == self.thread);
        thread.into_iter().flat_map(|thread| thread.vectors.iter().copied())
    }

    /// The same for a frame, if variables are shown.
    pub(super) fn functions(&self, frame: usize) -> Vec<Function> {
        self.stacks.shape.map_or_else(Vec::new, |shape| self.stacks.variables(self, frame, shape))
    }
}

fn step_of_frame(frame: &Frame) -> Step {
    Step {
        address: frame.address,
        is_after_call: frame.is_after_call,
        registers: frame.registers.iter().copied().collect(),
        cfa: frame.cfa,
    }
}
