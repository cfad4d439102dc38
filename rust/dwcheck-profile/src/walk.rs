//! Walks the stack of a sample: the kernel's chain, then the task's frames by rows, by frame pointers or by guesses.
//!
//! Walks only read what they share, so that any number of threads may walk at once. A walk that needs something
//! which isn't there yet says so and ends; it is done again when that was added.

use super::frames::{CodeAddress, End, Frame, FrameId, Frames};
use super::objects::{Kind, ObjectId, Objects};
use super::popped;
use super::recording::{Features, Mode, Sample};
use super::space::{Mapping, Space};
use super::tables::TableId;
use super::task::Task;
use super::view::Sampled;
use dwcheck::{Answer, Block, Cursor, Frame as Stepped, Process, Registers, State, Stop};
use dwcheck_elf::internal::without_row::{FoundBy, Growth, Guesser, NotGrowing, View};
use dwcheck_types::target::Order;

/// The marks in chains of addresses, which are the highest numbers (`PERF_CONTEXT_`).
mod mark {
    pub const LEAST: u64 = -4095i64 as u64;
    pub const KERNEL: u64 = -128i64 as u64;
    pub const USER: u64 = -512i64 as u64;
}

/// What a chain's addresses are of.
#[derive(Clone, Copy, PartialEq, Eq)]
enum Of {
    Kernel,
    Task,
    Other,
}

/// What walks share, and only read.
pub(super) struct Shared {
    pub objects: Objects,
    /// The frames of earlier stacks.
    pub known: Frames,
    /// How often stacks were walked together before.
    pub round: u32,
    /// The most frames of a task.
    limit: usize,
    order: Order,
}

/// What a walk needs and hasn't found.
#[derive(Clone, Copy, Debug)]
pub(super) enum Missing {
    /// What stands for code that this process hasn't mapped.
    Unmapped(u32),
    /// The object for the kernel.
    Kernel,
}

impl Shared {
    /// What walks share that find at most `limit` frames of a task.
    pub fn new(objects: Objects, limit: usize, order: Order) -> Shared {
        Shared { objects, known: Frames::default(), round: 0, limit, order }
    }

    /// Adds what a walk needs.
    pub fn add(&mut self, missing: Missing) {
        match missing {
            Missing::Unmapped(pid) => {
                self.objects.unmapped(pid);
            }
            Missing::Kernel => {
                self.objects.kernel();
            }
        }
    }
}

/// Walks stacks one after another, and has the frames that were found.
pub(super) struct Walker<'w> {
    shared: &'w Shared,
    features: &'w Features,
    /// The frames of all stacks that need nothing new.
    pub frames: Frames,
    /// The stack that was walked last, the innermost frame first, up to one whose table no earlier round needed.
    pub stack: Vec<FrameId>,
    /// The other frames of that stack. They have no index yet: frames and stacks are numbered in an order that
    /// doesn't depend on which thread compiles a table.
    pub new: Vec<Frame>,
    /// Whether there are such frames.
    is_new: bool,
    /// How many of its frames were found by frame pointers.
    pub by_frame_pointer: u64,
    registers: Registers,
    growth: Growth,
}

/// A frame of a walk, with its index, if it has one.
#[derive(Clone, Copy)]
struct At {
    id: Option<FrameId>,
    frame: Frame,
}

/// What a step from a frame gives.
enum Step {
    Caller,
    End(End),
}

impl<'w> Walker<'w> {
    /// A walker of samples of a recording that says this of itself.
    pub fn new(shared: &'w Shared, features: &'w Features) -> Walker<'w> {
        Walker {
            shared,
            features,
            frames: Frames::default(),
            stack: Vec::new(),
            new: Vec::new(),
            is_new: false,
            by_frame_pointer: 0,
            registers: Registers::new(),
            growth: Growth::default(),
        }
    }

    /// Walks the stack of a sample of a process that has mapped this. Returns why there are no more frames.
    pub fn walk(&mut self, sample: &Sample<'_>, space: &Space) -> Result<End, Missing> {
        self.stack.clear();
        self.new.clear();
        self.is_new = false;
        self.by_frame_pointer = 0;
        self.chained_kernel(sample)?;
        let mut registers = std::mem::take(&mut self.registers);
        let end = match Task::of(sample, self.features, self.shared.order, &mut registers) {
            Some(task) => self.task(sample.pid, space, &task, &registers),
            None => self.chained_task(sample, space),
        };
        self.registers = registers;
        end
    }

    /// The number of frames of the stack.
    pub fn count(&self) -> usize {
        self.stack.len() + self.new.len()
    }

    fn push(&mut self, at: At) {
        match at.id {
            Some(id) => self.stack.push(id),
            None => self.new.push(at.frame),
        }
    }

    /// A frame, which is added unless its stack needs something new.
    fn add(&mut self, frame: Frame) -> At {
        let id = (!self.is_new).then(|| self.frames.add(frame));
        At { id, frame }
    }

    /// What stands for code that a process hasn't mapped.
    fn unmapped(&self, pid: u32) -> Result<ObjectId, Missing> {
        self.shared.objects.of_unmapped(pid).ok_or(Missing::Unmapped(pid))
    }

    /// The frames of the kernel.
    fn chained_kernel(&mut self, sample: &Sample<'_>) -> Result<(), Missing> {
        let mut addresses = recorded_chain(sample, Of::Kernel);
        if addresses.is_empty() && sample.mode == Mode::Kernel {
            addresses.extend(sample.address);
        }
        if addresses.is_empty() {
            return Ok(());
        }
        let kernel = self.shared.objects.of_kernel().ok_or(Missing::Kernel)?;
        for (place, address) in addresses.into_iter().enumerate() {
            let inside = address.wrapping_sub(u64::from(place > 0));
            let frame = self.add(Frame::without_row(kernel, inside, address));
            self.push(frame);
        }
        Ok(())
    }

    /// The frames of a task that the processor or the kernel found, where there is no copy of the stack.
    fn chained_task(&mut self, sample: &Sample<'_>, space: &Space) -> Result<End, Missing> {
        let mut addresses = recorded_chain(sample, Of::Task);
        let calls: Vec<u64> = sample.calls.iter().collect();
        if !calls.is_empty() {
            // Of each call, the last one first: from where, to where, and flags.
            addresses.truncate(1);
            addresses.extend(calls.chunks_exact(3).map(|call| call[0]));
        }
        if addresses.is_empty() && sample.mode == Mode::User {
            addresses.extend(sample.address);
        }
        for (place, address) in addresses.iter().take(self.shared.limit).enumerate() {
            // A call's own address is in it; a return address is after it.
            let is_return = place > 0 && calls.is_empty();
            let inside = address.wrapping_sub(u64::from(is_return));
            let frame = match space.find(inside) {
                Some(mapping) => self.at(mapping, inside, is_return),
                None => {
                    let object = self.unmapped(sample.pid)?;
                    self.add(Frame::without_row(object, inside, *address))
                }
            };
            self.push(frame);
        }
        Ok(if addresses.is_empty() { End::None } else { End::Chain })
    }

    /// The frame of a mapping that is looked up at an address, or if `is_return`, that continues after it.
    fn at(&mut self, mapping: &Mapping, address: u64, is_return: bool) -> At {
        let offset = mapping.file_offset(address);
        let objects = &self.shared.objects;
        let loaded = objects.loaded(mapping.object);
        let linked = loaded.and_then(|loaded| loaded.linked(mapping, address)).filter(|_| mapping.is_executable);
        let kind = objects.get(mapping.object).map(|object| object.kind);
        let shown = if matches!(kind, Some(Kind::File | Kind::MemoryFile(_))) { offset } else { address };
        // A list that a process writes of its code has addresses.
        let unlinked = if kind == Some(Kind::File) { offset } else { address };
        let place = CodeAddress { object: mapping.object, address: linked.unwrap_or(unlinked) };
        if let Some((id, frame)) = self.frames.at(place) {
            return At { id: Some(id).filter(|_| !self.is_new), frame };
        }
        let plain = Frame {
            is_return,
            ..Frame::without_row(place.object, place.address, shown.wrapping_add(u64::from(is_return)))
        };
        let frame = match (self.shared.known.at(place), loaded, linked) {
            (Some((_, known)), _, _) => known,
            (None, Some(loaded), Some(linked)) => {
                let table = loaded.tables.find(linked, self.shared.round);
                self.is_new |= !table.map_or(false, |(_, was_needed)| was_needed);
                let table = table.map(|(table, _)| table);
                let is_signal_frame = loaded.is_signal_frame(linked);
                let precedes_signal_return = !is_signal_frame && loaded.is_signal_return(offset.wrapping_add(1));
                Frame { table, is_signal_frame, precedes_signal_return, ..plain }
            }
            _ => plain,
        };
        self.add(frame)
    }

    /// The frames of a task of which there is a copy of the stack.
    fn task(&mut self, pid: u32, space: &Space, task: &Task<'_>, registers: &Registers) -> Result<End, Missing> {
        let memory = [Block::new(task.stack_pointer, task.stack)];
        let state = State { registers, memory: &memory, abi: task.convention() };
        let mut cursor = match Cursor::new(task.program_counter, &state) {
            Ok(cursor) => cursor,
            Err(_) => return Ok(End::None),
        };
        let shared = self.shared;
        let view = Sampled { task, space, objects: &shared.objects, round: shared.round };
        self.growth.begin(task.abi);
        let start = self.count();
        let mut mapping: Option<&Mapping> = None;
        loop {
            let address = cursor.address();
            let inside = address.wrapping_sub(u64::from(!cursor.is_exact()));
            let count = self.count() - start;
            if count >= shared.limit {
                return Ok(End::Limit);
            }
            if count > 0 && address == 0 {
                return Ok(End::Complete);
            }
            mapping = mapping.filter(|mapping| mapping.has(inside)).or_else(|| space.find(inside));
            let code = mapping.filter(|mapping| mapping.is_executable).or_else(|| view.code(address));
            let (at, is_signal_return) = match code {
                Some(mapping) => self.frame(mapping, &view, &mut cursor),
                None if count == 0 => (self.add(Frame::without_row(self.unmapped(pid)?, inside, inside)), false),
                None => return Ok(End::NotCode),
            };
            self.push(at);
            let step = match at.frame.table.filter(|_| !is_signal_return) {
                Some(table) => self.step(at.frame, table, &mut cursor, &state, task),
                None => self.by_guess(&mut cursor, &view, is_signal_return),
            };
            if let Step::End(end) = step {
                return Ok(end);
            }
        }
    }

    /// The frame that a cursor is at, and whether a signal handler has returned to it, by code for which no row says
    /// so. Where a return address follows no call, the frame is looked up at the address itself, and the cursor says
    /// so.
    fn frame(&mut self, mapping: &Mapping, view: &Sampled<'_>, cursor: &mut Cursor) -> (At, bool) {
        let address = cursor.address();
        if cursor.is_exact() {
            return (self.at(mapping, address, false), false);
        }
        let at = self.at(mapping, address.wrapping_sub(1), false);
        if at.frame.precedes_signal_return {
            return (self.at(mapping, address, false), true);
        }
        let no_registers = Registers::new();
        let guesser = Guesser { view, registers: &no_registers };
        if at.frame.table.is_none() && !guesser.may_follow_call(address) {
            let own = self.at(mapping, address, false);
            let loaded = self.shared.objects.loaded(mapping.object);
            let begins = |table| loaded.map_or(false, |loaded| loaded.tables.begins_at(table, own.frame.place.address));
            if own.frame.table.map_or(false, begins) {
                cursor.set_interrupted();
                return (own, false);
            }
        }
        (at, false)
    }

    /// Moves the cursor from a frame with a row to its caller.
    fn step(&mut self, frame: Frame, table: TableId, cursor: &mut Cursor, state: &State<'_>, task: &Task<'_>) -> Step {
        let loaded = self.shared.objects.loaded(frame.place.object);
        let process = match loaded.and_then(|loaded| loaded.tables.get(table, task.target)) {
            Some(process) => process,
            None => return Step::End(End::NoTable),
        };
        let address = cursor.address();
        let stepped = match step_to_caller(process, frame.place.address, cursor, state, task) {
            Some(stepped) => stepped,
            None => return Step::End(End::Unreadable),
        };
        let cfa = stepped.cfa().and_then(Answer::value);
        match cursor.stop() {
            None => {}
            Some(Stop::ReturnUndefined) => return Step::End(End::Complete),
            Some(Stop::NotCovered) => return Step::End(End::NoTable),
            Some(_) => {
                let is_after = cfa.map_or(false, |cfa| task.is_after(cfa.wrapping_sub(1)) || task.is_after(cfa));
                return Step::End(if is_after { End::EndOfCopy } else { End::Unreadable });
            }
        }
        if frame.is_signal_frame {
            cursor.set_interrupted();
        }
        self.grow(address, cfa, frame.is_signal_frame)
    }

    /// Moves the cursor from a frame without a row to its caller, which is a guess.
    fn by_guess(&mut self, cursor: &mut Cursor, view: &Sampled<'_>, is_signal_return: bool) -> Step {
        let (address, is_after_call, abi) = (cursor.address(), !cursor.is_exact(), view.task.abi);
        // What has made a call has no other registers by which a caller is found.
        let numbers =
            if is_after_call { vec![abi.frame_pointer, abi.stack_pointer] } else { (0..MOST_REGISTERS).collect() };
        let registers: Registers =
            numbers.into_iter().filter_map(|number| Some((number, cursor.register(number)?))).collect();
        let guesser = Guesser { view, registers: &registers };
        let guess = match is_signal_return {
            true => guesser.signal_return(address).and_then(|code| guesser.by_signal_return(code)),
            false => guesser.caller(address, is_after_call).ok().flatten(),
        };
        let guess = match guess {
            Some(guess) => guess,
            None if view.is_in_code(address) => return Step::End(End::NoTable),
            None => return Step::End(End::NotCode),
        };
        let state = State { registers: &guess.registers, memory: &[], abi: view.task.convention() };
        let caller = match is_signal_return {
            true => Cursor::new(guess.address, &state),
            false => Cursor::at_caller(guess.address, &state),
        };
        match caller {
            Ok(caller) => *cursor = caller,
            Err(_) => return Step::End(End::NoTable),
        }
        self.by_frame_pointer += u64::from(guess.found_by == FoundBy::FramePointer);
        self.grow(address, Some(guess.cfa), is_signal_return)
    }

    /// Goes on to the caller of a frame whose CFA this is, unless the stack doesn't lead upward there.
    fn grow(&mut self, address: u64, cfa: Option<u64>, is_signal_frame: bool) -> Step {
        match cfa.and_then(|cfa| self.growth.add(address, cfa, is_signal_frame)) {
            None => Step::Caller,
            Some(NotGrowing::Cfa) => Step::End(End::Unreadable),
            // The frame is among those before it.
            Some(NotGrowing::Loop) => {
                if self.new.pop().is_none() {
                    self.stack.pop();
                }
                Step::End(End::Unreadable)
            }
        }
    }
}

/// Cursors have no registers with higher numbers.
const MOST_REGISTERS: u16 = 96;

/// Steps from a frame that is at this address as linked. The library takes a signature off the return address only
/// where rows of `.eh_frame` say that there is one. Those of `.debug_frame` can't say it, and the bits are 0 in each
/// address of code, so they are taken off here.
fn step_to_caller(
    process: &Process,
    linked: u64,
    cursor: &mut Cursor,
    state: &State<'_>,
    task: &Task<'_>,
) -> Option<Stepped> {
    let stepped = step_with_popped(process, linked, cursor, state, task)?;
    cursor.set_address(cursor.address() & !task.signed_bits());
    Some(stepped)
}

/// Steps from a frame. What the innermost one has popped is read as if the stack still had it.
fn step_with_popped(
    process: &Process,
    linked: u64,
    cursor: &mut Cursor,
    state: &State<'_>,
    task: &Task<'_>,
) -> Option<Stepped> {
    let is_innermost = cursor.is_exact()
        && cursor.address() == task.program_counter
        && cursor.register(task.abi.stack_pointer) == Some(task.stack_pointer);
    cursor.set_address(linked.wrapping_add(u64::from(!cursor.is_exact())));
    let stepped = process.step(cursor, state).ok()?;
    let is_lost = |register: &u16| cursor.register(*register).is_none() && state.registers.get(*register).is_some();
    if !is_innermost || !task.abi.callee_saved.iter().any(is_lost) {
        return stepped;
    }
    let slots = popped::popped_slots(process, linked, task, state.registers);
    if slots.is_empty() {
        return stepped;
    }
    let memory: Vec<Block<'_>> = state.memory.iter().copied().chain(slots.iter().map(popped::Slot::block)).collect();
    let state = State { memory: &memory, ..*state };
    *cursor = Cursor::new(linked, &state).ok()?;
    process.step(cursor, &state).ok()?
}

/// The addresses of a sample's chain that are of the kernel or of the task.
fn recorded_chain(sample: &Sample<'_>, wanted: Of) -> Vec<u64> {
    let mut of = if sample.mode == Mode::Kernel { Of::Kernel } else { Of::Task };
    let mut found = Vec::new();
    for address in sample.chain.iter() {
        match address {
            mark::KERNEL => of = Of::Kernel,
            mark::USER => of = Of::Task,
            mark::LEAST..=u64::MAX => of = Of::Other,
            _ if of == wanted => found.push(address),
            _ => {}
        }
    }
    found
}
