//! Decides what is stepped, in windows: the first calls of each function, up to their returns. Functions that were
//! stepped already run at full speed.

use super::breakpoints::Breakpoint;
use super::ptrace::TRAP_FLAG;
use super::registers::Registers;
use super::rules::Rule;
use super::shadow::{Awaited, Origin};
use super::site::Site;
use super::space::Space;
use super::thread::{Here, Mode, Thread};
use super::tracer::Tracer;
use dwcheck_elf::internal::without_row::ends_with_call;
use dwcheck_lint::instruction::{Effect, Target};
use dwcheck_lint::register::Register;
use std::rc::Rc;

/// How often a thread may come to the beginning of a function in another way than by a call, before the
/// breakpoint there is taken out.
const MOST_MISSES: u8 = 8;

impl Tracer<'_, '_> {
    /// A thread that runs has come to a breakpoint, and its registers are those before that.
    pub(super) fn breakpoint_hit(&mut self, thread: &mut Thread, space: &mut Space, breakpoint: Breakpoint) {
        let (address, stack) = (thread.program_counter(), thread.stack_pointer());
        if breakpoint.is_load {
            self.plant_in_loaded_code(space);
        }
        if !thread.shadow.is_on(stack) {
            thread.shadow.switch(space.stack_at(stack, &mut self.files));
        }
        self.drop_left_frames(thread, space);
        thread.before = Here::NOWHERE;
        thread.here = self.instruction_at(space, address);
        let awaited = Some(Awaited { address, stack_pointer: stack });
        let is_awaited = thread.shadow.frames.last().map_or(false, |frame| frame.awaited == awaited);
        let goes_on = if is_awaited {
            self.resume_window(thread, space)
        } else {
            breakpoint.is_entry && self.begin_window(thread, space, breakpoint)
        };
        thread.mode = if goes_on { Mode::Stepping } else { Mode::Passing };
        if goes_on {
            self.judge_row(thread, space);
        }
    }

    /// Looks which code is loaded, and sets breakpoints in what wasn't before.
    pub(super) fn plant_in_loaded_code(&mut self, space: &mut Space) {
        space.refresh(&mut self.files);
        if !self.options.all {
            space.plant_breakpoints(&self.files, &self.sites, self.options.calls);
        }
    }

    /// Takes off the frames that a thread that ran has left.
    fn drop_left_frames(&mut self, thread: &mut Thread, space: &mut Space) {
        while let Some(frame) = thread.shadow.pop_left(thread.registers.stack_pointer()) {
            frame.awaited.iter().for_each(|awaited| space.forget_return(awaited.address));
            thread.shadow.distrust();
        }
    }

    /// Goes on with the frame on top, to which a callee has returned that ran at full speed. If a jump
    /// left the frame meanwhile, and it was entered again, its registers are others.
    fn resume_window(&mut self, thread: &mut Thread, space: &mut Space) -> bool {
        let frame = match thread.shadow.frames.last_mut() {
            Some(frame) => frame,
            None => return false,
        };
        if let Some(awaited) = frame.awaited.take() {
            space.forget_return(awaited.address);
        }
        // The frame on top may be another one than that of the call, such as where a stub has left its own frame and
        // jumped to the function that calls.
        if frame.is_distrusted && frame.seen_in != thread.here.fde {
            return true;
        }
        frame.is_distrusted = false;
        frame.seen_in = thread.here.fde;
        if self.has_other_registers(thread, space) {
            self.counts.rules.add(Rule::AfterCall);
            thread.shadow.frames.pop();
            return false;
        }
        true
    }

    /// Begins to step a function that was just called, if it wasn't stepped often enough.
    fn begin_window(&mut self, thread: &mut Thread, space: &mut Space, breakpoint: Breakpoint) -> bool {
        let (address, stack) = (thread.program_counter(), thread.stack_pointer());
        let visits = self.sites.at(thread.here.site).visits;
        if visits >= self.options.calls {
            space.forget_entry(address);
            return false;
        }
        let return_address = space.word(stack).filter(|address| self.follows_call(space, *address));
        let return_address = match return_address {
            Some(return_address) => return_address,
            None if breakpoint.misses >= MOST_MISSES => {
                space.forget_entry(address);
                return false;
            }
            None => {
                space.note_missed_call(address);
                return false;
            }
        };
        let registers = thread.registers;
        self.enter_call(thread, space, &registers, return_address, Origin::UnknownCall);
        self.counts.windows += 1;
        if visits + 1 >= self.options.calls {
            space.forget_entry(address);
        }
        true
    }

    /// Whether a call is before an address, or it is where signal handlers return to.
    fn follows_call(&mut self, space: &mut Space, address: u64) -> bool {
        let mut code = [0; 7];
        let begin = address.wrapping_sub(code.len() as u64);
        if space.read_code(begin, &mut code) == code.len() && ends_with_call(&code) {
            return true;
        }
        let site = self.instruction_at(space, address).site;
        self.sites.at(site).row.map_or(false, |judged| judged.is_signal)
    }

    /// A thread has made a step, after which it has these registers.
    pub(super) fn thread_stepped(&mut self, thread: &mut Thread, space: &mut Space, new: &Registers) {
        let address = new.program_counter();
        let is_same = address == thread.program_counter() && new.stack_pointer() == thread.stack_pointer();
        let left = if is_same { Default::default() } else { self.follow_instruction(thread, space, new) };
        thread.registers = *new;
        if !is_same {
            hide_trap_flag(thread, space);
            thread.before = thread.here;
            thread.here = self.instruction_at(space, address);
            if self.sites.at(thread.here.site).is_load {
                self.plant_in_loaded_code(space);
            }
        }
        if self.options.all {
            return self.judge_row(thread, space);
        }
        if left.has_unknown_caller || !self.stays_in_window(thread, space) {
            thread.mode = Mode::Running;
        } else if self.is_window_enough(thread, space) {
            self.run_out_of_function(thread, space);
        } else {
            self.judge_row(thread, space);
        }
    }

    /// Whether the frame on top is one that is stepped: not one that waits for a callee.
    fn stays_in_window(&mut self, thread: &mut Thread, space: &mut Space) -> bool {
        let here = Awaited { address: thread.program_counter(), stack_pointer: thread.stack_pointer() };
        match thread.shadow.frames.last_mut() {
            Some(frame) if frame.awaited == Some(here) => {
                frame.awaited = None;
                space.forget_return(here.address);
                true
            }
            Some(frame) => frame.awaited.is_none(),
            None => false,
        }
    }

    /// Whether enough of the function on top was stepped: it begins, and was stepped before, or nothing new
    /// has been seen in it for a time.
    fn is_window_enough(&mut self, thread: &mut Thread, space: &mut Space) -> bool {
        let (site, stack) = (self.sites.at(thread.here.site), thread.stack_pointer());
        let is_stepped = self.is_frame_stepped(site);
        let frame = match thread.shadow.frames.last_mut() {
            Some(frame) => frame,
            None => return true,
        };
        let is_begin = frame.slot == stack && frame.origin != Origin::Signal;
        frame.add_idle(1, site.visits == 0);
        if is_begin && site.is_entry && is_stepped && site.visits + 1 == self.options.calls {
            space.forget_entry(thread.registers.program_counter());
        }
        let is_idle = frame.idle > self.options.idle;
        is_begin && self.is_function_done(self.sites.at(thread.here.site)) || is_idle
    }

    fn is_frame_stepped(&self, site: &Site) -> bool {
        site.file.map_or(false, |file| self.files.at(file).is_stepped)
    }

    /// Whether a function that begins at an instruction isn't stepped, or not anymore.
    fn is_function_done(&self, site: &Site) -> bool {
        let is_known = site.is_entry && site.visits >= self.options.calls;
        is_known || site.fde.is_none() || !self.is_frame_stepped(site)
    }

    /// Lets a call of a function that isn't stepped run at full speed, up to its return. Returns whether a thread is
    /// before such a call.
    pub(super) fn pass_call(&mut self, thread: &mut Thread) -> bool {
        let target = match thread.here.effect {
            Effect::Call { target } if !self.options.all => target,
            _ => return false,
        };
        let space = Rc::clone(&thread.space);
        let mut space = space.borrow_mut();
        let (address, stack_pointer) = (thread.program_counter(), thread.stack_pointer());
        let bias = address.wrapping_sub(thread.here.address);
        let is_free = space.breakpoints.at(address).is_none();
        let callee = branch_destination(target, bias, &thread.registers, &space).filter(|_| is_free);
        if !callee.map_or(false, |callee| self.is_done_from(&mut space, callee)) {
            return false;
        }
        let frame = match thread.shadow.frames.last_mut().filter(|frame| frame.awaited.is_none()) {
            Some(frame) => frame,
            None => return false,
        };
        let next = thread.here.next.wrapping_add(bias);
        frame.awaited = Some(Awaited { address: next, stack_pointer });
        space.await_return(next);
        thread.mode = Mode::Running;
        true
    }

    /// Whether a function at an address isn't stepped, also if a stub that was stepped before jumps to it.
    pub(super) fn is_done_from(&mut self, space: &mut Space, address: u64) -> bool {
        let here = self.instruction_at(space, address);
        let site = self.sites.at(here.site);
        let (effect, is_seen, linked) = (site.effect, site.visits > 0, site.address);
        if self.is_function_done(site) {
            return true;
        }
        let end = match effect {
            Effect::Jump { target: target @ Target::Pointer(_) } if is_seen => {
                branch_destination(target, address.wrapping_sub(linked), &Registers::default(), space)
            }
            _ => None,
        };
        let end = end.map(|end| self.instruction_at(space, end).site);
        end.map_or(false, |end| self.is_function_done(self.sites.at(end)))
    }

    /// Lets the function on top run to its end at full speed. Its caller, if that is stepped, waits for its
    /// return.
    fn run_out_of_function(&mut self, thread: &mut Thread, space: &mut Space) {
        thread.mode = Mode::Running;
        let frame = match thread.shadow.frames.pop() {
            Some(frame) if frame.origin == Origin::Call => frame,
            _ => return,
        };
        if let Some(caller) = thread.shadow.frames.last_mut() {
            caller.awaited = Some(Awaited { address: frame.return_address, stack_pointer: frame.cfa });
            space.await_return(frame.return_address);
        }
    }
}

/// Where a call or a jump goes to, in code that is loaded so much higher than its file says. `None` if that isn't known
/// before.
fn branch_destination(target: Target, bias: u64, registers: &Registers, space: &Space) -> Option<u64> {
    match target {
        Target::Code(address) => Some(address.wrapping_add(bias)),
        Target::Pointer(address) => space.word(address.wrapping_add(bias)),
        Target::Register(Register(number)) => registers.get(number.into()),
        _ => None,
    }
}

/// Takes the flag of stepping out of the flags that the thread has just pushed. Popped at full speed, they
/// would stop it.
fn hide_trap_flag(thread: &Thread, space: &Space) {
    let stack = thread.stack_pointer();
    if thread.here.effect == Effect::PushFlags {
        let flags = space.word(stack).filter(|flags| flags & TRAP_FLAG != 0);
        let _ = flags.map(|flags| space.write(stack, &(flags & !TRAP_FLAG).to_le_bytes()));
    }
}
