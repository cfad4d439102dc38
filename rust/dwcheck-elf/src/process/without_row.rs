//! How a stack is walked where no row says it: one policy for `stack`, `vars` and `profile`, and for what `trace` needs
//! of it. So the same stop of a program has the same frames, whoever shows them.
//!
//! - The caller of a frame that no row covers is a guess, and marked with its rule ([`FoundBy`]): [`Guesser`].
//! - The code by which signal handlers return to the kernel is known by its bytes: [`SignalReturn`].
//! - The CFA has to grow from frame to frame, but for signal frames: [`Growth`].
//! - A caller continues in code ([`View::is_in_code`]). Its address may be signed ([`signed_bits`]).
//! - Where neither a call nor a row is before a return address, but an FDE begins at it, the function there is the caller,
//!   and has done nothing yet ([`Guesser::may_follow_call`]).
//!
//! Walks of `vars PROGRAM` with a state file have rows alone: a state file doesn't say which memory is code. The C
//! library `c/dl` has a policy of its own, and says why.

mod call;
mod growth;
mod signal_return;
mod stub;
mod unknown_code;

pub use call::ends_with_call;
pub use growth::{Growth, NotGrowing};
pub use signal_return::{address_of_sigpanic, SignalReturn};

use call::direct_target;
use dwcheck::{Error, Registers};
use dwcheck_types::abi::Abi;
use dwcheck_types::target::Target;
use object::elf;
use std::fmt;

/// How many words of a stack are looked at for a return address.
const SCANNED: u64 = 160;

/// How far before an address of code that is in no file the function may begin that has it.
const LONGEST_FUNCTION: u64 = 1 << 20;

/// How far above a frame pointer of aarch64 the caller's may be, and of which number stack pointers are multiples.
const LONGEST_FRAME: u64 = 1 << 20;
const STACK_ALIGNMENT: u64 = 16;

/// How a frame was found.
#[derive(Clone, Copy, Debug, PartialEq, Eq)]
pub enum FoundBy {
    /// It is the frame that the thread was in.
    Thread,
    /// The same in a minidump, which has the registers of the thread in a context.
    Context,
    /// By a row of an unwind table.
    Row,
    /// Its function ended with a jump (a tail call), which left no frame on the stack. The call sites of the debug
    /// information prove that this is the only way from the caller to the frame before.
    TailCall,
    /// By a row of a symbol file. Unlike those of unwind tables, these rows weren't checked.
    SymbolRow,
    /// A guess: the frame that it called isn't at an executable address, so a call led there. On
    /// x86, the return address is at the stack pointer, and on aarch64 it is in x30. On x86 also: no row
    /// covers the frame that it called, and the word at the stack pointer follows a call, or that above what a
    /// stub of a procedure linkage table has pushed.
    Call,
    /// A guess: no row covers the frame that it called, whose frame pointer leads to the caller.
    FramePointer,
    /// A guess: a signal interrupted it, and the code to which the handler returns has no row that says
    /// so, but is that by which handlers return to the kernel.
    SignalReturn,
    /// A guess: no other rule finds the caller, and a word of the stack is an address that may follow a call.
    Scan,
}

impl FoundBy {
    /// Whether the frame is a guess.
    pub fn is_guess(self) -> bool {
        !matches!(self, FoundBy::Thread | FoundBy::Context | FoundBy::Row | FoundBy::TailCall | FoundBy::SymbolRow)
    }
}

impl fmt::Display for FoundBy {
    fn fmt(&self, f: &mut fmt::Formatter<'_>) -> fmt::Result {
        f.pad(match self {
            FoundBy::Thread => "thread",
            FoundBy::Context => "context",
            FoundBy::Row => "row",
            FoundBy::TailCall => "tail call",
            FoundBy::SymbolRow => "symbol row",
            FoundBy::Call => "call",
            FoundBy::FramePointer => "frame pointer",
            FoundBy::SignalReturn => "signal return",
            FoundBy::Scan => "scan",
        })
    }
}

/// What is known of a process at the time when one of its threads was stopped.
pub trait View {
    /// The byte order and the address size.
    fn target(&self) -> Target;

    /// The calling convention.
    fn abi(&self) -> &'static Abi;

    /// The bits of a return address that may have its signature. 0 if none is signed.
    fn signed_bits(&self) -> u64;

    /// Copies memory from an address on, up to the first byte that isn't known. Returns how many bytes it has copied.
    fn read(&self, address: u64, bytes: &mut [u8]) -> usize;

    /// Whether the process could execute code at an address.
    fn is_executable(&self, address: u64) -> bool;

    /// Whether an address is in memory of which nothing says whether it is code.
    fn may_be_code(&self, _address: u64) -> bool {
        false
    }

    /// Whether a caller may continue at an address: code is there, or before it, where the call is then the last code that
    /// is mapped.
    fn is_in_code(&self, address: u64) -> bool {
        self.is_executable(address) || self.is_executable(address.wrapping_sub(1))
    }

    /// The number of the file that has the code at an address. `None` if no file has it.
    fn file_at(&self, address: u64) -> Option<usize>;

    /// Whether a row that can be used covers an address.
    ///
    /// # Errors
    ///
    /// [`Error::NoMemory`].
    fn has_row(&self, address: u64) -> Result<bool, Error>;
}

/// The bits of a return address that may have its signature (aarch64): those that the kernel named (`NT_ARM_PAC_MASK`),
/// or else the bits above those of addresses, the highest of which is about `highest`.
pub fn signed_bits(named: Option<u64>, highest: u64) -> u64 {
    const ADDRESS_BITS: u32 = 48;
    const WIDE_ADDRESS_BITS: u32 = 52;
    let is_wide = highest >> ADDRESS_BITS != 0;
    named.unwrap_or(u64::MAX << if is_wide { WIDE_ADDRESS_BITS } else { ADDRESS_BITS })
}

/// A caller that was found by a rule other than a row.
#[derive(Clone, Debug)]
pub struct Guess {
    /// The rule.
    pub found_by: FoundBy,
    /// Where the caller continues.
    pub address: u64,
    /// The caller's registers, as far as they are known.
    pub registers: Registers,
    /// The stack pointer of the caller.
    pub cfa: u64,
}

/// Finds the caller of a frame without a row, which has these registers.
pub struct Guesser<'a, V> {
    /// The process.
    pub view: &'a V,
    /// What is known of the frame's registers.
    pub registers: &'a Registers,
}

impl<V: View> Guesser<'_, V> {
    /// The caller of a frame at an address that no row covers. `is_after_call` says that the frame has made a call, after
    /// which it continues at the address.
    ///
    /// # Errors
    ///
    /// Those of [`View::has_row`].
    pub fn caller(&self, address: u64, is_after_call: bool) -> Result<Option<Guess>, Error> {
        if is_after_call && self.view.is_in_code(address) {
            return Ok(self.by_frame_pointer());
        }
        if !is_after_call && self.view.is_executable(address) {
            return self.of_innermost(address);
        }
        let by_call = if is_after_call { None } else { self.by_call() };
        Ok(by_call.or_else(|| if self.view.may_be_code(address) { self.by_chain() } else { None }))
    }

    /// The caller of code that no row covers and that called nothing. The frame to which the frame pointer leads is its
    /// caller's, and not its own, if it hasn't made one yet. Then the return address is at the stack pointer.
    fn of_innermost(&self, address: u64) -> Result<Option<Guess>, Error> {
        let framed = self.by_frame_pointer();
        let target = framed.as_ref().and_then(|framed| self.called_before(framed.address));
        if let Some(target) = target.filter(|target| *target <= address && self.may_lead(*target, address)) {
            if !self.view.has_row(target)? {
                return Ok(framed);
            }
        }
        Ok(self.by_return_address(address).or_else(|| self.by_system_call(address)).or(framed))
    }

    /// Whether a call to one address may lead to another one: they are in the same file, in which the call may lead to a
    /// jump; or both in none, and the second one is near.
    fn may_lead(&self, target: u64, address: u64) -> bool {
        match (self.view.file_at(target), self.view.file_at(address)) {
            (None, None) => address.checked_sub(target).map_or(false, |past| past < LONGEST_FUNCTION),
            (one, other) => one == other,
        }
    }

    /// The caller of a frame whose address isn't executable, because a call led there: on x86 the
    /// return address is at the stack pointer, on aarch64 it is in x30.
    fn by_call(&self) -> Option<Guess> {
        self.by_call_below(0)
    }

    /// The same where `pushed` words are on the stack below the return address.
    fn by_call_below(&self, pushed: u64) -> Option<Guess> {
        let abi = self.view.abi();
        let stack = self.registers.get(abi.stack_pointer)?.checked_add(pushed * self.word_size())?;
        let (address, cfa) = match abi.link_register {
            Some(link) => (self.unsigned(self.registers.get(link)?), stack),
            None => (self.word(stack)?, stack.checked_add(self.word_size())?),
        };
        let mut registers = self.registers.clone();
        registers.set(abi.stack_pointer, cfa);
        registers.set(abi.program_counter, address);
        let guess = Guess { found_by: FoundBy::Call, address, registers, cfa };
        Some(guess).filter(|_| address != 0 && self.view.is_in_code(address) && self.may_follow_call(address))
    }

    /// The caller of a frame in code of x86 at an address that no row covers, and that hasn't changed the stack yet or is
    /// a stub of a procedure linkage table: the word at the stack pointer, or above what the stub has pushed, follows
    /// a call. If it is one to a fixed address, that has to lead to the frame.
    fn by_return_address(&self, address: u64) -> Option<Guess> {
        let guess = self.by_call_below(self.pushed_at(address)).filter(|_| self.view.abi().link_register.is_none())?;
        let is_call = ends_with_call(&self.before(guess.address)?);
        let leads = |target| self.may_lead(target, address);
        Some(guess).filter(|guess| is_call && self.called_before(guess.address).map_or(true, leads))
    }

    /// The caller of the kernel's code by which programs for i386 make system calls, if a minidump doesn't have that
    /// code: `push %ecx`, `push %edx`, `push %ebp`, and the way into the kernel. So the return address is above three
    /// words, and has to follow a call.
    fn by_system_call(&self, address: u64) -> Option<Guess> {
        const PUSHED: [u16; 3] = [5, 2, 1];
        let stack = self.registers.get(self.view.abi().stack_pointer)?;
        if self.view.abi().machine != elf::EM_386 || self.view.read(address, &mut [0]) != 0 {
            return None;
        }
        let mut guess = self.by_call_below(PUSHED.len() as u64)?;
        for (place, number) in (0..).zip(PUSHED) {
            guess.registers.set(number, self.word(stack.checked_add(place * self.word_size())?)?);
        }
        let before = self.before(guess.address)?;
        Some(guess).filter(|_| ends_with_call(&before))
    }

    /// How many words a stub of a procedure linkage table has pushed, if the code at an address is one.
    fn pushed_at(&self, address: u64) -> u64 {
        let top = self.registers.get(self.view.abi().stack_pointer).and_then(|stack| self.word(stack));
        let mut code = [0; stub::LONGEST];
        let count = self.view.read(address, &mut code);
        self.before(address)
            .zip(top)
            .map_or(0, |(before, top)| stub::words_pushed_by_stub(&before, &code[..count], top as u32))
    }

    /// Where the call of x86 before an address leads, if it is one to a fixed address.
    pub fn called_before(&self, address: u64) -> Option<u64> {
        let target = direct_target(&self.before(address)?, address)?;
        Some(self.view.target().wrap(target)).filter(|_| self.view.abi().link_register.is_none())
    }

    fn before(&self, address: u64) -> Option<[u8; 7]> {
        let mut before = [0; 7];
        (self.view.read(address.checked_sub(7)?, &mut before) == before.len()).then_some(before)
    }

    /// The code at an address by which a signal handler returns to the kernel, if that is what it is. A handler
    /// returns there, so no call is before it. If the code isn't known, as that of the kernel for i386 isn't in a
    /// minidump, what the kernel has put on the stack says which one it is.
    pub fn signal_return(&self, address: u64) -> Option<&'static SignalReturn> {
        let (mut code, machine) = ([0; SignalReturn::LONGEST], self.view.abi().machine);
        let found = match self.view.read(address, &mut code) {
            0 if machine == elf::EM_386 => self.signal_return_by_stack(),
            count => SignalReturn::of(machine, &code[..count]),
        };
        found.filter(|_| self.view.is_executable(address))
    }

    fn signal_return_by_stack(&self) -> Option<&'static SignalReturn> {
        let stack = self.registers.get(self.view.abi().stack_pointer)?;
        let mut bytes = [0; 4 * SignalReturn::WORDS];
        let mut words = [0; SignalReturn::WORDS];
        if self.view.read(stack, &mut bytes) < bytes.len() {
            return None;
        }
        let held = bytes.chunks_exact(4).map(|word| self.view.target().number(word) as u32);
        words.iter_mut().zip(held).for_each(|(word, held)| *word = held);
        SignalReturn::of_stack(stack as u32, &words)
    }

    /// The frame that a signal interrupted whose handler returns to this code. The kernel has stored its registers
    /// on the stack.
    pub fn by_signal_return(&self, found: &SignalReturn) -> Option<Guess> {
        let abi = self.view.abi();
        let cfa = self.registers.get(abi.stack_pointer)?;
        let mut registers = Registers::default();
        for (place, number) in (0..).zip(found.registers) {
            let at = cfa.checked_add(found.offset + place * self.word_size())?;
            if let Some(number) = number {
                registers.set(*number, self.word(at)?);
            }
        }
        let address = registers.get(abi.program_counter)?;
        Some(Guess { found_by: FoundBy::SignalReturn, address, registers, cfa })
    }

    /// The caller of a frame whose code keeps a frame pointer. It points to the caller's frame
    /// pointer and the return address.
    pub fn by_frame_pointer(&self) -> Option<Guess> {
        // Interpreters, such as HotSpot's, push return addresses that follow no call.
        self.framed().filter(|guess| guess.address != 0 && self.view.is_in_code(guess.address))
    }

    /// The same, whatever is at the caller's address.
    fn framed(&self) -> Option<Guess> {
        let abi = self.view.abi();
        let size = self.word_size();
        let pointer = self.registers.get(abi.frame_pointer)?;
        let is_in_stack = self.registers.get(abi.stack_pointer).map_or(true, |stack| stack <= pointer);
        let saved = self.word(pointer).filter(|_| is_in_stack && pointer % size == 0)?;
        let held = self.word(pointer.checked_add(size)?)?;
        let address = self.unsigned(held);
        let cfa = self.stack_of_caller(pointer, saved).or_else(|| pointer.checked_add(2 * size))?;
        let known = [(abi.frame_pointer, saved), (abi.stack_pointer, cfa), (abi.program_counter, address)];
        Some(Guess { found_by: FoundBy::FramePointer, address, registers: known.into(), cfa })
    }

    /// The caller's stack pointer, if the two words to which a frame pointer leads aren't at the top of the frame, as JITs
    /// and clang have them. gcc for aarch64 has them at the bottom, at the stack pointer: then nothing says how long the
    /// frame is, and the caller's frame pointer is taken, which is its stack pointer if it is gcc's code, too.
    fn stack_of_caller(&self, pointer: u64, saved: u64) -> Option<u64> {
        let abi = self.view.abi();
        let is_at_bottom = abi.link_register.is_some() && self.registers.get(abi.stack_pointer) == Some(pointer);
        let is_stack = saved % STACK_ALIGNMENT == 0 && saved > pointer && saved - pointer <= LONGEST_FRAME;
        Some(saved).filter(|_| is_at_bottom && is_stack)
    }

    /// The caller of a frame, if nothing else finds it: the first word of the stack, of [`SCANNED`], that is an address
    /// in code after a call. It may be left from an earlier call, so that frames of a stack that was scanned may not be
    /// those of calls that go on.
    pub fn by_scan(&self) -> Option<Guess> {
        let (abi, size) = (self.view.abi(), self.word_size());
        let stack = self.registers.get(abi.stack_pointer)?;
        (0..SCANNED).find_map(|place| {
            let at = stack.checked_add(place * size)?;
            let address = self.unsigned(self.word(at)?);
            if address == 0 || !self.view.is_in_code(address) || !self.follows_call(address) {
                return None;
            }
            let cfa = at.checked_add(size)?;
            let mut known = Registers::from([(abi.stack_pointer, cfa), (abi.program_counter, address)]);
            // What was called may not have changed the frame pointer, if it leads above the return address.
            let kept = self.registers.get(abi.frame_pointer).filter(|pointer| *pointer >= cfa);
            kept.into_iter().for_each(|pointer| known.set(abi.frame_pointer, pointer));
            Some(Guess { found_by: FoundBy::Scan, address, registers: known, cfa })
        })
    }

    /// Whether a call may come before an address, as [`may_follow_call`](Self::may_follow_call) says, and for aarch64
    /// too.
    fn follows_call(&self, address: u64) -> bool {
        let mut before = [0; 4];
        let is_known = |begin| self.view.read(begin, &mut before) == before.len();
        match self.view.abi().link_register {
            None => self.may_follow_call(address),
            Some(_) => {
                !address.checked_sub(4).map_or(false, is_known) || call::is_call_of_aarch64(u32::from_le_bytes(before))
            }
        }
    }

    /// A return address without its signature.
    fn unsigned(&self, address: u64) -> u64 {
        address & !self.view.signed_bits()
    }

    fn word_size(&self) -> u64 {
        u64::from(self.view.target().address_size.bytes())
    }

    /// The word at an address.
    pub fn word(&self, address: u64) -> Option<u64> {
        let mut bytes = [0; 8];
        let word = bytes.get_mut(..usize::from(self.view.target().address_size.bytes()))?;
        (self.view.read(address, word) == word.len()).then(|| self.view.target().number(word))
    }

    /// Whether a call may come before an address. False only for code of x86 that is known.
    pub fn may_follow_call(&self, address: u64) -> bool {
        self.view.abi().link_register.is_some() || self.before(address).map_or(true, |before| ends_with_call(&before))
    }
}
