//! What the functions do that a function calls: whether they return, and which registers they write.

use crate::instruction::{Effect, Instruction, Target};
use crate::module::Module;
use crate::register::Registers;
use rustc_hash::{FxHashMap, FxHashSet};

/// How many instructions of a callee are read at most.
const MOST_READ: usize = 3000;

/// Few callees have more instructions before their first return.
const USUALLY_READ: usize = 100;

/// How many instructions of callees are read in all, for each byte of a module's code.
const READ_A_BYTE: usize = 16;

/// How deep callees of callees are read.
const DEEPEST: usize = 10;

/// Functions of other modules that don't return.
const ENDING: [&str; 36] = [
    "abort",
    "exit",
    "_exit",
    "_Exit",
    "quick_exit",
    "__stack_chk_fail",
    "__assert_fail",
    "__assert_perror_fail",
    "__assert",
    "__cxa_throw",
    "__cxa_rethrow",
    "__cxa_bad_cast",
    "__cxa_bad_typeid",
    "__cxa_throw_bad_array_length",
    "__cxa_throw_bad_array_new_length",
    "__cxa_call_unexpected",
    "__cxa_call_terminate",
    "__cxa_pure_virtual",
    "_Unwind_Resume",
    "longjmp",
    "_longjmp",
    "siglongjmp",
    "__longjmp_chk",
    "pthread_exit",
    "__fortify_fail",
    "__chk_fail",
    "err",
    "errx",
    "verr",
    "verrx",
    "g_assertion_message",
    "g_assertion_message_expr",
    "xalloc_die",
    "_gfortran_stop_string",
    "_gfortran_runtime_error",
    "_gfortran_os_error_at",
];

/// What is known of the functions of a module, by their addresses.
#[derive(Debug, Default)]
pub struct Callees {
    /// How many instructions may still be read. Without a bound, a hostile file could have code from
    /// which a call leads to each address.
    left: usize,
    never_returns: FxHashMap<u64, bool>,
    written: FxHashMap<u64, Registers>,
    popped: FxHashMap<u64, Option<u16>>,
}

/// What to do after an instruction of a callee.
enum Next {
    /// Go on after it, and perhaps also at another address.
    On(Option<u64>),
    /// Go on at another address.
    At(u64),
    /// This way ends.
    End,
    /// Nothing more has to be read: the answer is known.
    Known,
}

impl Callees {
    /// Nothing is known yet of a module's functions.
    pub fn new(module: &Module<'_>) -> Callees {
        let bytes = module.fdes.iter().map(|fde| fde.end - fde.begin).fold(0, u64::saturating_add);
        let left = usize::try_from(bytes).unwrap_or(usize::MAX).saturating_mul(READ_A_BYTE).saturating_add(MOST_READ);
        Callees { left, ..Callees::default() }
    }

    /// Rule "calls that don't return": whether a call never returns, by the name of the function that
    /// it calls, or because no way through that function leads to a return.
    pub fn never_returns(&mut self, module: &Module<'_>, target: Target) -> bool {
        self.target_never_returns(module, target, 0)
    }

    fn target_never_returns(&mut self, module: &Module<'_>, target: Target, depth: usize) -> bool {
        match target {
            Target::Pointer(address) => module.imports.get(&address).map_or(false, |name| never_returns_by_name(name)),
            Target::Code(address) if module.stands_for_import(address) => {
                module.imports.get(&address).map_or(false, |name| never_returns_by_name(name))
            }
            Target::Code(address) => match (module.machine.stub)(module.bytes_at(address), address) {
                Some(pointer) => module.imports.get(&pointer).map_or(false, |name| never_returns_by_name(name)),
                None => self.code_never_returns(module, address, depth),
            },
            _ => false,
        }
    }

    fn code_never_returns(&mut self, module: &Module<'_>, address: u64, depth: usize) -> bool {
        if let Some(known) = self.never_returns.get(&address) {
            return *known;
        }
        if depth > DEEPEST {
            return false;
        }
        // While it is read, a function that calls itself is taken to return.
        self.never_returns.insert(address, false);
        let mut returns = false;
        let was_read = read_callee(self, module, address, |callees, instruction| match instruction.effect {
            Effect::Stop => Next::End,
            Effect::Jump { target: Target::Code(target) } => Next::At(target),
            Effect::Jump { target: target @ Target::Pointer(_) } if callees.target_never_returns(module, target, 0) => {
                Next::End
            }
            Effect::Return { .. } | Effect::Invalid | Effect::Jump { .. } => {
                returns = true;
                Next::Known
            }
            Effect::JumpIf { target, .. } => Next::On(Some(target)),
            Effect::Call { target } if callees.target_never_returns(module, target, depth + 1) => Next::End,
            _ => Next::On(None),
        });
        let never_returns = was_read && !returns;
        self.never_returns.insert(address, never_returns);
        never_returns
    }

    /// Rule "arguments that the callee pops": how many bytes of arguments the code at an address removes from the stack
    /// when it returns. `None` if that isn't known.
    pub fn popped(&mut self, module: &Module<'_>, address: u64) -> Option<u16> {
        if let Some(known) = self.popped.get(&address) {
            return *known;
        }
        let mut found = None;
        read_callee(self, module, address, |_, instruction| match instruction.effect {
            Effect::Return { popped } => {
                found = Some(popped);
                Next::Known
            }
            Effect::Jump { target: Target::Code(target) } => Next::At(target),
            Effect::JumpIf { target, .. } => Next::On(Some(target)),
            Effect::Jump { .. } | Effect::Stop | Effect::Invalid => Next::End,
            _ => Next::On(None),
        });
        self.popped.insert(address, found);
        found
    }

    /// Rule "registers that the callee leaves alone": which registers that a function may change are
    /// perhaps written by the code at an address before it returns. Compilers make use of that for
    /// functions of the same file.
    pub fn written(&mut self, module: &Module<'_>, address: u64) -> Registers {
        self.written_at_depth(module, address, 0)
    }

    fn written_at_depth(&mut self, module: &Module<'_>, address: u64, depth: usize) -> Registers {
        let all = module.machine.changeable;
        if let Some(known) = self.written.get(&address) {
            return *known;
        }
        if depth > DEEPEST {
            return all;
        }
        self.written.insert(address, all);
        let mut written = Registers::NONE;
        let was_read = read_callee(self, module, address, |callees, instruction| {
            let next = match instruction.effect {
                Effect::Return { .. } | Effect::Stop => Next::End,
                Effect::Jump { target: Target::Code(target) } => Next::At(target),
                Effect::JumpIf { target, .. } => Next::On(Some(target)),
                Effect::Call { target: Target::Code(target) } => {
                    written = written.with(module.machine.call_writes);
                    written = written.with(callees.written_at_depth(module, target, depth + 1));
                    Next::On(None)
                }
                Effect::Call { .. } | Effect::Jump { .. } | Effect::Invalid => {
                    written = all;
                    Next::Known
                }
                effect => {
                    written = written.with(effect.written());
                    Next::On(None)
                }
            };
            if written.both(all) == all {
                Next::Known
            } else {
                next
            }
        });
        let written = if was_read { written.both(all) } else { all };
        self.written.insert(address, written);
        written
    }
}

/// Whether the code at an address only jumps to a function of another module, as the entries of procedure linkage
/// tables do.
pub fn leads_elsewhere(module: &Module<'_>, address: u64) -> bool {
    let first = module.instruction_at(address);
    let jump = match first.effect {
        Effect::Nothing => module.instruction_at(address.wrapping_add(u64::from(first.length))),
        _ => first,
    };
    let pointer = match jump.effect {
        Effect::Jump { target: Target::Pointer(pointer) } => Some(pointer),
        _ => (module.machine.stub)(module.bytes_at(address), address),
    };
    pointer.map_or(false, |pointer| module.imports.contains_key(&pointer))
}

/// Reads the code from an address along all ways, each instruction once. Returns false if there is
/// too much of it, or some isn't in the file.
fn read_callee(
    callees: &mut Callees,
    module: &Module<'_>,
    address: u64,
    mut next: impl FnMut(&mut Callees, &Instruction) -> Next,
) -> bool {
    let (mut work, mut seen) = (vec![address], FxHashSet::with_capacity_and_hasher(USUALLY_READ, Default::default()));
    while let Some(mut address) = work.pop() {
        let mut bytes = module.bytes_at(address);
        while seen.insert(address) {
            if seen.len() > MOST_READ || callees.left == 0 || bytes.is_empty() {
                return false;
            }
            callees.left -= 1;
            let instruction = (module.machine.decode)(bytes, address);
            match next(callees, &instruction) {
                Next::On(other) => {
                    work.extend(other);
                    address = address.wrapping_add(u64::from(instruction.length));
                    bytes = match bytes.get(usize::from(instruction.length)..) {
                        Some(rest) if !rest.is_empty() => rest,
                        _ => module.bytes_at(address),
                    };
                }
                Next::At(other) => {
                    address = other;
                    bytes = module.bytes_at(address);
                }
                Next::End => break,
                Next::Known => return true,
            }
        }
    }
    true
}

/// Whether a function of another module doesn't return, by its name.
fn never_returns_by_name(name: &str) -> bool {
    let throws = name.starts_with("_ZSt") && (name.contains("__throw_") || name == "_ZSt9terminatev");
    let raises = name.starts_with("__gnat_rcheck_") || name.starts_with("__gnat_raise_");
    throws || raises || ENDING.contains(&name)
}
