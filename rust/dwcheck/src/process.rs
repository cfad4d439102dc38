//! A process: its modules with their unwind tables, and look-ups in them.

mod walks;

use crate::fault::Error;
use crate::ffi;
use crate::module::{EhFrame, LoadedModule, Module, ModuleId};
use crate::row::Row;
use crate::rows::Rows;
use dwcheck_types::target::Target;
use std::fmt;
use std::mem::MaybeUninit;
use std::ptr::null_mut;

/// The number of bytes for which the first call of [`Process::rule_bytes`] has room. The expressions
/// of compilers are shorter.
const EXPRESSION_BYTES: usize = 64;

/// A process: its modules, each a compiled `.debug_frame` or `.eh_frame` section, or both, with a load
/// address and the range of addresses that it answers for.
///
/// A look-up uses the module that answers for the address. It finds that module in O(log n) time
/// among n modules. The addresses that are passed to look-ups and walks are as loaded: they are those
/// of the running process.
///
/// A `Process` is `Send` and `Sync`: any number of threads may look up and walk with one `Process`
/// at once, by `&self`, and no lock is taken. To change modules while others read, change another
/// process, which [`share`](Process::share) makes without copying the tables.
///
/// As measured on x86-64, [`add`](Process::add) takes 50 KB of stack. The walks take 2 KB, 4 KB if a
/// rule is an expression, and 18 KB if a register with a number of 96 or more has a known content;
/// [`unwind`](Process::unwind) takes 8 KB, besides 4 KB for the registers that it gives. If a thread's
/// stack is too small, the program ends, as with any stack overflow.
///
/// ```
/// # const SECTION: &[u8] = &[
/// #     0x14, 0, 0, 0, 0xff, 0xff, 0xff, 0xff, 4, 0, 8, 0, 1, 0x78, 0x10, 0x0c, 7, 8, 0x90, 1, 0, 0, 0, 0,
/// #     0x1c, 0, 0, 0, 0, 0, 0, 0, 0, 0x10, 0, 0, 0, 0, 0, 0, 0x20, 0, 0, 0, 0, 0, 0, 0,
/// #     0x41, 0x0e, 0x10, 0x86, 2, 0x43, 0x0d, 6,
/// # ];
/// use dwcheck::{Abi, Block, Module, Process, Registers, State, Stop, Target};
///
/// // SECTION covers the addresses 0x1000 to 0x101f; the module is loaded at 0x40_0000.
/// let mut process = Process::new(Target::LITTLE_64);
/// process.add(SECTION, Module::at(0x40_0000))?;
///
/// // The stopped thread: the instruction pointer, rbp, and a copy of the top of the stack.
/// let registers = Registers::from([(6, 0x7f00)]);
/// let mut stack = [0; 16];
/// stack[8..].copy_from_slice(&0x9999u64.to_le_bytes());
/// let memory = [Block::new(0x7f00, &stack)];
/// let state = State { registers: &registers, memory: &memory, abi: Abi::X86_64 };
///
/// let walk = process.backtrace(0x40_1010, &state, 50)?;
/// let addresses: Vec<u64> = walk.frames.iter().map(|frame| frame.address()).collect();
/// assert_eq!(addresses, [0x40_1010, 0x9999]);
/// assert_eq!(walk.stop, Stop::NotCovered);
/// # Ok::<(), dwcheck::Error>(())
/// ```
pub struct Process {
    raw: ffi::Process,
    target: Target,
}

// SAFETY: the library allows a process to go from one thread to another if the threads synchronize.
// In safe Rust they do so for every value that goes from one to another.
unsafe impl Send for Process {}

// SAFETY: the calls that this crate makes with a `&Process` only read: `dwcheck_module_at`,
// `dwcheck_row_at`, `dwcheck_is_signal_frame`, `dwcheck_is_signed`, `dwcheck_rule_bytes`,
// `dwcheck_unwind`, `dwcheck_backtrace`, `dwcheck_backtrace_cached`, `dwcheck_cursor_step`,
// `dwcheck_cursor_step_with` and `dwcheck_process_share` take the process by a pointer to const, and
// the library allows any number of them at once, in any threads. The calls that change a process,
// `dwcheck_process_add`, `_add_both`, `_remove` and `_close`, are made with a `&mut Process`.
unsafe impl Sync for Process {}

/// The id that a call of the library has added, or why it added none.
fn added(status: u32, id: u64, fault: ffi::Fault) -> Result<ModuleId, Error> {
    if status == ffi::OVERLAPS {
        return Err(Error::Overlaps(ModuleId(id)));
    }
    Error::check(status, fault)?;
    Ok(ModuleId(id))
}

impl Process {
    /// A process without modules, whose modules' sections are for this target. This allocates
    /// nothing.
    pub const fn new(target: Target) -> Process {
        Process {
            raw: ffi::Process {
                opaque: null_mut(),
                opaque_open: MaybeUninit::new(0),
            },
            target,
        }
    }

    /// The byte order and the address size that the sections of all modules have.
    pub fn target(&self) -> Target {
        self.target
    }

    /// Checks a module's section, compiles all its rows, and adds the module.
    ///
    /// The section's bytes aren't needed after the call. `module` says where the module is loaded,
    /// for which addresses it answers, and whether the section is `.debug_frame` or `.eh_frame`. No
    /// two modules may answer for the same address.
    ///
    /// This takes O(n log n) time, where n is the number of bytes of the section's programs and of
    /// the rows. The number of rows may be in proportion to the section's length. Also, the entries
    /// of the modules at higher addresses are moved.
    ///
    /// # Errors
    ///
    /// [`Error::Refused`] with the first fault of the section, [`Error::Range`], [`Error::Overlaps`] with the id of the
    /// other module, [`Error::NoRoom`], [`Error::NoMemory`] or [`Error::TooLong`]. After an error the process is
    /// unchanged.
    ///
    /// ```
    /// # const SECTION: &[u8] = &[
    /// #     0x14, 0, 0, 0, 0xff, 0xff, 0xff, 0xff, 4, 0, 8, 0, 1, 0x78, 0x10, 0x0c, 7, 8, 0x90, 1, 0, 0, 0, 0,
    /// #     0x1c, 0, 0, 0, 0, 0, 0, 0, 0, 0x10, 0, 0, 0, 0, 0, 0, 0x20, 0, 0, 0, 0, 0, 0, 0,
    /// #     0x41, 0x0e, 0x10, 0x86, 2, 0x43, 0x0d, 6,
    /// # ];
    /// use dwcheck::{Error, Module, Process, Target};
    ///
    /// // The file's code is mapped at 0x40_1000, and its section covers a part of that.
    /// let module = Module::at(0x40_0000).range(0x40_1000..=0x40_1fff).cookie(5);
    /// let mut process = Process::new(Target::LITTLE_64);
    /// let id = process.add(SECTION, module)?;
    /// let overlaps = process.add(SECTION, Module::at(0x40_0fe0));
    /// assert_eq!(overlaps, Err(Error::Overlaps(id)));
    ///
    /// let found = process.module_at(0x40_1010).unwrap();
    /// assert_eq!((found.id, found.cookie), (id, 5));
    /// assert!(process.remove(id));
    /// # Ok::<(), dwcheck::Error>(())
    /// ```
    pub fn add(&mut self, section: &[u8], module: Module) -> Result<ModuleId, Error> {
        let mut id = 0;
        let mut fault = ffi::Fault::default();
        // SAFETY: the process is borrowed exclusively, the section is only read, and the other
        // pointers are to locals.
        let status = unsafe {
            ffi::dwcheck_process_add(
                &mut self.raw,
                &module.raw(section, self.target),
                &mut id,
                &mut fault,
            )
        };
        added(status, id, fault)
    }

    /// Adds one module with both sections, as [`add`](Process::add) does with one.
    ///
    /// The row of an address is that of `.debug_frame`, or if that has none, that of `.eh_frame`. In
    /// some programs functions have rows in only one of the two. Where `.debug_frame` has a row, an
    /// address is neither one of a signal frame nor one at which return addresses are signed.
    ///
    /// `section` says what has to be known of `.eh_frame`; `module.eh_frame` isn't read. The module's
    /// room bounds each of its two tables. If the module has no range, it answers for the addresses
    /// from the first to the last one that either section covers.
    ///
    /// # Errors
    ///
    /// Those of [`add`](Process::add). A fault of `.eh_frame` has [`Section::EhFrame`](crate::Section::EhFrame),
    /// and comes only if `.debug_frame` has none.
    ///
    /// ```
    /// # const SECTION: &[u8] = &[
    /// #     0x14, 0, 0, 0, 0xff, 0xff, 0xff, 0xff, 4, 0, 8, 0, 1, 0x78, 0x10, 0x0c, 7, 8, 0x90, 1, 0, 0, 0, 0,
    /// #     0x1c, 0, 0, 0, 0, 0, 0, 0, 0, 0x10, 0, 0, 0, 0, 0, 0, 0x20, 0, 0, 0, 0, 0, 0, 0,
    /// #     0x41, 0x0e, 0x10, 0x86, 2, 0x43, 0x0d, 6,
    /// # ];
    /// # const EH_SECTION: &[u8] = &[
    /// #     0x14, 0, 0, 0, 0, 0, 0, 0, 1, b'z', b'R', 0, 1, 0x78, 0x10, 1, 0x0b, 0x0c, 7, 8, 0x90, 1, 0, 0,
    /// #     0x10, 0, 0, 0, 0x1c, 0, 0, 0, 0x30, 0x10, 0, 0, 0x20, 0, 0, 0, 0, 0, 0, 0,
    /// # ];
    /// use dwcheck::{EhFrame, Module, Process, Target};
    ///
    /// // SECTION covers the addresses 0x1000 to 0x101f, and EH_SECTION 0x1030 to 0x104f.
    /// let mut process = Process::new(Target::LITTLE_64);
    /// process.add_both(SECTION, EH_SECTION, EhFrame::at(0), Module::at(0))?;
    /// assert!(process.row(0x1010).is_some() && process.row(0x1030).is_some());
    /// assert!(process.row(0x1028).is_none());
    /// # Ok::<(), dwcheck::Error>(())
    /// ```
    pub fn add_both(
        &mut self,
        debug_frame: &[u8],
        eh_frame: &[u8],
        section: EhFrame,
        module: Module,
    ) -> Result<ModuleId, Error> {
        let mut module = module;
        module.eh_frame = None;
        let first = module.raw(debug_frame, self.target);
        let second = module.eh_frame(section).raw(eh_frame, self.target);
        let mut id = 0;
        let mut fault = ffi::Fault::default();
        // SAFETY: the process is borrowed exclusively, the sections are only read, and the other
        // pointers are to locals.
        let status = unsafe {
            ffi::dwcheck_process_add_both(&mut self.raw, &first, &second, &mut id, &mut fault)
        };
        added(status, id, fault)
    }

    /// Removes the module with this id. Returns whether there was such a module.
    pub fn remove(&mut self, id: ModuleId) -> bool {
        // SAFETY: the process is borrowed exclusively.
        let status = unsafe { ffi::dwcheck_process_remove(&mut self.raw, id.0) };
        status == ffi::DONE
    }

    /// The module that answers for an address, as loaded. `None` if no module does.
    ///
    /// This takes O(log n) time among n modules, and allocates nothing.
    pub fn module_at(&self, address: u64) -> Option<LoadedModule> {
        let mut raw = ffi::Loaded::default();
        // SAFETY: the process is only read, and `raw` is a local.
        let status = unsafe { ffi::dwcheck_module_at(&self.raw, address, &mut raw) };
        if status != ffi::DONE {
            return None;
        }
        Some(LoadedModule::of(&raw))
    }

    /// Removes all modules. The ids of modules that are added later count up from 1 again.
    pub fn clear(&mut self) {
        // SAFETY: the process is borrowed exclusively. A process may be closed more than once.
        unsafe { ffi::dwcheck_process_close(&mut self.raw) }
    }

    /// Makes another process with the same modules, for example to change its modules while other
    /// threads read this one.
    ///
    /// The modules keep their ids. The tables are shared, not copied, and are freed with the last
    /// process that has them. Modules that are later added to or removed from one of the two
    /// processes don't change the other.
    ///
    /// # Errors
    ///
    /// [`Error::NoMemory`] is the only error.
    ///
    /// ```
    /// # const SECTION: &[u8] = &[
    /// #     0x14, 0, 0, 0, 0xff, 0xff, 0xff, 0xff, 4, 0, 8, 0, 1, 0x78, 0x10, 0x0c, 7, 8, 0x90, 1, 0, 0, 0, 0,
    /// #     0x1c, 0, 0, 0, 0, 0, 0, 0, 0, 0x10, 0, 0, 0, 0, 0, 0, 0x20, 0, 0, 0, 0, 0, 0, 0,
    /// #     0x41, 0x0e, 0x10, 0x86, 2, 0x43, 0x0d, 6,
    /// # ];
    /// use dwcheck::{Module, Process, Target};
    /// use std::sync::{Arc, RwLock};
    ///
    /// // Threads clone the `Arc`, and read that process without the lock.
    /// let current = RwLock::new(Arc::new(Process::new(Target::LITTLE_64)));
    /// let reader = Arc::clone(&current.read().unwrap());
    ///
    /// let mut changed = reader.share()?;
    /// changed.add(SECTION, Module::at(0x40_0000))?;
    /// *current.write().unwrap() = Arc::new(changed);
    /// assert!(current.read().unwrap().row(0x40_1010).is_some());
    /// assert!(reader.row(0x40_1010).is_none()); // still reads the old one
    /// # Ok::<(), dwcheck::Error>(())
    /// ```
    pub fn share(&self) -> Result<Process, Error> {
        let mut other = Process::new(self.target);
        // SAFETY: this process is only read, and the other one is a local.
        let status = unsafe { ffi::dwcheck_process_share(&self.raw, &mut other.raw) };
        Error::check(status, ffi::Fault::default())?;
        Ok(other)
    }

    /// The row that covers an address, from the module that answers for the address. `None` if there
    /// is no such row.
    ///
    /// This takes O(log m + log n) time, where m is the number of modules and n the number of the
    /// module's rows. Memory is allocated only for the `Vec` of rules in the returned [`Row`].
    ///
    /// ```
    /// # const SECTION: &[u8] = &[
    /// #     0x14, 0, 0, 0, 0xff, 0xff, 0xff, 0xff, 4, 0, 8, 0, 1, 0x78, 0x10, 0x0c, 7, 8, 0x90, 1, 0, 0, 0, 0,
    /// #     0x1c, 0, 0, 0, 0, 0, 0, 0, 0, 0x10, 0, 0, 0, 0, 0, 0, 0x20, 0, 0, 0, 0, 0, 0, 0,
    /// #     0x41, 0x0e, 0x10, 0x86, 2, 0x43, 0x0d, 6,
    /// # ];
    /// use dwcheck::{CfaRule, Module, Process, Rule, Target};
    ///
    /// let mut process = Process::new(Target::LITTLE_64);
    /// process.add(SECTION, Module::at(0))?;
    /// let row = process.row(0x1003).unwrap();
    /// assert_eq!(row.addresses, 0x1001..0x1004);
    /// assert_eq!(row.cfa, CfaRule::RegisterAndOffset { register: 7, offset: 16 });
    /// assert_eq!(row.rules, [(6, Rule::Offset(-16)), (16, Rule::Offset(-8))]);
    /// # Ok::<(), dwcheck::Error>(())
    /// ```
    pub fn row(&self, address: u64) -> Option<Row> {
        let mut row = Row::empty();
        let mut slots = [ffi::Rule::default(); ffi::MAX_RULES];
        self.row_into(address, &mut slots, &mut row)?;
        Some(row)
    }

    /// For looking up the rows of many addresses: [`Rows::row`] gives the same rows as
    /// [`row`](Process::row), but its look-ups use the same buffers again and again, and so rarely
    /// allocate memory.
    pub fn rows(&self) -> Rows<'_> {
        Rows::new(self)
    }

    /// Whether an address, as loaded, is one of a signal frame, to which a signal handler returns, by
    /// the module's `.eh_frame`. A walk makes this test at each address that it looks up. The caller
    /// of a signal frame was interrupted, so a walk looks it up at its own address.
    pub fn is_signal_frame(&self, address: u64) -> bool {
        let mut flag = 0;
        // SAFETY: the process is only read, and `flag` is a local.
        unsafe { ffi::dwcheck_is_signal_frame(&self.raw, address, &mut flag) };
        flag != 0
    }

    /// Whether the return address of a frame is signed at an address, as loaded, by the module's
    /// `.eh_frame` for aarch64. A walk makes this test at each address that it looks up, and takes the
    /// signature off only where it holds.
    pub fn is_signed(&self, address: u64) -> bool {
        let mut flag = 0;
        // SAFETY: the process is only read, and `flag` is a local.
        unsafe { ffi::dwcheck_is_signed(&self.raw, address, &mut flag) };
        flag != 0
    }

    /// The bytes of a rule's expression in the row that covers an address: the rule of this register,
    /// or of the CFA if `register` is `None`. `None` if there is no row, or if the rule has no
    /// expression.
    ///
    /// The process has its own copy of these bytes, so the section isn't needed.
    ///
    /// ```
    /// # const SECTION: &[u8] = &[
    /// #     0x14, 0, 0, 0, 0xff, 0xff, 0xff, 0xff, 4, 0, 8, 0, 1, 0x78, 0x10, 0x0c, 7, 8, 0x90, 1, 0, 0, 0, 0,
    /// #     0x1c, 0, 0, 0, 0, 0, 0, 0, 0, 0x10, 0, 0, 0, 0, 0, 0, 0x20, 0, 0, 0, 0, 0, 0, 0,
    /// #     0x10, 6, 2, 0x23, 8, 0, 0, 0,
    /// # ];
    /// use dwcheck::{Module, Process, Target};
    ///
    /// let mut process = Process::new(Target::LITTLE_64);
    /// process.add(SECTION, Module::at(0))?;
    /// // register 6 is saved at the address that DW_OP_plus_uconst 8 gives
    /// assert_eq!(process.rule_bytes(0x1000, Some(6)), Some(vec![0x23, 8]));
    /// assert_eq!(process.rule_bytes(0x1000, None), None); // the CFA is register 7 plus 8
    /// # Ok::<(), dwcheck::Error>(())
    /// ```
    pub fn rule_bytes(&self, address: u64, register: Option<u16>) -> Option<Vec<u8>> {
        let mut bytes = vec![0; EXPRESSION_BYTES];
        let size = self.rule_bytes_into(address, register, &mut bytes)?;
        if size > bytes.len() {
            bytes.resize(size, 0);
            self.rule_bytes_into(address, register, &mut bytes)?;
        }
        bytes.truncate(size);
        Some(bytes)
    }

    /// Writes the bytes of a rule's expression to `bytes`, as many as fit, and returns their number.
    fn rule_bytes_into(
        &self,
        address: u64,
        register: Option<u16>,
        bytes: &mut [u8],
    ) -> Option<usize> {
        let mut size = 0;
        // SAFETY: the process is only read, `bytes` is borrowed exclusively, and `size` is a local.
        let status = unsafe {
            ffi::dwcheck_rule_bytes(
                &self.raw,
                address,
                register.map_or(ffi::CFA_RULE, u32::from),
                bytes.as_mut_ptr(),
                bytes.len(),
                &mut size,
            )
        };
        (status == ffi::DONE).then_some(size)
    }

    /// Writes the row that covers `address` into `row`. `slots` is where the library writes the
    /// row's rules. `None` if there is no row.
    pub(crate) fn row_into(
        &self,
        address: u64,
        slots: &mut [ffi::Rule],
        row: &mut Row,
    ) -> Option<()> {
        let mut raw = ffi::Row::default();
        // SAFETY: the process is only read, `slots` is borrowed exclusively, and `raw` is a local.
        let status = unsafe {
            ffi::dwcheck_row_at(
                &self.raw,
                address,
                &mut raw,
                slots.as_mut_ptr(),
                slots.len(),
            )
        };
        if status != ffi::DONE {
            return None;
        }
        row.set(&raw, slots)
    }

    /// The process, as the type that the library takes. It may only be read.
    pub(crate) fn raw(&self) -> *const ffi::Process {
        &self.raw
    }
}

impl Drop for Process {
    fn drop(&mut self) {
        self.clear();
    }
}

impl fmt::Debug for Process {
    fn fmt(&self, f: &mut fmt::Formatter<'_>) -> fmt::Result {
        f.debug_struct("Process")
            .field("target", &self.target)
            .finish_non_exhaustive()
    }
}
