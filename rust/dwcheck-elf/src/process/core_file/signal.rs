//! The signal that ended a process: its name, its code, who sent it, and at which address.

use nix::sys::signal;

/// The signal that ended a process.
#[derive(Clone, Copy, Debug, PartialEq, Eq)]
pub struct Signal {
    /// Its number.
    pub number: u32,
    /// Its cause (`si_code`). `None` if the core doesn't say.
    pub code: Option<i32>,
    /// For SIGSEGV, SIGBUS, SIGILL and SIGFPE: the address of the fault. For any other signal, this
    /// has no meaning.
    pub address: u64,
    /// The process that sent it. For signals that no process sent, this has no meaning.
    pub sender: Option<Sender>,
}

/// A process that sent a signal.
#[derive(Clone, Copy, Debug, PartialEq, Eq)]
pub struct Sender {
    /// The process's id.
    pub pid: u32,
    /// The id of its user.
    pub uid: u32,
}

/// Causes that a signal of any number may have.
const ANY: [(i32, &str); 8] = [
    (0, "SI_USER"),
    (0x80, "SI_KERNEL"),
    (-1, "SI_QUEUE"),
    (-2, "SI_TIMER"),
    (-3, "SI_MESGQ"),
    (-4, "SI_ASYNCIO"),
    (-5, "SI_SIGIO"),
    (-6, "SI_TKILL"),
];

/// The names of the causes 1, 2 and so on of the signals that the processor causes.
const ILL: [&str; 8] =
    ["ILL_ILLOPC", "ILL_ILLOPN", "ILL_ILLADR", "ILL_ILLTRP", "ILL_PRVOPC", "ILL_PRVREG", "ILL_COPROC", "ILL_BADSTK"];
const TRAP: [&str; 4] = ["TRAP_BRKPT", "TRAP_TRACE", "TRAP_BRANCH", "TRAP_HWBKPT"];
const BUS: [&str; 5] = ["BUS_ADRALN", "BUS_ADRERR", "BUS_OBJERR", "BUS_MCEERR_AR", "BUS_MCEERR_AO"];
const FPE: [&str; 8] =
    ["FPE_INTDIV", "FPE_INTOVF", "FPE_FLTDIV", "FPE_FLTOVF", "FPE_FLTUND", "FPE_FLTRES", "FPE_FLTINV", "FPE_FLTSUB"];
const SEGV: [&str; 4] = ["SEGV_MAPERR", "SEGV_ACCERR", "SEGV_BNDERR", "SEGV_PKUERR"];

impl Signal {
    /// The signal's name, such as `SIGSEGV`. `None` for a number without a name.
    pub fn name(&self) -> Option<&'static str> {
        let number = i32::try_from(self.number).ok()?;
        signal::Signal::try_from(number).ok().map(signal::Signal::as_str)
    }

    /// The name of its cause, such as `SEGV_MAPERR`.
    pub fn code_name(&self) -> Option<&'static str> {
        let code = self.code?;
        let any = ANY.iter().find(|(number, _)| *number == code).map(|(_, name)| *name);
        any.or_else(|| {
            let place = usize::try_from(code.checked_sub(1)?).ok()?;
            self.causes().get(place).copied()
        })
    }

    /// The address of the fault, if the processor caused the signal and gave one.
    pub fn fault_address(&self) -> Option<u64> {
        let is_fault = !self.causes().is_empty() && self.code.map_or(false, |code| code > 0 && code != 0x80);
        Some(self.address).filter(|_| is_fault)
    }

    /// The process that sent the signal, if one did: by `kill`, `sigqueue`, `tgkill` or a message queue.
    pub fn sent_by(&self) -> Option<Sender> {
        self.sender.filter(|_| matches!(self.code, Some(0 | -1 | -3 | -6)))
    }

    /// Whether an instruction caused the signal, which wasn't carried out. False for a breakpoint.
    pub fn is_fault(&self) -> bool {
        matches!(self.number, 4 | 7 | 8 | 11) && self.code.map_or(true, |code| code > 0)
    }

    /// Whether memory is its cause: SIGSEGV and SIGBUS.
    pub(crate) fn is_of_memory(&self) -> bool {
        matches!(self.number, 7 | 11)
    }

    fn causes(&self) -> &'static [&'static str] {
        match self.number {
            4 => &ILL,
            5 => &TRAP,
            7 => &BUS,
            8 => &FPE,
            11 => &SEGV,
            _ => &[],
        }
    }
}
