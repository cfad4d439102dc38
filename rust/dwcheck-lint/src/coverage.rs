//! Counts of what was judged, and of what wasn't, by the reason.

use crate::judge::Unjudged;

/// Why an instruction wasn't judged.
#[derive(Clone, Copy, Debug, PartialEq, Eq)]
pub enum Reason {
    /// The row computes the CFA from the stack pointer, and that isn't known.
    StackPointer,
    /// The row computes the CFA from another register, and that isn't known.
    Register,
    /// The value of the row's expression for the CFA isn't known.
    Expression,
    /// The row says that the frame is the outermost one.
    Outermost,
    /// The row describes where a jump such as `longjmp` goes to.
    JumpTarget,
    /// The function returns by `__builtin_eh_return`.
    ExceptionReturn,
    /// The rows of the FDE are meant for calls only, and the instruction isn't a call.
    CallsOnly,
}

/// All reasons, with their names.
pub const REASONS: [(Reason, &str); 7] = [
    (Reason::StackPointer, "stack-pointer"),
    (Reason::Register, "register"),
    (Reason::Expression, "expression"),
    (Reason::Outermost, "outermost"),
    (Reason::JumpTarget, "jump-target"),
    (Reason::ExceptionReturn, "exception-return"),
    (Reason::CallsOnly, "calls-only"),
];

/// Counts of what was judged.
#[derive(Clone, Copy, Debug, Default, PartialEq, Eq)]
pub struct Coverage {
    /// FDEs whose code was read.
    pub fdes: u32,
    /// FDEs of signal frames, which aren't judged.
    pub signal_frames: u32,
    /// FDEs whose code isn't in the file, or whose rows can't be read.
    pub unread: u32,
    /// Instructions that were read.
    pub instructions: u32,
    /// Instructions at which the CFA was judged.
    pub judged: u32,
    /// Among those that were judged, instructions at which something isn't known of a register or of
    /// the return address.
    pub partly: u32,
    /// Instructions that are judged from a row that was taken as an assumption, because nothing is seen
    /// to lead to them.
    pub assumed: u32,
    /// Jumps that aren't followed.
    pub unknown_jumps: u32,
    /// Places in FDEs that aren't code.
    pub data: u32,
    /// Places that are reached and whose bytes can't be decoded. Judgement ends there.
    pub undecoded: u32,
    /// Instructions that were not judged, by the reason.
    pub unjudged: [u32; REASONS.len()],
}

impl Coverage {
    /// Counts an instruction that wasn't judged.
    pub fn skip(&mut self, reason: Reason) {
        self.unjudged[reason as usize] += 1;
    }

    /// How many instructions weren't judged for a reason.
    pub fn skipped(&self, reason: Reason) -> u32 {
        self.unjudged[reason as usize]
    }

    /// Adds the counts of another part of the code.
    pub fn add(&mut self, other: &Coverage) {
        self.fdes += other.fdes;
        self.signal_frames += other.signal_frames;
        self.unread += other.unread;
        self.instructions += other.instructions;
        self.judged += other.judged;
        self.partly += other.partly;
        self.assumed += other.assumed;
        self.unknown_jumps += other.unknown_jumps;
        self.data += other.data;
        self.undecoded += other.undecoded;
        self.unjudged.iter_mut().zip(&other.unjudged).for_each(|(one, other)| *one += other);
    }

    /// Each count with its name.
    pub fn named(&self) -> Vec<(&'static str, u32)> {
        let mut copy = *self;
        copy.named_mut().map(|(name, count)| (name, *count)).collect()
    }

    /// The counts that have these names. Other names are passed over.
    pub fn of_named<'n>(counts: impl IntoIterator<Item = (&'n str, u32)>) -> Coverage {
        let mut coverage = Coverage::default();
        for (name, count) in counts {
            let found = coverage.named_mut().find(|(known, _)| *known == name);
            found.into_iter().for_each(|(_, own)| *own = count);
        }
        coverage
    }

    fn named_mut(&mut self) -> impl Iterator<Item = (&'static str, &mut u32)> {
        let counts = [
            ("fdes", &mut self.fdes),
            ("signal-frames", &mut self.signal_frames),
            ("unread", &mut self.unread),
            ("instructions", &mut self.instructions),
            ("judged", &mut self.judged),
            ("partly", &mut self.partly),
            ("assumed", &mut self.assumed),
            ("unknown-jumps", &mut self.unknown_jumps),
            ("data", &mut self.data),
            ("undecoded", &mut self.undecoded),
        ];
        // The reasons are in the order of their numbers.
        counts.into_iter().chain(REASONS.iter().map(|(_, name)| *name).zip(&mut self.unjudged))
    }
}

impl From<Unjudged> for Reason {
    fn from(unjudged: Unjudged) -> Reason {
        match unjudged {
            Unjudged::Outermost => Reason::Outermost,
            Unjudged::JumpTarget => Reason::JumpTarget,
            Unjudged::ExceptionReturn => Reason::ExceptionReturn,
        }
    }
}
