//! The rules that prevent false alarms of `trace`: why an instruction that was stepped isn't judged. Each has its name
//! in docs/TRACE.md.

use dwcheck_lint::judge::Unjudged;

macro_rules! rules {
    ($($(#[$doc:meta])* $rule:ident = $name:literal,)*) => {
        /// Why an instruction that was stepped isn't judged.
        #[derive(Clone, Copy, Debug, PartialEq, Eq)]
        pub enum Rule {
            $($(#[$doc])* $rule,)*
        }

        /// All rules, with their names.
        pub const RULES: &[(Rule, &str)] = &[$((Rule::$rule, $name),)*];
    };
}

rules! {
    /// No row covers it.
    NoRow = "no-row",
    /// The call of its function wasn't seen.
    UnknownFrame = "unknown-frame",
    /// The row says that the frame is the outermost one.
    Outermost = "outermost",
    /// The row describes where a jump such as `longjmp` goes to.
    JumpTarget = "jump-target",
    /// The function returns by `__builtin_eh_return`.
    ExceptionReturn = "exception-return",
    /// The stack pointer was moved by something else than a return, and the function isn't the one of the
    /// frame on top.
    AfterJump = "after-jump",
    /// A callee ran at full speed, and after its return the frame isn't the one that called it: a jump left
    /// that one, and the function was entered again.
    AfterCall = "after-call",
    /// The return address isn't where the call put it.
    MovedReturnAddress = "moved-return-address",
    /// It is the code to which a signal handler returns, and its rows aren't marked as such.
    SignalReturn = "signal-return",
}

/// How often each rule was used.
#[derive(Clone, Copy, Debug, Default, PartialEq, Eq)]
pub struct RuleCounts([u64; RULES.len()]);

impl RuleCounts {
    /// Counts an instruction.
    pub fn add(&mut self, rule: Rule) {
        self.0[rule as usize] += 1;
    }

    /// Each rule's name, and how many instructions weren't judged by it.
    pub fn named(&self) -> impl Iterator<Item = (&'static str, u64)> + '_ {
        RULES.iter().map(|(rule, name)| (*name, self.0[*rule as usize]))
    }
}

impl From<Unjudged> for Rule {
    fn from(unjudged: Unjudged) -> Rule {
        match unjudged {
            Unjudged::Outermost => Rule::Outermost,
            Unjudged::JumpTarget => Rule::JumpTarget,
            Unjudged::ExceptionReturn => Rule::ExceptionReturn,
        }
    }
}
