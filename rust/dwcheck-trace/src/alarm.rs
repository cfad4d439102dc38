//! Wakes this program regularly while it waits for the threads that it traces, and notes the signals that
//! ask it to end.

#![allow(unsafe_code)]

use nix::errno::Errno;
use nix::sys::signal::{sigaction, SaFlags, SigAction, SigEvent, SigHandler, SigSet, SigevNotify, Signal};
use nix::sys::timer::{Expiration, Timer, TimerSetTimeFlags};
use nix::time::ClockId;
use std::sync::atomic::{AtomicI32, Ordering};
use std::time::Duration;

/// How often this program is woken.
const PERIOD: Duration = Duration::from_millis(50);

/// The signal that asked this program to end, 0 if none did.
static ASKED: AtomicI32 = AtomicI32::new(0);

/// The handlers and the timer, which are there until this is dropped.
pub struct Alarm {
    before: Vec<(Signal, SigAction)>,
    timer: Option<Timer>,
}

/// What is done about the signals that ask a program to end.
#[derive(Clone, Copy, Debug, PartialEq, Eq)]
pub enum Asked {
    /// The program that is traced gets those of the terminal too, and decides. Only `SIGTERM`, which is
    /// for this program alone, is noted.
    Passed,
    /// All are noted.
    Noted,
}

extern "C" fn note_alarm(signal: i32) {
    ASKED.store(signal, Ordering::Relaxed);
}

extern "C" fn ignore_signal(_: i32) {}

impl Alarm {
    /// Installs the handlers, and starts the timer.
    pub fn install(asked: Asked) -> Alarm {
        ASKED.store(0, Ordering::Relaxed);
        let mut alarm = Alarm { before: Vec::new(), timer: None };
        let terminal = if asked == Asked::Noted { note_alarm } else { ignore_signal };
        alarm.handle(Signal::SIGALRM, ignore_signal);
        alarm.handle(Signal::SIGTERM, note_alarm);
        for signal in [Signal::SIGINT, Signal::SIGQUIT, Signal::SIGHUP] {
            alarm.handle(signal, terminal);
        }
        alarm.timer = alarm_timer().ok();
        alarm
    }

    /// The signal that asked this program to end. It is given once.
    pub fn take(&self) -> Option<i32> {
        Some(ASKED.swap(0, Ordering::Relaxed)).filter(|signal| *signal != 0)
    }

    fn handle(&mut self, signal: Signal, handler: extern "C" fn(i32)) {
        // Without SA_RESTART, a signal interrupts waiting.
        let action = SigAction::new(SigHandler::Handler(handler), SaFlags::empty(), SigSet::empty());
        // SAFETY: the handlers only write an atomic number.
        let before = unsafe { sigaction(signal, &action) };
        self.before.extend(before.ok().map(|before| (signal, before)));
    }
}

impl Drop for Alarm {
    fn drop(&mut self) {
        self.timer = None;
        for (signal, before) in &self.before {
            // SAFETY: the handler is the one that was there before.
            let _: Result<SigAction, Errno> = unsafe { sigaction(*signal, before) };
        }
    }
}

/// A timer that sends `SIGALRM` to this program.
fn alarm_timer() -> Result<Timer, Errno> {
    let event = SigEvent::new(SigevNotify::SigevSignal { signal: Signal::SIGALRM, si_value: 0 });
    let mut timer = Timer::new(ClockId::CLOCK_MONOTONIC, event)?;
    timer.set(Expiration::Interval(PERIOD.into()), TimerSetTimeFlags::empty())?;
    Ok(timer)
}
