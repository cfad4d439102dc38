//! Ctrl-C while a file is fetched: the fetch ends, and the program goes on without the file.

#![allow(unsafe_code)]

use std::mem::MaybeUninit;
use std::sync::atomic::{AtomicBool, Ordering};

/// Whether Ctrl-C was pressed while a file was fetched.
static INTERRUPTED: AtomicBool = AtomicBool::new(false);

/// As long as it lives, the first Ctrl-C doesn't end the program.
pub(crate) struct Interrupt {
    before: Option<libc::sigaction>,
}

extern "C" fn on_interrupt(_: libc::c_int) {
    INTERRUPTED.store(true, Ordering::Relaxed);
}

/// Whether fetching was ended by Ctrl-C.
pub(crate) fn is_interrupted() -> bool {
    INTERRUPTED.load(Ordering::Relaxed)
}

impl Interrupt {
    /// Takes the signal. It isn't taken from a program that ignores it.
    pub fn taken() -> Self {
        let mut before = MaybeUninit::<libc::sigaction>::zeroed();
        // SAFETY: both structures are whole, and the handler only stores to a variable.
        let is_taken = unsafe {
            let mut action = MaybeUninit::<libc::sigaction>::zeroed().assume_init();
            action.sa_sigaction = on_interrupt as *const () as usize;
            action.sa_flags = libc::SA_RESETHAND;
            libc::sigaction(libc::SIGINT, std::ptr::null(), before.as_mut_ptr()) == 0
                && before.assume_init_ref().sa_sigaction != libc::SIG_IGN
                && libc::sigaction(libc::SIGINT, &action, std::ptr::null_mut()) == 0
        };
        // SAFETY: zeros are a whole structure, and so is what the kernel has written.
        Interrupt { before: is_taken.then(|| unsafe { before.assume_init() }) }
    }
}

impl Drop for Interrupt {
    fn drop(&mut self) {
        if let Some(before) = &self.before {
            // SAFETY: it is what was so before.
            unsafe { libc::sigaction(libc::SIGINT, before, std::ptr::null_mut()) };
        }
    }
}
