//! A cache, which remembers where recent walks found their rows.

use crate::ffi;
use std::fmt;

/// Remembers where recent walks found their rows, for
/// [`Process::backtrace_cached`](crate::Process::backtrace_cached).
///
/// It is plain data of 4,096 bytes, which borrows nothing. A walk gives the same frames whatever is
/// in its cache: one from before modules were added or removed, or one of another process, only
/// costs time. Each walk borrows it exclusively, so use one for each thread. If the stack is
/// small, keep it in a `Box` or a thread-local.
#[derive(Clone)]
pub struct Cache {
    raw: ffi::Cache,
}

impl Cache {
    /// A cache of a thread that has looked up nothing yet.
    pub const fn new() -> Cache {
        Cache {
            raw: ffi::Cache::EMPTY,
        }
    }

    /// The cache, as the type that the library takes.
    pub(crate) fn raw(&mut self) -> &mut ffi::Cache {
        &mut self.raw
    }
}

impl Default for Cache {
    fn default() -> Cache {
        Cache::new()
    }
}

impl fmt::Debug for Cache {
    fn fmt(&self, f: &mut fmt::Formatter<'_>) -> fmt::Result {
        f.debug_struct("Cache").finish_non_exhaustive()
    }
}
