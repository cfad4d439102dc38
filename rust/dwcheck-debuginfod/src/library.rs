//! Calls `libdebuginfod`.

#![allow(unsafe_code)]

use libc::{c_char, c_int, c_long, c_uchar, c_void};
use std::ffi::CStr;
use std::fmt;
use std::os::unix::io::{FromRawFd, OwnedFd};
use std::path::PathBuf;
use std::ptr::NonNull;

/// The names of the library, that of a release first.
const NAMES: [&[u8]; 2] = [b"libdebuginfod.so.1\0", b"libdebuginfod.so\0"];

type Handle = *mut c_void;
type Begin = unsafe extern "C" fn() -> Handle;
type End = unsafe extern "C" fn(Handle);
type Find = unsafe extern "C" fn(Handle, *const c_uchar, c_int, *mut *mut c_char) -> c_int;
type ProgressFn = extern "C" fn(Handle, c_long, c_long) -> c_int;
type SetProgress = unsafe extern "C" fn(Handle, Option<ProgressFn>);
type SetUserData = unsafe extern "C" fn(Handle, *mut c_void);
type GetUserData = unsafe extern "C" fn(Handle) -> *mut c_void;

/// What is fetched.
#[derive(Clone, Copy, Debug, PartialEq, Eq, Hash)]
pub enum Artifact {
    /// A program or a library.
    Executable,
    /// Its separate file of debug information.
    DebugInfo,
}

/// Why nothing can be fetched.
#[derive(Clone, Copy, Debug, PartialEq, Eq)]
pub enum DebuginfodError {
    /// The library isn't installed.
    NoLibrary,
    /// The library is older than release 0.179 of elfutils.
    OldLibrary,
    /// The library can't begin.
    NoClient,
    /// The library has returned this error (`errno`).
    Failed(i32),
}

/// What is called while a file is fetched, with the number of bytes so far and of all, or steps. True ends it.
type OnProgress = dyn FnMut(u64, u64) -> bool;

/// The library, with a client.
pub(crate) struct Library {
    handle: NonNull<c_void>,
    end: End,
    find_executable: Find,
    find_debuginfo: Find,
    set_user_data: SetUserData,
}

// SAFETY: a client may be used by any thread, by one at a time, and all calls but the last one need `&mut self`.
unsafe impl Send for Library {}

/// The function by which the callback finds what it is for. There is one library in a process.
static GET_USER_DATA: std::sync::Mutex<Option<GetUserData>> = std::sync::Mutex::new(None);

/// The address of a function of an open library.
fn symbol(library: NonNull<c_void>, name: &'static [u8]) -> Result<NonNull<c_void>, DebuginfodError> {
    let name = CStr::from_bytes_with_nul(name).map_err(|_| DebuginfodError::OldLibrary)?;
    // SAFETY: the library is open, and the name ends with 0.
    let found = unsafe { libc::dlsym(library.as_ptr(), name.as_ptr()) };
    NonNull::new(found).ok_or(DebuginfodError::OldLibrary)
}

/// A function of an open library, as this type.
macro_rules! function {
    ($library:expr, $name:literal, $type:ty) => {
        // SAFETY: elfutils' header debuginfod.h declares the function with this type.
        unsafe {
            std::mem::transmute::<*mut c_void, $type>(symbol($library, concat!($name, "\0").as_bytes())?.as_ptr())
        }
    };
}

impl Library {
    /// Loads the library, and begins a client.
    pub fn load() -> Result<Self, DebuginfodError> {
        let open = |name: &&[u8]| {
            // SAFETY: the name ends with 0. The library's own initialization is that of libcurl and OpenSSL.
            NonNull::new(unsafe { libc::dlopen(name.as_ptr().cast(), libc::RTLD_NOW) })
        };
        let library = NAMES.iter().find_map(open).ok_or(DebuginfodError::NoLibrary)?;
        let begin = function!(library, "debuginfod_begin", Begin);
        let end = function!(library, "debuginfod_end", End);
        let find_executable = function!(library, "debuginfod_find_executable", Find);
        let find_debuginfo = function!(library, "debuginfod_find_debuginfo", Find);
        let set_progress = function!(library, "debuginfod_set_progressfn", SetProgress);
        let set_user_data = function!(library, "debuginfod_set_user_data", SetUserData);
        let get_user_data = function!(library, "debuginfod_get_user_data", GetUserData);
        if let Ok(mut known) = GET_USER_DATA.lock() {
            *known = Some(get_user_data);
        }
        // SAFETY: it takes nothing.
        let handle = NonNull::new(unsafe { begin() }).ok_or(DebuginfodError::NoClient)?;
        // SAFETY: the handle is that of a client, and the callback stays.
        unsafe { set_progress(handle.as_ptr(), Some(on_progress)) };
        Ok(Library { handle, end, find_executable, find_debuginfo, set_user_data })
    }

    /// Fetches a file, and returns its path in the cache. `None` if no server has it.
    pub fn find(
        &mut self,
        artifact: Artifact,
        build_id: &[u8],
        mut progress: Box<OnProgress>,
    ) -> Result<Option<PathBuf>, DebuginfodError> {
        let find = match artifact {
            Artifact::Executable => self.find_executable,
            Artifact::DebugInfo => self.find_debuginfo,
        };
        let size = c_int::try_from(build_id.len()).map_err(|_| DebuginfodError::Failed(libc::EINVAL))?;
        if size == 0 {
            return Ok(None);
        }
        let mut path = std::ptr::null_mut();
        let data: *mut Box<OnProgress> = &mut progress;
        let handle = self.handle.as_ptr();
        // SAFETY: the build id has `size` bytes (0 would say that it is a text). `progress` lives until the data is
        // taken back. The call is made by one thread, since it needs `self` alone.
        let result = unsafe {
            (self.set_user_data)(handle, data.cast());
            let result = find(handle, build_id.as_ptr(), size, &mut path);
            (self.set_user_data)(handle, std::ptr::null_mut());
            result
        };
        if result < 0 {
            return match -result {
                libc::ENOENT => Ok(None),
                error => Err(DebuginfodError::Failed(error)),
            };
        }
        // SAFETY: the library returns a descriptor that is the caller's, and a path from malloc.
        unsafe { drop(OwnedFd::from_raw_fd(result)) };
        Ok(take_path(path))
    }
}

/// The path that the library has allocated.
fn take_path(path: *mut c_char) -> Option<PathBuf> {
    use std::os::unix::ffi::OsStringExt;
    let path = NonNull::new(path)?;
    // SAFETY: it ends with 0, and is from malloc.
    let bytes = unsafe {
        let bytes = CStr::from_ptr(path.as_ptr()).to_bytes().to_vec();
        libc::free(path.as_ptr().cast());
        bytes
    };
    Some(PathBuf::from(std::ffi::OsString::from_vec(bytes)))
}

/// What the library calls now and then. A result other than 0 ends what it does.
extern "C" fn on_progress(handle: Handle, done: c_long, all: c_long) -> c_int {
    let known = GET_USER_DATA.lock().ok().and_then(|known| *known);
    // SAFETY: the handle is the client's that calls, and the data what `find` has set.
    let progress = known.and_then(|get| unsafe { (get(handle) as *mut Box<OnProgress>).as_mut() });
    let number = |number: c_long| u64::try_from(number).unwrap_or(0);
    progress.map_or(0, |progress| c_int::from(progress(number(done), number(all))))
}

impl Drop for Library {
    fn drop(&mut self) {
        // SAFETY: the handle is that of a client that hasn't ended.
        unsafe { (self.end)(self.handle.as_ptr()) };
    }
}

impl fmt::Display for DebuginfodError {
    fn fmt(&self, f: &mut fmt::Formatter<'_>) -> fmt::Result {
        match self {
            DebuginfodError::NoLibrary => f.write_str("libdebuginfod.so.1 isn't installed"),
            DebuginfodError::OldLibrary => f.write_str("libdebuginfod.so.1 is older than release 0.179"),
            DebuginfodError::NoClient => f.write_str("libdebuginfod can't begin"),
            DebuginfodError::Failed(error) => std::io::Error::from_raw_os_error(*error).fmt(f),
        }
    }
}

impl std::error::Error for DebuginfodError {}
