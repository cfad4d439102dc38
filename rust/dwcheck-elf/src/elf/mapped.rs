//! The bytes of files, mapped into memory, so that only the parts that are read take memory.

use memmap2::Mmap;
use nix::fcntl::{fcntl, FcntlArg, OFlag};
use std::fs::{File, OpenOptions};
use std::io::{self, Read};
use std::ops::{Deref, Range};
use std::os::unix::fs::OpenOptionsExt;
use std::os::unix::io::AsRawFd;
use std::path::Path;
use std::sync::Arc;

/// The most bytes that are read of a file that can't be mapped, such as a pipe.
pub const STREAM_LIMIT: u64 = 48 << 20;

/// Pages of memory have this many bytes, or a part of them.
const PAGE: usize = 1 << 16;

/// The first bytes of an ELF file, and those of a minidump.
const MAGIC: [&[u8]; 2] = [b"\x7fELF", b"MDMP"];

/// The bytes of a file. A clone has the same bytes, which aren't copied.
#[derive(Clone, Debug)]
pub struct Bytes(Arc<Held>);

#[derive(Debug)]
enum Held {
    Mapped(Mmap),
    Read(Vec<u8>),
}

impl Bytes {
    /// The bytes of an ELF file or a minidump. A regular file is mapped. Of any other file, such as a pipe, at most
    /// [`STREAM_LIMIT`] bytes are read, and only the first ones if they aren't those of one of the two. A
    /// FIFO that nobody writes to is empty.
    ///
    /// If another program cuts a file that is mapped, reading the lost part ends this program by a
    /// signal.
    ///
    /// # Errors
    ///
    /// If the file can't be opened or read, or has too many bytes.
    pub fn of_elf(path: &Path) -> io::Result<Bytes> {
        // Without O_NONBLOCK, opening a FIFO waits for somebody who writes to it.
        let file = OpenOptions::new().read(true).custom_flags(OFlag::O_NONBLOCK.bits()).open(path)?;
        let metadata = file.metadata()?;
        if metadata.is_file() {
            return Bytes::of_file(&file, metadata.len());
        }
        fcntl(file.as_raw_fd(), FcntlArg::F_SETFL(OFlag::empty()))?;
        Bytes::of_stream(file)
    }

    /// The bytes of a regular file with `size` bytes.
    pub fn of_file(file: &File, size: u64) -> io::Result<Bytes> {
        if size == 0 {
            return Ok(Bytes::from(Vec::new()));
        }
        // SAFETY: the file is only read. Programs that change it while it is mapped change what is
        // read here, which every reader of it has to expect of its input anyway.
        #[allow(unsafe_code)]
        let mapped = unsafe { Mmap::map(file) }?;
        Ok(Bytes(Arc::new(Held::Mapped(mapped))))
    }

    /// Gives back the memory of the bytes in a range, which won't be read again soon. If they are read, they are
    /// those of the file, as before.
    pub fn give_back(&self, range: Range<usize>) {
        let bytes = match &*self.0 {
            Held::Mapped(bytes) => bytes,
            Held::Read(_) => return,
        };
        let first = range.start.saturating_add(PAGE - 1) / PAGE * PAGE;
        let end = range.end.min(bytes.len()) / PAGE * PAGE;
        if let Some(unused) = bytes.get(first..end).filter(|unused| !unused.is_empty()) {
            let address = unused.as_ptr() as *mut libc::c_void;
            // SAFETY: the memory is a mapping of a file that is only read, so that the kernel reads the file again
            // if these bytes are needed. If it doesn't do what is asked, nothing changes.
            #[allow(unsafe_code)]
            let _ = unsafe { libc::madvise(address, unused.len(), libc::MADV_DONTNEED) };
        }
    }

    fn of_stream(mut file: File) -> io::Result<Bytes> {
        let mut bytes = Vec::new();
        file.by_ref().take(MAGIC[0].len() as u64).read_to_end(&mut bytes)?;
        if MAGIC.contains(&bytes.as_slice()) {
            // With more room than is filled, the buffer never grows by being copied.
            bytes.reserve_exact(STREAM_LIMIT as usize + 64);
            file.take(STREAM_LIMIT).read_to_end(&mut bytes)?;
        }
        if bytes.len() as u64 >= STREAM_LIMIT {
            let why = format!("it isn't a regular file, and has more than {} bytes", STREAM_LIMIT);
            return Err(io::Error::new(io::ErrorKind::Other, why));
        }
        Ok(Bytes::from(bytes))
    }
}

impl From<Vec<u8>> for Bytes {
    fn from(bytes: Vec<u8>) -> Self {
        Bytes(Arc::new(Held::Read(bytes)))
    }
}

impl Deref for Bytes {
    type Target = [u8];

    fn deref(&self) -> &[u8] {
        match &*self.0 {
            Held::Mapped(bytes) => bytes,
            Held::Read(bytes) => bytes,
        }
    }
}
