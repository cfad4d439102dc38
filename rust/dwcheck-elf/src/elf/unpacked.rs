//! Core files and minidumps that are compressed as a whole, as systemd-coredump leaves them.
//!
//! They are decompressed as a stream into a file without a name, which is then mapped as others are. Blocks of zeros, of
//! which most core files have many, are holes and take no room.

use crate::elf::mapped::Bytes;
use crate::elf::nameless_file::{folder, nameless_file};
use flate2::read::MultiGzDecoder;
use std::fs::File;
use std::io::{self, ErrorKind, Read};
use std::os::unix::fs::FileExt;
use std::path::Path;
use xz2::read::XzDecoder;
use xz2::stream::{Stream, CONCATENATED};

/// The most bytes that a decompressed file may have, and how many of them may be other than zeros in whole blocks.
const MOST: u64 = 256 << 30;
const MOST_HELD: u64 = 32 << 30;

/// How many bytes are decompressed at once, and how many zeros make a hole.
const PART: usize = 1 << 16;
const BLOCK: usize = 4096;

/// The most memory that xz may take: its presets need at most 65 MB.
const XZ_MEMORY: u64 = 128 << 20;

/// The formats, by the first bytes of their files.
const FORMATS: [(&[u8], Format); 4] = [
    (b"\x28\xb5\x2f\xfd", Format::Zstd),
    (b"\x04\x22\x4d\x18", Format::Lz4),
    (b"\xfd7zXZ\0", Format::Xz),
    (b"\x1f\x8b", Format::Gzip),
];

/// A format of compressed files.
#[derive(Clone, Copy, Debug, PartialEq, Eq)]
enum Format {
    Zstd,
    Lz4,
    Xz,
    Gzip,
}

/// The bytes of a core file or a minidump, as [`Bytes::of_elf`] gives them, decompressed if the file is compressed by zstd,
/// lz4, xz or gzip. Then they are in a file without a name in the folder that `TMPDIR` names, or else in `/var/tmp`.
///
/// # Errors
///
/// If the file can't be opened, read or decompressed, has too many bytes, or if there is no room for them.
pub fn read_unpacked(path: &Path) -> io::Result<Bytes> {
    let bytes = Bytes::of_elf(path)?;
    match FORMATS.iter().find(|(start, _)| bytes.starts_with(start)) {
        // What came through a pipe can't be read again.
        Some((_, format)) if path.metadata()?.is_file() => unpack(File::open(path)?, *format),
        _ => Ok(bytes),
    }
}

fn unpack(packed: File, format: Format) -> io::Result<Bytes> {
    let folder = folder();
    let in_folder = |error: io::Error| {
        let why = format!("it can't be unpacked in {}: {}; TMPDIR may name another folder", folder.display(), error);
        io::Error::new(error.kind(), why)
    };
    let mut sparse = Sparse { file: nameless_file(&folder).map_err(in_folder)?, size: 0, held: 0 };
    let mut reader = decompressor(packed, format)?;
    let mut part = vec![0; PART];
    loop {
        let count = fill(&mut reader, &mut part).map_err(not_unpacked)?;
        let read = part.get(..count).unwrap_or(&[]);
        if read.is_empty() {
            break;
        }
        sparse.check_room(read.len())?;
        sparse.write(read).map_err(in_folder)?;
    }
    sparse.file.set_len(sparse.size).map_err(in_folder)?;
    Bytes::of_file(&sparse.file, sparse.size)
}

fn decompressor(packed: File, format: Format) -> io::Result<Box<dyn Read>> {
    Ok(match format {
        Format::Zstd => Box::new(dwcheck_zstd::Reader::new(packed)?),
        Format::Lz4 => Box::new(Lz4Reader::of(packed, dwcheck_lz4::Decoder::new().map_err(damaged)?)),
        Format::Xz => {
            let stream = Stream::new_stream_decoder(XZ_MEMORY, CONCATENATED).map_err(damaged)?;
            Box::new(XzDecoder::new_stream(packed, stream))
        }
        Format::Gzip => Box::new(MultiGzDecoder::new(packed)),
    })
}

/// Reads until a buffer is full, or up to the end. A file that was cut off ends where it was cut.
fn fill(reader: &mut dyn Read, buffer: &mut [u8]) -> io::Result<usize> {
    let mut count = 0;
    while let Some(rest) = buffer.get_mut(count..).filter(|rest| !rest.is_empty()) {
        match reader.read(rest) {
            Ok(0) => break,
            Ok(read) => count += read,
            Err(error) if error.kind() == ErrorKind::Interrupted => {}
            Err(error) if error.kind() == ErrorKind::UnexpectedEof => break,
            Err(error) => return Err(error),
        }
    }
    Ok(count)
}

/// A file of which blocks of zeros are holes.
struct Sparse {
    file: File,
    /// How many bytes it has, and how many of them take room.
    size: u64,
    held: u64,
}

impl Sparse {
    /// Checks that so many bytes more aren't too many.
    fn check_room(&self, count: usize) -> io::Result<()> {
        if self.size.saturating_add(count as u64) > MOST || self.held > MOST_HELD {
            let why = format!("unpacked, it has more than {} GB, or {} GB without zeros", MOST >> 30, MOST_HELD >> 30);
            return Err(io::Error::new(ErrorKind::Other, why));
        }
        Ok(())
    }

    fn write(&mut self, bytes: &[u8]) -> io::Result<()> {
        for block in bytes.chunks(BLOCK) {
            if block != [0; BLOCK].get(..block.len()).unwrap_or(&[]) {
                self.file.write_all_at(block, self.size)?;
                self.held += block.len() as u64;
            }
            self.size += block.len() as u64;
        }
        Ok(())
    }
}

/// What a file compressed by lz4 holds.
struct Lz4Reader {
    packed: File,
    decoder: dwcheck_lz4::Decoder,
    buffer: Vec<u8>,
    /// The bytes of the buffer that the decoder hasn't taken yet: from where, and up to where.
    rest: (usize, usize),
}

impl Lz4Reader {
    fn of(packed: File, decoder: dwcheck_lz4::Decoder) -> Self {
        Lz4Reader { packed, decoder, buffer: vec![0; PART], rest: (0, 0) }
    }
}

impl Read for Lz4Reader {
    fn read(&mut self, output: &mut [u8]) -> io::Result<usize> {
        loop {
            let (begin, end) = self.rest;
            let input = self.buffer.get(begin..end).unwrap_or(&[]);
            let (taken, given, ran) = self.decoder.run(input, output);
            ran.map_err(damaged)?;
            self.rest.0 = begin + taken;
            if given > 0 {
                return Ok(given);
            }
            if taken == 0 {
                self.rest = (0, self.packed.read(&mut self.buffer)?);
                if self.rest.1 == 0 {
                    return Ok(0);
                }
            }
        }
    }
}

fn damaged(error: impl std::error::Error + Send + Sync + 'static) -> io::Error {
    io::Error::new(ErrorKind::InvalidData, error)
}

fn not_unpacked(error: io::Error) -> io::Error {
    io::Error::new(error.kind(), format!("it can't be unpacked: {}", error))
}
