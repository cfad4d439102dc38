//! Decompresses by libzstd: whole frames, as sections of ELF files are compressed, and streams, as perf compresses
//! recordings.
//!
//! The crate `zstd-sys` makes its declarations anew in each build, by bindgen and libclang, which takes longer to
//! compile than most of what is here. These are the seven calls of `zstd.h` that are needed, which are the same in each
//! version of libzstd since 1.0.

#![warn(missing_docs)]
#![deny(unsafe_op_in_unsafe_fn)]

use std::error::Error;
use std::ffi::CStr;
use std::fmt;
use std::io::{self, Read};
use std::ops::Range;
use std::os::raw::{c_char, c_uint, c_void};
use std::ptr::NonNull;

/// How many bytes of a stream are read at once.
const PART: usize = 1 << 16;

/// `ZSTD_inBuffer`.
#[repr(C)]
struct Input {
    bytes: *const c_void,
    size: usize,
    position: usize,
}

/// `ZSTD_outBuffer`.
#[repr(C)]
struct Output {
    bytes: *mut c_void,
    size: usize,
    position: usize,
}

#[link(name = "zstd")]
extern "C" {
    fn ZSTD_decompress(to: *mut c_void, capacity: usize, from: *const c_void, size: usize) -> usize;
    fn ZSTD_isError(code: usize) -> c_uint;
    fn ZSTD_getErrorName(code: usize) -> *const c_char;
    fn ZSTD_createDStream() -> *mut c_void;
    fn ZSTD_initDStream(stream: *mut c_void) -> usize;
    fn ZSTD_decompressStream(stream: *mut c_void, output: *mut Output, input: *mut Input) -> usize;
    fn ZSTD_freeDStream(stream: *mut c_void) -> usize;
}

/// Why bytes can't be decompressed, in the words of libzstd.
#[derive(Clone, Copy, Debug, PartialEq, Eq)]
pub struct ZstdError(&'static str);

/// The result of a call: a number, or an error.
fn zstd_result(code: usize) -> Result<usize, ZstdError> {
    // SAFETY: both take any number, and the name is a constant text that ends with a zero.
    let (is_error, name) = unsafe { (ZSTD_isError(code) != 0, CStr::from_ptr(ZSTD_getErrorName(code))) };
    match is_error {
        true => Err(ZstdError(name.to_str().unwrap_or("an error"))),
        false => Ok(code),
    }
}

/// The bytes that whole frames hold, which may be up to `capacity`.
///
/// # Errors
///
/// If the frames are damaged, or hold more bytes.
pub fn decompress(frames: &[u8], capacity: usize) -> Result<Vec<u8>, ZstdError> {
    let mut bytes: Vec<u8> = Vec::with_capacity(capacity);
    // SAFETY: `bytes` has room for `capacity` bytes, which needn't be initialized, and `frames` is borrowed meanwhile.
    let code = unsafe { ZSTD_decompress(bytes.as_mut_ptr().cast(), capacity, frames.as_ptr().cast(), frames.len()) };
    let size = zstd_result(code)?;
    // SAFETY: that many bytes were written, at most `capacity`.
    unsafe { bytes.set_len(size) };
    Ok(bytes)
}

/// Decompresses a stream of frames, a part at a time.
pub struct Decoder(NonNull<c_void>);

// SAFETY: a stream of libzstd belongs to no thread, and each call that uses it takes `&mut self`.
unsafe impl Send for Decoder {}

// SAFETY: no call takes `&self`.
unsafe impl Sync for Decoder {}

impl Decoder {
    /// A decoder at the beginning of a stream.
    ///
    /// # Errors
    ///
    /// If memory is short.
    pub fn new() -> Result<Decoder, ZstdError> {
        // SAFETY: the call has no conditions. NULL means that memory is short.
        let stream = NonNull::new(unsafe { ZSTD_createDStream() }).ok_or(ZstdError("not enough memory"))?;
        let decoder = Decoder(stream);
        // SAFETY: the stream is one of libzstd.
        zstd_result(unsafe { ZSTD_initDStream(decoder.0.as_ptr()) })?;
        Ok(decoder)
    }

    /// Decompresses some of `input` into `output`. Returns how many bytes it read, how many it wrote, and whether
    /// that went well.
    pub fn run(&mut self, input: &[u8], output: &mut [u8]) -> (usize, usize, Result<(), ZstdError>) {
        let mut input = Input { bytes: input.as_ptr().cast(), size: input.len(), position: 0 };
        let mut output = Output { bytes: output.as_mut_ptr().cast(), size: output.len(), position: 0 };
        // SAFETY: the stream is one of libzstd, and both buffers have that many bytes.
        let code = unsafe { ZSTD_decompressStream(self.0.as_ptr(), &mut output, &mut input) };
        (input.position, output.position, zstd_result(code).map(drop))
    }
}

impl Drop for Decoder {
    fn drop(&mut self) {
        // SAFETY: the stream is one of libzstd, and isn't used after this.
        unsafe { ZSTD_freeDStream(self.0.as_ptr()) };
    }
}

impl fmt::Debug for Decoder {
    fn fmt(&self, f: &mut fmt::Formatter<'_>) -> fmt::Result {
        f.debug_struct("Decoder").finish_non_exhaustive()
    }
}

/// What a stream of frames holds.
#[derive(Debug)]
pub struct Reader<R> {
    frames: R,
    decoder: Decoder,
    buffer: Vec<u8>,
    /// The bytes of the buffer that the decoder hasn't taken yet.
    rest: Range<usize>,
}

impl<R: Read> Reader<R> {
    /// A reader at the beginning of a stream.
    ///
    /// # Errors
    ///
    /// If memory is short.
    pub fn new(frames: R) -> io::Result<Reader<R>> {
        let decoder = Decoder::new().map_err(invalid_data)?;
        Ok(Reader { frames, decoder, buffer: vec![0; PART], rest: 0..0 })
    }
}

impl<R: Read> Read for Reader<R> {
    fn read(&mut self, output: &mut [u8]) -> io::Result<usize> {
        loop {
            let input = self.buffer.get(self.rest.clone()).unwrap_or(&[]);
            let (taken, given, ran) = self.decoder.run(input, output);
            ran.map_err(invalid_data)?;
            self.rest.start += taken;
            if given > 0 {
                return Ok(given);
            }
            if taken == 0 {
                self.rest = 0..self.frames.read(&mut self.buffer)?;
                if self.rest.is_empty() {
                    return Ok(0);
                }
            }
        }
    }
}

fn invalid_data(error: ZstdError) -> io::Error {
    io::Error::new(io::ErrorKind::InvalidData, error)
}

impl fmt::Display for ZstdError {
    fn fmt(&self, f: &mut fmt::Formatter<'_>) -> fmt::Result {
        f.write_str(self.0)
    }
}

impl Error for ZstdError {}

#[cfg(test)]
mod tests {
    use super::{decompress, Decoder};

    /// A frame with its size and one block, which isn't compressed (RFC 8878).
    const FRAME: &[u8] = b"\x28\xb5\x2f\xfd\x20\x05\x29\x00\x00hello";

    #[test]
    fn whole_frames() {
        assert_eq!(decompress(FRAME, 5).unwrap(), b"hello");
        assert_eq!(decompress(&FRAME.repeat(2), 99).unwrap(), b"hellohello");
        assert_eq!(decompress(b"", 5).unwrap(), b"");
        assert_eq!(decompress(FRAME, 4).unwrap_err().to_string(), "Destination buffer is too small");
        assert_eq!(decompress(&FRAME[..9], 5).unwrap_err().to_string(), "Src size is incorrect");
        assert_eq!(decompress(b"no frame at all", 5).unwrap_err().to_string(), "Unknown frame descriptor");
    }

    #[test]
    fn a_stream_in_parts() {
        let mut decoder = Decoder::new().unwrap();
        let (mut bytes, mut at) = (Vec::new(), 0);
        let frames = FRAME.repeat(3);
        while at < frames.len() {
            let mut part = [0; 2];
            let (read, written, ran) = decoder.run(&frames[at..frames.len().min(at + 3)], &mut part);
            assert_eq!(ran, Ok(()));
            assert!(read > 0 || written > 0);
            at += read;
            bytes.extend_from_slice(&part[..written]);
        }
        loop {
            let mut part = [0; 2];
            let (_, written, ran) = decoder.run(&[], &mut part);
            assert_eq!(ran, Ok(()));
            bytes.extend_from_slice(&part[..written]);
            if written == 0 {
                break;
            }
        }
        assert_eq!(bytes, b"hellohellohello");
        assert!(Decoder::new().unwrap().run(b"no frame at all", &mut [0; 9]).2.is_err());
    }
}
