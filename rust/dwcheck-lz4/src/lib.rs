//! Decompresses by liblz4: streams of frames, as systemd and others have compressed core files.
//!
//! Debian 12 has no crate that does it. These are the five calls of `lz4frame.h` that are needed, which are the same in
//! each version of liblz4 since 1.8.

#![warn(missing_docs)]
#![deny(unsafe_op_in_unsafe_fn)]

use std::error::Error;
use std::ffi::CStr;
use std::fmt;
use std::os::raw::{c_char, c_uint, c_void};
use std::ptr::{null, null_mut, NonNull};

/// The version of the interface (`LZ4F_VERSION`).
const VERSION: c_uint = 100;

#[link(name = "lz4")]
extern "C" {
    fn LZ4F_createDecompressionContext(context: *mut *mut c_void, version: c_uint) -> usize;
    fn LZ4F_freeDecompressionContext(context: *mut c_void) -> usize;
    fn LZ4F_decompress(
        context: *mut c_void,
        to: *mut c_void,
        to_size: *mut usize,
        from: *const c_void,
        from_size: *mut usize,
        options: *const c_void,
    ) -> usize;
    fn LZ4F_isError(code: usize) -> c_uint;
    fn LZ4F_getErrorName(code: usize) -> *const c_char;
}

/// Why bytes can't be decompressed, in the words of liblz4.
#[derive(Clone, Copy, Debug, PartialEq, Eq)]
pub struct Lz4Error(&'static str);

/// The result of a call: nothing, or an error.
fn lz4_result(code: usize) -> Result<(), Lz4Error> {
    // SAFETY: both take any number, and the name is a constant text that ends with a zero.
    let (is_error, name) = unsafe { (LZ4F_isError(code) != 0, CStr::from_ptr(LZ4F_getErrorName(code))) };
    match is_error {
        true => Err(Lz4Error(name.to_str().unwrap_or("an error"))),
        false => Ok(()),
    }
}

/// Decompresses a stream of frames, a part at a time.
pub struct Decoder(NonNull<c_void>);

impl Decoder {
    /// A decoder at the beginning of a stream.
    ///
    /// # Errors
    ///
    /// If memory is short.
    pub fn new() -> Result<Decoder, Lz4Error> {
        let mut context = null_mut();
        // SAFETY: the call writes to a local.
        lz4_result(unsafe { LZ4F_createDecompressionContext(&mut context, VERSION) })?;
        NonNull::new(context).map(Decoder).ok_or(Lz4Error("not enough memory"))
    }

    /// Decompresses some of `input` into `output`. Returns how many bytes it read, how many it wrote, and whether
    /// that went well. After an error the stream can't be read further.
    pub fn run(&mut self, input: &[u8], output: &mut [u8]) -> (usize, usize, Result<(), Lz4Error>) {
        let (mut read, mut written) = (input.len(), output.len());
        // SAFETY: the context is one of liblz4, both buffers have that many bytes, and the options may be NULL.
        let code = unsafe {
            LZ4F_decompress(
                self.0.as_ptr(),
                output.as_mut_ptr().cast(),
                &mut written,
                input.as_ptr().cast(),
                &mut read,
                null(),
            )
        };
        match lz4_result(code) {
            Ok(()) => (read, written, Ok(())),
            error => (0, 0, error),
        }
    }
}

impl Drop for Decoder {
    fn drop(&mut self) {
        // SAFETY: the context is one of liblz4, and isn't used after this.
        unsafe { LZ4F_freeDecompressionContext(self.0.as_ptr()) };
    }
}

impl fmt::Debug for Decoder {
    fn fmt(&self, f: &mut fmt::Formatter<'_>) -> fmt::Result {
        f.debug_struct("Decoder").finish_non_exhaustive()
    }
}

impl fmt::Display for Lz4Error {
    fn fmt(&self, f: &mut fmt::Formatter<'_>) -> fmt::Result {
        f.write_str(self.0)
    }
}

impl Error for Lz4Error {}

#[cfg(test)]
mod tests {
    use super::Decoder;

    /// A frame with one block, which isn't compressed (lz4_Frame_format.md): `printf hello | lz4 --no-frame-crc`.
    const FRAME: &[u8] = b"\x04\x22\x4d\x18\x60\x40\x82\x05\x00\x00\x80hello\x00\x00\x00\x00";

    #[test]
    fn a_stream_in_parts() {
        let mut decoder = Decoder::new().unwrap();
        let (mut bytes, mut at) = (Vec::new(), 0);
        let frames = FRAME.repeat(3);
        while at < frames.len() {
            let mut part = [0; 2];
            let (read, written, ran) = decoder.run(&frames[at..frames.len().min(at + 3)], &mut part);
            assert_eq!(ran, Ok(()));
            assert!(read > 0 || written > 0);
            at += read;
            bytes.extend_from_slice(&part[..written]);
        }
        assert_eq!(bytes, b"hellohellohello");
        let error = Decoder::new().unwrap().run(b"no frame at all", &mut [0; 9]).2.unwrap_err();
        assert_eq!(error.to_string(), "ERROR_frameType_unknown");
    }
}
