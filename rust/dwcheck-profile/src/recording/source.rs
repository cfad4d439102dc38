//! Takes the records of a recording from a file or a pipe one after another, also those that perf compressed.

use super::header::PIPE_SIZE;
use super::{kind, Damage, RecordHead, HEAD};
use dwcheck_elf::mapped::Bytes;
use dwcheck_types::target::Target;
use dwcheck_zstd::Decoder;
use std::fmt;
use std::io::{self, BufRead, BufReader, Read};

/// How many bytes are read at once.
const READ_SIZE: usize = 1 << 18;

/// How many bytes are decompressed at once.
const UNPACKED_SIZE: usize = 1 << 17;

/// Where a record's body is.
#[derive(Clone, Copy, Debug, Default, PartialEq, Eq)]
pub(super) struct Body {
    /// The file, by its index. `None` if the body was copied from a pipe, or decompressed.
    pub file: Option<usize>,
    pub start: usize,
    pub end: usize,
}

impl Body {
    /// The number of its bytes.
    pub fn size(self) -> usize {
        self.end - self.start
    }

    /// Its bytes, in one of the files or in those that were copied.
    pub fn of<'b>(self, files: &'b [Bytes], copied: &'b [u8]) -> &'b [u8] {
        let bytes = match self.file {
            Some(file) => files.get(file).map_or(&[][..], |file| file),
            None => copied,
        };
        bytes.get(self.start..self.end).unwrap_or(&[])
    }
}

/// What records are read from.
enum Input<'r> {
    /// A file in memory, up to an offset, with its index.
    File {
        bytes: Bytes,
        end: u64,
        index: usize,
    },
    Pipe(BufReader<Box<dyn Read + Send + 'r>>),
}

impl Input<'_> {
    /// The bytes of a body that was just read.
    fn bytes<'b>(&'b self, body: Body, copied: &'b [u8]) -> &'b [u8] {
        let bytes = match self {
            Input::File { bytes, .. } => bytes,
            Input::Pipe(_) => copied,
        };
        bytes.get(body.start..body.end).unwrap_or(&[])
    }
}

/// The records of a recording, in the order in which perf wrote them.
pub(super) struct Source<'r> {
    input: Input<'r>,
    target: Target,
    /// The offset in the recording of what is read next.
    position: u64,
    unpacked: Unpacked,
}

impl<'r> Source<'r> {
    /// The records from one offset of the file with this index to another.
    pub fn of_file(bytes: Bytes, index: usize, target: Target, begin: u64, end: u64) -> Self {
        let end = end.min(bytes.len() as u64);
        Source { input: Input::File { bytes, end, index }, target, position: begin, unpacked: Unpacked::default() }
    }

    /// The records that come after the header of a pipe.
    pub fn of_pipe<R: Read + Send + 'r>(pipe: R, target: Target) -> Self {
        let pipe = BufReader::with_capacity(READ_SIZE, Box::new(pipe) as Box<dyn Read + Send>);
        Source { input: Input::Pipe(pipe), target, position: PIPE_SIZE, unpacked: Unpacked::default() }
    }

    /// The offset in the recording of what is read next.
    pub fn position(&self) -> u64 {
        self.position
    }

    /// The index of the file that is read. `None` for a pipe.
    pub fn file(&self) -> Option<usize> {
        match self.input {
            Input::File { index, .. } => Some(index),
            Input::Pipe(_) => None,
        }
    }

    /// Reads the next record. If its body isn't in a file as it is, it is appended to `copied`. `None` at the end.
    pub fn read(&mut self, copied: &mut Vec<u8>) -> Result<Option<(RecordHead, Body)>, Damage> {
        loop {
            let start = copied.len();
            if let Some(head) = self.unpacked.read(copied, self.target, self.position)? {
                return Ok(Some((head, Body { file: None, start, end: copied.len() })));
            }
            let (head, body) = match self.next(copied)? {
                Some(record) => record,
                None => return self.unpacked.end(self.position).map(|()| None),
            };
            match head.kind {
                kind::COMPRESSED => self.unpack(body, copied, 0),
                // A number says how many of the bytes that follow count.
                kind::COMPRESSED_ALIGNED => self.unpack(body, copied, 8),
                kind::AUXTRACE | kind::TRACING_DATA => self.skip_data(head.kind, body, copied)?,
                _ => return Ok(Some((head, body))),
            }
            copied.truncate(start);
        }
    }

    /// The next record as it is in the input. `None` at the end.
    fn next(&mut self, copied: &mut Vec<u8>) -> Result<Option<(RecordHead, Body)>, Damage> {
        let bytes = match self.head()? {
            Some(bytes) => bytes,
            None => return Ok(None),
        };
        let head = RecordHead::read(&bytes, self.target);
        let size = usize::from(head.size);
        let size = size.checked_sub(HEAD).ok_or(Damage::RecordSize(self.position, head.size))?;
        self.position += HEAD as u64;
        let body = self.take(size, copied)?;
        self.position += size as u64;
        Ok(Some((head, body)))
    }

    /// The first bytes of the next record. `None` at the end.
    fn head(&mut self) -> Result<Option<[u8; HEAD]>, Damage> {
        let mut head = [0; HEAD];
        match &mut self.input {
            Input::File { bytes, end, .. } => {
                let rest = usize::try_from(self.position).ok().and_then(|at| bytes.get(at..*end as usize));
                let rest = rest.filter(|rest| !rest.is_empty());
                let found = rest.map(|rest| rest.get(..HEAD).ok_or(Damage::Cut(self.position))).transpose()?;
                Ok(found.and_then(|found| found.try_into().ok()))
            }
            Input::Pipe(pipe) => {
                if pipe.fill_buf()?.is_empty() {
                    return Ok(None);
                }
                match pipe.read_exact(&mut head) {
                    Err(error) if error.kind() == io::ErrorKind::UnexpectedEof => Err(Damage::Cut(self.position)),
                    read => Ok(read.map(|()| Some(head))?),
                }
            }
        }
    }

    /// The next `size` bytes, which are those of one record.
    fn take(&mut self, size: usize, copied: &mut Vec<u8>) -> Result<Body, Damage> {
        match &mut self.input {
            Input::File { end, index, .. } => {
                let past = self.position.saturating_add(size as u64);
                match past <= *end {
                    true => Ok(Body { file: Some(*index), start: self.position as usize, end: past as usize }),
                    false => Err(Damage::Cut(self.position)),
                }
            }
            Input::Pipe(pipe) => {
                let start = copied.len();
                match append_from_pipe(pipe, size, copied)? {
                    0 => Ok(Body { file: None, start, end: copied.len() }),
                    _ => Err(Damage::Cut(self.position)),
                }
            }
        }
    }

    /// Moves past the data that follow a record with traces, which aren't used.
    fn skip_data(&mut self, kind: u32, body: Body, copied: &[u8]) -> Result<(), Damage> {
        let width = if kind == kind::AUXTRACE { 8 } else { 4 };
        let said = self.input.bytes(body, copied).get(..width).ok_or(Damage::Short)?;
        let size = self.target.number(said);
        let size = if kind == kind::AUXTRACE { size } else { size.saturating_add(7) & !7 };
        let at = self.position;
        let skipped = match &mut self.input {
            Input::File { end, .. } => size.min(end.saturating_sub(at)),
            Input::Pipe(pipe) => io::copy(&mut pipe.take(size), &mut io::sink())?,
        };
        self.position += skipped;
        match skipped == size {
            true => Ok(()),
            false => Err(Damage::Cut(at)),
        }
    }

    /// Takes the compressed bytes of a body. They begin with a number of this width, or with none.
    fn unpack(&mut self, body: Body, copied: &[u8], width: usize) {
        let all = self.input.bytes(body, copied);
        let data = all.get(width..).unwrap_or(&[]);
        let counted = self.target.number(all.get(..width).unwrap_or(&[]));
        let size = if width > 0 { usize::try_from(counted).unwrap_or(usize::MAX) } else { data.len() };
        self.unpacked.add(data.get(..size.min(data.len())).unwrap_or(&[]));
    }
}

/// Appends the next `size` bytes of a pipe. Returns how many of them it doesn't have.
fn append_from_pipe(pipe: &mut impl BufRead, size: usize, to: &mut Vec<u8>) -> io::Result<usize> {
    let mut left = size;
    while left > 0 {
        let read = match pipe.fill_buf() {
            Err(error) if error.kind() == io::ErrorKind::Interrupted => continue,
            read => read?,
        };
        let part = read.get(..left).unwrap_or(read);
        if part.is_empty() {
            break;
        }
        to.extend_from_slice(part);
        let size = part.len();
        pipe.consume(size);
        left -= size;
    }
    Ok(left)
}

/// The records that perf compressed. All compressed records together are one stream, in which a
/// record may begin in one of them and end in the next.
#[derive(Default)]
struct Unpacked {
    decoder: Option<Decoder>,
    packed: Vec<u8>,
    /// How many of `packed` were decompressed.
    used: usize,
    /// Whether the decoder may have more bytes than it gave last.
    has_more: bool,
    bytes: Vec<u8>,
    /// How many of `bytes` were read.
    at: usize,
}

impl Unpacked {
    fn add(&mut self, packed: &[u8]) {
        self.packed.drain(..self.used);
        self.used = 0;
        self.packed.extend_from_slice(packed);
    }

    /// Appends the body of the next record. `None` if none is there as a whole.
    fn read(&mut self, body: &mut Vec<u8>, target: Target, position: u64) -> Result<Option<RecordHead>, Damage> {
        loop {
            let rest = self.bytes.get(self.at..).unwrap_or(&[]);
            if let Some(head) = rest.get(..HEAD).and_then(|head| head.try_into().ok()) {
                let head = RecordHead::read(head, target);
                let size = usize::from(head.size);
                if size < HEAD {
                    return Err(Damage::RecordSize(position, head.size));
                }
                if let Some(found) = rest.get(HEAD..size) {
                    body.extend_from_slice(found);
                    self.at += size;
                    return Ok(Some(head));
                }
            }
            if !self.decompress(position)? {
                return Ok(None);
            }
        }
    }

    /// Decompresses some more bytes. False if there are none.
    fn decompress(&mut self, position: u64) -> Result<bool, Damage> {
        if self.used >= self.packed.len() && !self.has_more {
            return Ok(false);
        }
        self.bytes.drain(..self.at);
        self.at = 0;
        let failed = |_| Damage::Compressed(position);
        if self.decoder.is_none() {
            self.decoder = Some(Decoder::new().map_err(failed)?);
        }
        let decoder = self.decoder.as_mut().ok_or(Damage::Compressed(position))?;
        let start = self.bytes.len();
        self.bytes.resize(start + UNPACKED_SIZE, 0);
        let input = self.packed.get(self.used..).unwrap_or(&[]);
        let output = self.bytes.get_mut(start..).unwrap_or(&mut []);
        let (read, written, ran) = decoder.run(input, output);
        self.bytes.truncate(start + written);
        self.used += read;
        self.has_more = written == UNPACKED_SIZE;
        ran.map_err(failed)?;
        Ok(read > 0 || written > 0)
    }

    /// What the end of the recording means: an error if a record isn't whole.
    fn end(&self, position: u64) -> Result<(), Damage> {
        match self.at < self.bytes.len() {
            true => Err(Damage::Cut(position)),
            false => Ok(()),
        }
    }
}

impl fmt::Debug for Source<'_> {
    fn fmt(&self, f: &mut fmt::Formatter<'_>) -> fmt::Result {
        f.debug_struct("Source").field("position", &self.position).finish_non_exhaustive()
    }
}
