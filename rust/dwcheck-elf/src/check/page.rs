//! What pages of HTML with data in them share: the page is written up to a mark, then the data, then the rest.

use std::io::{self, Write};

/// The mark in a page where its data go.
const MARK: &str = "@DATA@";

/// Writes a page up to the mark, the data, and the rest of the page. The data are JSON, in a `script` element.
///
/// # Errors
///
/// Those of `out`.
pub fn write_page<W: Write>(
    page: &str,
    out: &mut W,
    data: impl FnOnce(&mut Escaped<'_, W>) -> io::Result<()>,
) -> io::Result<()> {
    let (before, after) = page.split_once(MARK).unwrap_or((page, ""));
    out.write_all(before.as_bytes())?;
    data(&mut Escaped(out))?;
    out.write_all(after.as_bytes())
}

/// Writes JSON so that HTML doesn't see an element in it.
pub struct Escaped<'w, W>(&'w mut W);

impl<W: Write> Write for Escaped<'_, W> {
    fn write(&mut self, bytes: &[u8]) -> io::Result<usize> {
        for part in bytes.split_inclusive(|byte| *byte == b'<') {
            match part.strip_suffix(b"<") {
                Some(plain) => {
                    self.0.write_all(plain)?;
                    self.0.write_all(b"\\u003c")?;
                }
                None => self.0.write_all(part)?,
            }
        }
        Ok(bytes.len())
    }

    fn flush(&mut self) -> io::Result<()> {
        self.0.flush()
    }
}

/// Writes items with commas between them.
pub fn write_separated<T, W: Write>(
    out: &mut W,
    all: impl Iterator<Item = T>,
    mut one: impl FnMut(T, &mut W) -> io::Result<()>,
) -> io::Result<()> {
    for (place, item) in all.enumerate() {
        if place > 0 {
            out.write_all(b",")?;
        }
        one(item, out)?;
    }
    Ok(())
}
