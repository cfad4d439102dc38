//! How much may be copied of a file: as many bytes as it has. So parts of it that overlap can't make what is read much
//! larger than the file.

/// How many bytes are left.
#[derive(Debug)]
pub(crate) struct Budget(usize);

impl Budget {
    /// The budget for a file with this many bytes.
    pub fn new(size: usize) -> Self {
        Budget(size)
    }

    /// Takes some bytes. Returns false, and takes none, if fewer are left.
    pub fn take(&mut self, count: usize) -> bool {
        let left = self.0.checked_sub(count);
        self.0 = left.unwrap_or(self.0);
        left.is_some()
    }
}
