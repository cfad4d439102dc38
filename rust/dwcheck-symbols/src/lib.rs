//! Reads and writes Breakpad's symbol files: names, lines and rows of programs for crash reports.
//!
//! A symbol file is a text. Each line is a record: `MODULE` first, `FILE`, `INLINE_ORIGIN`, `FUNC` with the lines and
//! `INLINE` records of the function, `PUBLIC`, and `STACK CFI` for the rows of unwind tables
//! (<https://chromium.googlesource.com/breakpad/breakpad/+/master/docs/symbol_files.md>). Addresses are relative to the
//! beginning of the loaded file.
//!
//! [`SymbolFile`] answers for an address. It knows where the records are by an [`Index`], which takes one pass over the
//! file. An index can be kept in a file and mapped, so that a file of gigabytes answers at once. [`Writer`] writes
//! the records, and [`Identity`] names the file in a store.
//!
//! A file may say anything, so nothing here trusts it, nor a kept index. A line that can't be read is passed over and
//! counted. What is read for one answer is bounded.
//!
//! ```
//! use dwcheck_symbols::SymbolFile;
//!
//! let text = b"MODULE Linux x86_64 000102030405060708090A0B0C0D0E0F0 program
//! FILE 0 main.c
//! FUNC 1000 20 0 main
//! 1000 8 3 0
//! 1008 18 4 0
//! STACK CFI INIT 1000 20 .cfa: $rsp 8 + .ra: .cfa -8 + ^
//! STACK CFI 1001 .cfa: $rsp 16 +
//! ";
//! let symbols = SymbolFile::read(text)?;
//! let position = symbols.position(0x1009).unwrap();
//! assert_eq!((position.name.as_ref(), position.begin), ("main", 0x1000));
//! assert_eq!(position.line.unwrap().line, 4);
//! let row = symbols.row(0x1009).unwrap();
//! assert_eq!((row.begin, row.end), (0x1001, 0x1020));
//! # Ok::<(), dwcheck_symbols::SymbolsError>(())
//! ```

#![forbid(unsafe_code)]
#![warn(missing_docs)]

mod architecture;
mod error;
mod expression;
mod identity;
mod index;
mod record;
mod row;
mod symbol_file;
mod writer;

pub use architecture::Architecture;
pub use error::{RuleError, SymbolsError};
pub use expression::{Expression, Frame, Operator, Token, Variable};
pub use identity::{debug_id, Identity};
pub use index::{Index, Stamp};
pub use row::{Row, Rules};
pub use symbol_file::{Call, Position, Rows, SourceLine, SymbolFile};
pub use writer::{Inline, Writer};
