//! Why a store can't be used.

use crate::schema::VERSION;
use rusqlite::ErrorCode;
use std::error::Error;
use std::fmt;
use std::io;
use std::path::{Path, PathBuf};

/// Why a store can't be used. Its text is one line, without the store's name.
#[derive(Debug)]
pub struct StoreError {
    store: PathBuf,
    problem: Problem,
}

/// What is wrong with a store.
#[derive(Debug)]
pub(crate) enum Problem {
    /// The file can't be opened.
    Open(io::Error),
    /// The file is something else than a store.
    NotStore,
    /// The store has the schema of a later version.
    Newer(i64),
    /// A value isn't what the schema says.
    Damaged(&'static str),
    /// SQLite can't go on.
    Sqlite(rusqlite::Error),
    /// What is read of the store can't be written elsewhere.
    Output(io::Error),
}

impl StoreError {
    pub(crate) fn new(store: &Path, problem: impl Into<Problem>) -> Self {
        StoreError { store: store.to_path_buf(), problem: problem.into() }
    }

    /// The file of the store.
    pub fn store(&self) -> &Path {
        &self.store
    }

    /// The error of the output, if that is why a store couldn't be exported or compared.
    ///
    /// # Errors
    ///
    /// This error, if it has another reason.
    pub fn into_output(self) -> Result<io::Error, StoreError> {
        match self.problem {
            Problem::Output(error) => Ok(error),
            _ => Err(self),
        }
    }
}

impl From<rusqlite::Error> for Problem {
    fn from(error: rusqlite::Error) -> Self {
        match error {
            rusqlite::Error::InvalidColumnType(..) | rusqlite::Error::FromSqlConversionFailure(..) => {
                Problem::Damaged("a value has another type than the schema says")
            }
            error => Problem::Sqlite(error),
        }
    }
}

impl From<io::Error> for Problem {
    fn from(error: io::Error) -> Self {
        Problem::Output(error)
    }
}

impl fmt::Display for StoreError {
    fn fmt(&self, f: &mut fmt::Formatter<'_>) -> fmt::Result {
        match &self.problem {
            Problem::Open(error) | Problem::Output(error) => error.fmt(f),
            Problem::NotStore => f.write_str("not a store of dwcheck-elf"),
            Problem::Newer(version) => {
                write!(f, "its schema has version {}, and this dwcheck-elf knows versions up to {}", version, VERSION)
            }
            Problem::Damaged(what) => write!(f, "the store is damaged: {}", what),
            Problem::Sqlite(error) => write_sqlite_error(error, f),
        }
    }
}

fn write_sqlite_error(error: &rusqlite::Error, f: &mut fmt::Formatter<'_>) -> fmt::Result {
    match error.sqlite_error_code() {
        Some(ErrorCode::NotADatabase) => f.write_str("not a store of dwcheck-elf"),
        Some(ErrorCode::DatabaseBusy | ErrorCode::DatabaseLocked) => {
            f.write_str("another process has locked it for a minute")
        }
        // The first line: SQLite may add the text of a statement.
        _ => f.write_str(error.to_string().lines().next().unwrap_or("SQLite failed")),
    }
}

impl Error for StoreError {}
