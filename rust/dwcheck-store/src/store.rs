//! A store that is open, and how it is read and written.

use crate::error::{Problem, StoreError};
use crate::schema::prepare;
use rusqlite::{Connection, OpenFlags, Transaction, TransactionBehavior};
use std::path::{Path, PathBuf};

/// A store that is open.
#[derive(Debug)]
pub struct Store {
    connection: Connection,
    path: PathBuf,
}

impl Store {
    /// Opens a store, or makes one if there is no file with this name.
    ///
    /// # Errors
    ///
    /// If the file can't be opened or made, or isn't a store of this version.
    pub fn open(path: &Path) -> Result<Store, StoreError> {
        let flags = OpenFlags::SQLITE_OPEN_READ_WRITE | OpenFlags::SQLITE_OPEN_CREATE;
        Store::with_flags(path, flags, true)
    }

    /// Opens a store that is there.
    ///
    /// # Errors
    ///
    /// If there is none, if it can't be opened, or isn't a store of this version.
    pub fn open_existing(path: &Path) -> Result<Store, StoreError> {
        // SQLite doesn't say why.
        path.metadata().map_err(|error| StoreError::new(path, Problem::Open(error)))?;
        Store::with_flags(path, OpenFlags::SQLITE_OPEN_READ_WRITE, false)
    }

    fn with_flags(path: &Path, flags: OpenFlags, may_create: bool) -> Result<Store, StoreError> {
        let open = || -> Result<Connection, Problem> {
            let mut connection = Connection::open_with_flags(path, flags | OpenFlags::SQLITE_OPEN_NO_MUTEX)?;
            prepare(&mut connection, may_create)?;
            Ok(connection)
        };
        let connection = open().map_err(|problem| StoreError::new(path, problem))?;
        Ok(Store { connection, path: path.to_path_buf() })
    }

    /// The file of the store.
    pub fn path(&self) -> &Path {
        &self.path
    }

    pub(crate) fn connection(&self) -> &Connection {
        &self.connection
    }

    /// An error of this store.
    pub(crate) fn error(&self, problem: impl Into<Problem>) -> StoreError {
        StoreError::new(&self.path, problem)
    }

    /// Reads something.
    pub(crate) fn read<T>(&self, reading: impl FnOnce(&Connection) -> Result<T, Problem>) -> Result<T, StoreError> {
        reading(&self.connection).map_err(|problem| self.error(problem))
    }

    /// Changes something in one transaction: all of it is written, or nothing.
    pub(crate) fn write<T>(
        &mut self,
        change: impl FnOnce(&Transaction<'_>) -> Result<T, Problem>,
    ) -> Result<T, StoreError> {
        let Store { connection, path } = self;
        let changed = || -> Result<T, Problem> {
            let transaction = connection.transaction_with_behavior(TransactionBehavior::Immediate)?;
            let result = change(&transaction)?;
            transaction.commit()?;
            Ok(result)
        };
        changed().map_err(|problem| StoreError::new(path, problem))
    }
}
