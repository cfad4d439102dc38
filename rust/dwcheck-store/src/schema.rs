//! The tables of a store, and how a file is recognized as one.

use crate::error::Problem;
use rusqlite::{Connection, ErrorCode, TransactionBehavior};
use std::thread;
use std::time::{Duration, Instant};

/// The version of the tables. A store says which one it has.
pub const VERSION: i64 = 1;

/// What SQLite's header has in a store: `dwck`.
const APPLICATION: i64 = 0x6477_636b;

/// How long a process waits for others that write.
const PATIENCE: Duration = Duration::from_secs(60);

/// The tables of version 1. docs/OUTPUT.md describes them.
const TABLES: &str = "
CREATE TABLE content (
    id INTEGER PRIMARY KEY,
    sha256 BLOB NOT NULL UNIQUE CHECK (length(sha256) = 32),
    bytes INTEGER NOT NULL,
    build_id TEXT,
    compiler TEXT
);
CREATE TABLE package (
    id INTEGER PRIMARY KEY,
    name TEXT NOT NULL,
    version TEXT NOT NULL,
    architecture TEXT NOT NULL,
    source TEXT NOT NULL,
    UNIQUE (name, version, architecture, source)
);
CREATE TABLE file (
    id INTEGER PRIMARY KEY,
    path TEXT NOT NULL UNIQUE,
    package INTEGER REFERENCES package (id),
    device INTEGER,
    inode INTEGER,
    bytes INTEGER,
    modified INTEGER,
    changed INTEGER,
    read INTEGER
);
CREATE TABLE place (
    file INTEGER NOT NULL REFERENCES file (id) ON DELETE CASCADE,
    member TEXT NOT NULL,
    content INTEGER NOT NULL REFERENCES content (id),
    PRIMARY KEY (file, member)
) WITHOUT ROWID;
CREATE INDEX place_by_content ON place (content);
CREATE TABLE question (
    id INTEGER PRIMARY KEY,
    command TEXT NOT NULL,
    options TEXT NOT NULL,
    UNIQUE (command, options)
);
CREATE TABLE answer (
    id INTEGER PRIMARY KEY,
    content INTEGER NOT NULL REFERENCES content (id),
    question INTEGER NOT NULL REFERENCES question (id),
    version TEXT NOT NULL,
    inputs TEXT NOT NULL,
    outcome TEXT NOT NULL,
    details TEXT,
    UNIQUE (content, question)
);
CREATE TABLE finding (
    answer INTEGER NOT NULL REFERENCES answer (id) ON DELETE CASCADE,
    number INTEGER NOT NULL,
    kind TEXT NOT NULL,
    severity TEXT NOT NULL,
    function TEXT,
    address TEXT NOT NULL,
    text TEXT NOT NULL,
    details TEXT,
    PRIMARY KEY (answer, number)
) WITHOUT ROWID;
CREATE TABLE total (
    answer INTEGER NOT NULL REFERENCES answer (id) ON DELETE CASCADE,
    name TEXT NOT NULL,
    count INTEGER NOT NULL,
    PRIMARY KEY (answer, name)
) WITHOUT ROWID;
";

/// What a database is.
enum Identity {
    /// It has nothing yet.
    Empty,
    /// A store with the tables of this version.
    Store(i64),
    /// The database of another program.
    Other,
}

/// Makes a connection ready. An empty database becomes a store if `may_create`.
pub(crate) fn prepare(connection: &mut Connection, may_create: bool) -> Result<(), Problem> {
    connection.busy_timeout(PATIENCE)?;
    // Without `trusted_schema`, what a hostile store defines calls no function.
    connection.execute_batch("PRAGMA trusted_schema = OFF; PRAGMA foreign_keys = ON; PRAGMA synchronous = NORMAL")?;
    match identity_at_once(connection)? {
        Identity::Empty if may_create => create(connection),
        found => check_version(&found),
    }
}

/// Refuses what isn't a store of this version.
fn check_version(identity: &Identity) -> Result<(), Problem> {
    match identity {
        Identity::Store(VERSION) => Ok(()),
        Identity::Store(version) => Err(Problem::Newer(*version)),
        Identity::Empty | Identity::Other => Err(Problem::NotStore),
    }
}

/// What a database is, at one moment. Another process may be making the tables meanwhile: then what is read before and
/// after that, put together, would look like the database of another program.
fn identity_at_once(connection: &mut Connection) -> Result<Identity, Problem> {
    let transaction = connection.transaction()?;
    identity_of(&transaction)
}

fn identity_of(connection: &Connection) -> Result<Identity, Problem> {
    let number = |pragma: &str| connection.query_row(pragma, [], |row| row.get::<_, i64>(0));
    if number("PRAGMA application_id")? == APPLICATION {
        return Ok(Identity::Store(number("PRAGMA user_version")?));
    }
    match number("SELECT count(*) FROM sqlite_master")? {
        0 => Ok(Identity::Empty),
        _ => Ok(Identity::Other),
    }
}

/// Makes the tables, unless another process has made them meanwhile.
fn create(connection: &mut Connection) -> Result<(), Problem> {
    use_log(connection)?;
    let transaction = connection.transaction_with_behavior(TransactionBehavior::Immediate)?;
    match identity_of(&transaction)? {
        Identity::Empty => {
            transaction.execute_batch(TABLES)?;
            transaction.pragma_update(None, "application_id", APPLICATION)?;
            transaction.pragma_update(None, "user_version", VERSION)?;
            Ok(transaction.commit()?)
        }
        found => check_version(&found),
    }
}

/// Has SQLite write to a log beside the store, so that those who read don't wait for those who write. SQLite doesn't
/// wait by itself while another process does the same.
fn use_log(connection: &Connection) -> Result<(), Problem> {
    let begun = Instant::now();
    loop {
        match connection.query_row("PRAGMA journal_mode = WAL", [], |row| row.get::<_, String>(0)) {
            Ok(_) => return Ok(()),
            Err(error) if is_busy(&error) && begun.elapsed() < PATIENCE => thread::sleep(Duration::from_millis(10)),
            Err(error) => return Err(error.into()),
        }
    }
}

fn is_busy(error: &rusqlite::Error) -> bool {
    matches!(error.sqlite_error_code(), Some(ErrorCode::DatabaseBusy | ErrorCode::DatabaseLocked))
}
