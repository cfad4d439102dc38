//! The files on disk in which contents were seen, and the packages among them.

use crate::answer::Content;
use crate::answers::add_content;
use crate::digest::Digest;
use crate::error::{Problem, StoreError};
use crate::store::Store;
use rusqlite::{params, Connection, Row};
use std::collections::HashMap;
use std::fs::Metadata;
use std::os::unix::fs::MetadataExt;
use std::path::{Path, PathBuf};
use std::time::{Duration, SystemTime, UNIX_EPOCH};

/// A file that was changed so shortly before it was read may have been changed again with the same times: clocks of
/// file systems go in steps.
const STEP: Duration = Duration::from_secs(2);

/// What the file system says of a file. As long as it is the same, the content is taken to be so, as by `make` and
/// git.
#[derive(Clone, Copy, Debug, PartialEq, Eq)]
pub struct Stamp {
    device: i64,
    inode: i64,
    bytes: i64,
    modified: i64,
    changed: i64,
}

/// A package of Debian.
#[derive(Clone, Debug, PartialEq, Eq, PartialOrd, Ord, Hash)]
pub struct Package {
    /// Its name.
    pub name: String,
    /// Its version.
    pub version: String,
    /// Its architecture.
    pub architecture: String,
    /// The name of its source package.
    pub source: String,
}

/// A content in a file.
#[derive(Clone, Debug, PartialEq, Eq)]
pub struct Place {
    /// The path in the package, or nothing if the content is the whole file.
    pub member: String,
    /// The SHA-256 of the content.
    pub digest: Digest,
    /// How many bytes it has.
    pub bytes: u64,
}

/// A file that was read.
#[derive(Clone, Debug)]
pub struct SeenFile {
    /// Its path, from the root on.
    pub path: PathBuf,
    /// What the file system said of it before it was read.
    pub stamp: Stamp,
    /// When that was.
    pub read: SystemTime,
    /// The package that it is.
    pub package: Option<Package>,
    /// The contents in it.
    pub places: Vec<Place>,
}

/// What a run found in folders.
#[derive(Debug, Default)]
pub struct Listing {
    /// The folders and files that were named, from the root on.
    pub roots: Vec<PathBuf>,
    /// All files in them that matter, those of other shards too.
    pub all: Vec<(PathBuf, Stamp)>,
    /// Those that were read, since the store didn't know them.
    pub read: Vec<SeenFile>,
}

/// The files that a store knows, with their contents.
#[derive(Debug, Default)]
pub struct Stamps(HashMap<String, Known>);

#[derive(Debug)]
struct Known {
    stamp: Stamp,
    read: i64,
    places: Vec<Place>,
}

impl Stamp {
    /// What the file system says of a file.
    pub fn of(metadata: &Metadata) -> Stamp {
        let nanoseconds = |seconds: i64, rest: i64| seconds.saturating_mul(1_000_000_000).saturating_add(rest);
        Stamp {
            device: metadata.dev() as i64,
            inode: metadata.ino() as i64,
            bytes: metadata.len() as i64,
            modified: nanoseconds(metadata.mtime(), metadata.mtime_nsec()),
            changed: nanoseconds(metadata.ctime(), metadata.ctime_nsec()),
        }
    }
}

impl Stamps {
    /// The contents of a file that hasn't changed since it was read.
    pub fn places(&self, path: &Path, stamp: &Stamp) -> Option<&[Place]> {
        let known = self.0.get(path.to_string_lossy().as_ref())?;
        let is_settled = known.stamp.changed.saturating_add(STEP.as_nanos() as i64) < known.read;
        (known.stamp == *stamp && is_settled).then(|| known.places.as_slice())
    }
}

impl Store {
    /// The files that the store knows.
    ///
    /// # Errors
    ///
    /// If the store can't be read.
    pub fn stamps(&self) -> Result<Stamps, StoreError> {
        self.read(|connection| {
            let all = "SELECT path, device, inode, file.bytes, modified, changed, read, member, sha256, content.bytes
                FROM file LEFT JOIN place ON place.file = file.id LEFT JOIN content ON content.id = place.content
                WHERE read IS NOT NULL ORDER BY member";
            let mut statement = connection.prepare(all)?;
            let mut rows = statement.query([])?;
            let mut stamps = HashMap::new();
            while let Some(row) = rows.next()? {
                let known = || -> rusqlite::Result<Known> {
                    Ok(Known { stamp: read_stamp(row)?, read: row.get(6)?, places: Vec::new() })
                };
                let (path, new) = (row.get::<_, String>(0)?, known()?);
                let known = stamps.entry(path).or_insert(new);
                known.places.extend(read_place(row)?);
            }
            Ok(Stamps(stamps))
        })
    }

    /// Notes what is in a file that was read, such as a package, in place of what the store had of it.
    ///
    /// # Errors
    ///
    /// If the store can't be written. Then nothing of it is noted.
    pub fn note_file(&mut self, file: &SeenFile) -> Result<(), StoreError> {
        self.write(|connection| add_file(connection, file))
    }

    /// Notes what a run found in folders, in place of what the store had there.
    ///
    /// # Errors
    ///
    /// If the store can't be written. Then nothing of it is noted.
    pub fn note_listing(&mut self, listing: &Listing) -> Result<(), StoreError> {
        self.write(|connection| {
            forget_others(connection, listing)?;
            listing.read.iter().try_for_each(|file| add_file(connection, file))
        })
    }
}

fn read_stamp(row: &Row<'_>) -> rusqlite::Result<Stamp> {
    let (device, inode, bytes, modified, changed) = (row.get(1)?, row.get(2)?, row.get(3)?, row.get(4)?, row.get(5)?);
    Ok(Stamp { device, inode, bytes, modified, changed })
}

/// The content of a row, if the file has one.
fn read_place(row: &Row<'_>) -> rusqlite::Result<Option<Place>> {
    let member: Option<String> = row.get(7)?;
    let place = |member| -> rusqlite::Result<Place> {
        Ok(Place { member, digest: Digest(row.get(8)?), bytes: row.get::<_, i64>(9)? as u64 })
    };
    member.map(place).transpose()
}

/// Takes out the files in the folders of a listing that aren't there any more, or have changed.
fn forget_others(connection: &Connection, listing: &Listing) -> Result<(), Problem> {
    connection.execute_batch(
        "CREATE TEMP TABLE IF NOT EXISTS listed
            (path TEXT PRIMARY KEY, device INTEGER, inode INTEGER, bytes INTEGER, modified INTEGER, changed INTEGER)
            WITHOUT ROWID;
        DELETE FROM temp.listed",
    )?;
    let mut add = connection.prepare_cached("INSERT OR REPLACE INTO temp.listed VALUES (?1, ?2, ?3, ?4, ?5, ?6)")?;
    for (path, stamp) in &listing.all {
        let Stamp { device, inode, bytes, modified, changed } = stamp;
        add.execute(params![path.to_string_lossy(), device, inode, bytes, modified, changed])?;
    }
    // What is below a folder is between the folder's name with a slash and with the character after the slash.
    let mut forget = connection.prepare_cached(
        "DELETE FROM main.file WHERE (path = ?1 OR path > ?1 || '/' AND path < ?1 || '0') AND NOT EXISTS
            (SELECT 1 FROM temp.listed WHERE listed.path = file.path AND listed.device IS file.device
                AND listed.inode IS file.inode AND listed.bytes IS file.bytes
                AND listed.modified IS file.modified AND listed.changed IS file.changed)",
    )?;
    listing.roots.iter().try_for_each(|root| {
        forget.execute([root.to_string_lossy().trim_end_matches('/')])?;
        Ok(())
    })
}

fn add_file(connection: &Connection, file: &SeenFile) -> Result<(), Problem> {
    let package = file.package.as_ref().map(|package| add_package(connection, package)).transpose()?;
    let Stamp { device, inode, bytes, modified, changed } = file.stamp;
    let read = file.read.duration_since(UNIX_EPOCH).unwrap_or_default().as_nanos() as i64;
    let path = file.path.to_string_lossy();
    let id = replace_file(connection, &path, package)?;
    let stamp =
        "UPDATE file SET device = ?2, inode = ?3, bytes = ?4, modified = ?5, changed = ?6, read = ?7 WHERE id = ?1";
    connection.prepare_cached(stamp)?.execute(params![id, device, inode, bytes, modified, changed, read])?;
    file.places.iter().try_for_each(|place| add_place(connection, id, place))
}

/// Adds a file without contents in place of the one with its path, and returns its id.
pub(crate) fn replace_file(connection: &Connection, path: &str, package: Option<i64>) -> Result<i64, Problem> {
    connection.prepare_cached("DELETE FROM file WHERE path = ?1")?.execute([path])?;
    Ok(connection.prepare_cached("INSERT INTO file (path, package) VALUES (?1, ?2)")?.insert(params![path, package])?)
}

/// Adds a content to a file.
pub(crate) fn add_place(connection: &Connection, file: i64, place: &Place) -> Result<(), Problem> {
    let content = Content { digest: place.digest, bytes: place.bytes, build_id: None, compiler: None };
    let id = add_content(connection, &content)?;
    let add = "INSERT OR REPLACE INTO place (file, member, content) VALUES (?1, ?2, ?3)";
    connection.prepare_cached(add)?.execute(params![file, place.member, id])?;
    Ok(())
}

/// Adds a package, and returns its id.
pub(crate) fn add_package(connection: &Connection, package: &Package) -> Result<i64, Problem> {
    let Package { name, version, architecture, source } = package;
    let words = [name, version, architecture, source];
    let add = "INSERT OR IGNORE INTO package (name, version, architecture, source) VALUES (?1, ?2, ?3, ?4)";
    connection.prepare_cached(add)?.execute(words)?;
    let find = "SELECT id FROM package WHERE name = ?1 AND version = ?2 AND architecture = ?3 AND source = ?4";
    Ok(connection.prepare_cached(find)?.query_row(words, |row| row.get(0))?)
}
