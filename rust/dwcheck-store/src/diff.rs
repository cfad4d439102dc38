//! Compares the findings of two stores.

use crate::error::{Problem, StoreError};
use crate::located::{Located, LOCATED};
use crate::store::Store;
use rusqlite::Statement;
use std::collections::{BTreeMap, HashMap, VecDeque};
use std::hash::Hash;
use std::io;
use std::iter::Peekable;

/// How a finding changed.
#[derive(Clone, Debug, PartialEq, Eq)]
pub enum Change {
    /// Only the new store has it.
    New,
    /// Only the old store has it.
    Gone,
    /// It is the same finding in the same function at another address, or in another file of the package.
    Moved {
        /// The file in which it was.
        file: String,
        /// Where it was there.
        address: String,
    },
}

/// How many findings changed.
#[derive(Clone, Copy, Debug, Default, PartialEq, Eq)]
pub struct Counts {
    /// How many are new.
    pub new: u64,
    /// How many are gone.
    pub gone: u64,
    /// How many have moved.
    pub moved: u64,
}

/// How many findings changed, in all and in parts.
#[derive(Clone, Debug, Default, PartialEq, Eq)]
pub struct Changes {
    /// All of them.
    pub total: Counts,
    /// Those of each package that has any. The name of no package is empty.
    pub packages: BTreeMap<String, Counts>,
    /// Those of each compiler that has any. The name of no compiler is empty.
    pub compilers: BTreeMap<String, Counts>,
}

/// What findings have in common that are compared with each other: the command, its options, the package, and outside
/// of packages the file.
type Key = (String, String, String, String);

/// The findings of a store, those with the same key together.
struct Groups<I: Iterator>(Peekable<I>);

impl Counts {
    fn add(&mut self, change: &Change) {
        match change {
            Change::New => self.new += 1,
            Change::Gone => self.gone += 1,
            Change::Moved { .. } => self.moved += 1,
        }
    }
}

impl Changes {
    fn add(&mut self, change: &Change, located: &Located) {
        self.total.add(change);
        self.packages.entry(located.package.clone()).or_default().add(change);
        self.compilers.entry(located.compiler.clone()).or_default().add(change);
    }
}

fn key_of(located: &Located) -> Key {
    let file = if located.package.is_empty() { located.file.clone() } else { String::new() };
    (located.command.clone(), located.options.clone(), located.package.clone(), file)
}

impl<I: Iterator<Item = Result<Located, StoreError>>> Groups<I> {
    /// The key of the next findings.
    fn key(&mut self) -> Result<Option<Key>, StoreError> {
        if let Some(Err(error)) = self.0.next_if(Result::is_err) {
            return Err(error);
        }
        Ok(self.0.peek().and_then(|next| next.as_ref().ok()).map(key_of))
    }

    /// The next findings, if they have this key.
    fn take(&mut self, key: &Key) -> Result<Vec<Located>, StoreError> {
        let is_same = |next: &I::Item| next.as_ref().map_or(true, |located| key_of(located) == *key);
        std::iter::from_fn(|| self.0.next_if(is_same)).collect()
    }
}

impl Store {
    /// Compares the findings of this store with those of a newer one, and calls `each` with those that changed. Only
    /// the findings of one package are in memory at once.
    ///
    /// # Errors
    ///
    /// If one of the stores can't be read, and those of `each`.
    pub fn diff(
        &self,
        new: &Store,
        mut each: impl FnMut(&Change, &Located) -> io::Result<()>,
    ) -> Result<Changes, StoreError> {
        let (mut old_statement, mut new_statement) = (self.all_located()?, new.all_located()?);
        let old_rows = old_statement.query_map([], Located::of_row).map_err(|error| self.error(error))?;
        let new_rows = new_statement.query_map([], Located::of_row).map_err(|error| new.error(error))?;
        let mut old_groups = Groups(old_rows.map(|row| row.map_err(|error| self.error(error))).peekable());
        let mut new_groups = Groups(new_rows.map(|row| row.map_err(|error| new.error(error))).peekable());
        let mut changes = Changes::default();
        while let Some(key) = [old_groups.key()?, new_groups.key()?].into_iter().flatten().min() {
            for (change, located) in compare_groups(old_groups.take(&key)?, new_groups.take(&key)?) {
                changes.add(&change, &located);
                each(&change, &located).map_err(|error| new.error(Problem::Output(error)))?;
            }
        }
        Ok(changes)
    }

    fn all_located(&self) -> Result<Statement<'_>, StoreError> {
        self.connection().prepare(LOCATED).map_err(|error| self.error(error))
    }
}

/// What changed between findings with the same key: first those that are new or have moved, then those that are gone.
fn compare_groups(mut old: Vec<Located>, mut new: Vec<Located>) -> Vec<(Change, Located)> {
    pair(&mut old, &mut new, |one| {
        Some((one.file.clone(), one.kind.clone(), one.function.clone(), one.address.clone(), one.text.clone()))
    });
    let mut moved = pair(&mut old, &mut new, |one| Some((one.file.clone(), one.kind.clone(), one.function.clone())));
    // Libraries have their version in their names.
    moved.extend(pair(&mut old, &mut new, |one| Some((one.kind.clone(), one.function.clone()?))));
    let moved = moved.into_iter().map(|(old, new)| (Change::Moved { file: old.file, address: old.address }, new));
    let new = new.into_iter().map(|located| (Change::New, located));
    let mut changes: Vec<_> = moved.chain(new).collect();
    changes.sort_by(|(_, one), (_, other)| (&one.file, &one.text).cmp(&(&other.file, &other.text)));
    changes.extend(old.into_iter().map(|located| (Change::Gone, located)));
    changes
}

/// Takes out the pairs of findings with the same key, each with the first one that is left.
fn pair<K: Hash + Eq>(
    old: &mut Vec<Located>,
    new: &mut Vec<Located>,
    key: impl Fn(&Located) -> Option<K>,
) -> Vec<(Located, Located)> {
    let mut by_key: HashMap<K, VecDeque<usize>> = HashMap::new();
    for (index, located) in old.iter().enumerate() {
        if let Some(key) = key(located) {
            by_key.entry(key).or_default().push_back(index);
        }
    }
    let mut left: Vec<Option<Located>> = old.drain(..).map(Some).collect();
    let (mut pairs, mut alone) = (Vec::new(), Vec::new());
    for located in new.drain(..) {
        let index = key(&located).and_then(|key| by_key.get_mut(&key)?.pop_front());
        match index.and_then(|index| left[index].take()) {
            Some(old) => pairs.push((old, located)),
            None => alone.push(located),
        }
    }
    old.extend(left.into_iter().flatten());
    new.append(&mut alone);
    pairs
}
