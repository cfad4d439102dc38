//! Joins stores.

use crate::answer::{Content, Question};
use crate::answers::{add_answer, add_content, read_answer, version_order};
use crate::digest::Digest;
use crate::error::{Problem, StoreError};
use crate::files::{add_package, add_place, replace_file, Package, Place};
use crate::store::Store;
use rusqlite::{Connection, Row, Transaction};
use std::cmp::Ordering;

/// All answers, with their contents and questions.
const ANSWERS: &str = "
    SELECT sha256, bytes, build_id, compiler, command, options, version, inputs, answer.id, outcome, details
    FROM answer
    JOIN content ON content.id = answer.content JOIN question ON question.id = answer.question
    ORDER BY sha256, command, options";

/// All files, with their packages.
const FILES: &str = "
    SELECT file.id, path, name, version, architecture, source FROM file
    LEFT JOIN package ON package.id = file.package ORDER BY path";

impl Store {
    /// Adds all that another store has. Of two answers to one question, that of the later version stays, or with the later text
    /// of inputs; of a file that
    /// both have, the contents of the other store. What the file systems of other machines say of files isn't taken.
    ///
    /// # Errors
    ///
    /// If the other store can't be read, or this one can't be written. Then nothing of it is added.
    pub fn merge(&mut self, other: &Store) -> Result<(), StoreError> {
        // An error of the other store is kept apart, so that it isn't said to be one of this store.
        let mut unread = None;
        let merged = self.write(|transaction| {
            let all = merge_answers(transaction, other).and_then(|()| merge_files(transaction, other));
            all.map_err(|(is_other, problem)| match is_other {
                true => {
                    unread = Some(other.error(problem));
                    Problem::Damaged("the other store")
                }
                false => problem,
            })
        });
        unread.map_or(merged, Err)
    }
}

/// A problem, and whether it is one of the other store.
type MergeProblem = (bool, Problem);

fn of_other<E: Into<Problem>>(error: E) -> MergeProblem {
    (true, error.into())
}

fn of_this<E: Into<Problem>>(error: E) -> MergeProblem {
    (false, error.into())
}

fn merge_answers(transaction: &Transaction<'_>, other: &Store) -> Result<(), MergeProblem> {
    let mut statement = other.connection().prepare(ANSWERS).map_err(of_other)?;
    let mut rows = statement.query([]).map_err(of_other)?;
    while let Some(row) = rows.next().map_err(of_other)? {
        let (content, question) = read_head(row).map_err(of_other)?;
        let answer = read_body(other.connection(), row).map_err(of_other)?;
        let id = add_content(transaction, &content).map_err(of_this)?;
        let is_later = |version: &str, inputs: &str| {
            let order = version_order(question.version(), version);
            order.then_with(|| question.inputs().cmp(inputs)) == Ordering::Greater
        };
        add_answer(transaction, id, &question, &answer, is_later).map_err(of_this)?;
    }
    Ok(())
}

fn read_head(row: &Row<'_>) -> rusqlite::Result<(Content, Question)> {
    let bytes = row.get::<_, i64>(1)? as u64;
    let content = Content { digest: Digest(row.get(0)?), bytes, build_id: row.get(2)?, compiler: row.get(3)? };
    Ok((content, Question::with_texts(row.get(4)?, row.get(5)?, row.get(6)?, row.get(7)?)))
}

fn read_body(connection: &Connection, row: &Row<'_>) -> Result<crate::Answer, Problem> {
    let outcome: String = row.get(9)?;
    read_answer(connection, row.get(8)?, &outcome, row.get(10)?)
}

fn merge_files(transaction: &Transaction<'_>, other: &Store) -> Result<(), MergeProblem> {
    let mut statement = other.connection().prepare(FILES).map_err(of_other)?;
    let mut rows = statement.query([]).map_err(of_other)?;
    while let Some(row) = rows.next().map_err(of_other)? {
        let (path, package) = read_file(row).map_err(of_other)?;
        let places = read_places(other.connection(), row).map_err(of_other)?;
        let package = package.map(|package| add_package(transaction, &package)).transpose().map_err(of_this)?;
        let id = replace_file(transaction, &path, package).map_err(of_this)?;
        places.iter().try_for_each(|place| add_place(transaction, id, place)).map_err(of_this)?;
    }
    Ok(())
}

fn read_file(row: &Row<'_>) -> rusqlite::Result<(String, Option<Package>)> {
    let package = |name| -> rusqlite::Result<Package> {
        Ok(Package { name, version: row.get(3)?, architecture: row.get(4)?, source: row.get(5)? })
    };
    Ok((row.get(1)?, row.get::<_, Option<String>>(2)?.map(package).transpose()?))
}

fn read_places(connection: &Connection, file: &Row<'_>) -> rusqlite::Result<Vec<Place>> {
    let all = "SELECT member, sha256, bytes FROM place JOIN content ON content.id = place.content WHERE file = ?1";
    let mut statement = connection.prepare_cached(all)?;
    let id: i64 = file.get(0)?;
    let place = |row: &Row<'_>| {
        Ok(Place { member: row.get(0)?, digest: Digest(row.get(1)?), bytes: row.get::<_, i64>(2)? as u64 })
    };
    let places = statement.query_map([id], place)?;
    places.collect()
}
