//! Reads the answers in a store, and keeps further ones.

use crate::answer::{Answer, Content, Finding, Outcome, Question};
use crate::digest::Digest;
use crate::error::{Problem, StoreError};
use crate::store::Store;
use rusqlite::{params, Connection, OptionalExtension, Row};
use serde_json::Value;
use std::cmp::Ordering;

/// The answer to a question, without its findings and totals.
const ANSWER: &str = "
    SELECT answer.id, answer.outcome, answer.details, answer.inputs FROM answer
    JOIN content ON content.id = answer.content JOIN question ON question.id = answer.question
    WHERE content.sha256 = ?1 AND question.command = ?2 AND question.options = ?3 AND answer.version = ?4";

/// Adds a content, or what wasn't known of it.
const ADD_CONTENT: &str = "
    INSERT INTO content (sha256, bytes, build_id, compiler) VALUES (?1, ?2, ?3, ?4)
    ON CONFLICT (sha256) DO UPDATE SET build_id = coalesce(build_id, excluded.build_id),
        compiler = coalesce(compiler, excluded.compiler)";

const ADD_ANSWER: &str =
    "INSERT INTO answer (content, question, version, inputs, outcome, details) VALUES (?1, ?2, ?3, ?4, ?5, ?6)";

const ADD_FINDING: &str = "
    INSERT INTO finding (answer, number, kind, severity, function, address, text, details)
    VALUES (?1, ?2, ?3, ?4, ?5, ?6, ?7, ?8)";

impl Store {
    /// The answer to a question for a content, if it is there.
    ///
    /// # Errors
    ///
    /// If the store can't be read.
    pub fn answer(&self, digest: Digest, question: &Question) -> Result<Option<Answer>, StoreError> {
        let kept = self.answer_with_inputs(digest, question, |inputs| inputs == question.inputs())?;
        Ok(kept.map(|(answer, _)| answer))
    }

    /// The answer to a question for a content, if it is there, whatever its inputs are, and these.
    ///
    /// # Errors
    ///
    /// If the store can't be read.
    pub fn answer_of_any_inputs(
        &self,
        digest: Digest,
        question: &Question,
    ) -> Result<Option<(Answer, String)>, StoreError> {
        self.answer_with_inputs(digest, question, |_| true)
    }

    /// The answer to a question for a content, if it is there, and `takes` its inputs.
    fn answer_with_inputs(
        &self,
        digest: Digest,
        question: &Question,
        takes: impl FnOnce(&str) -> bool,
    ) -> Result<Option<(Answer, String)>, StoreError> {
        self.read(|connection| {
            let mut statement = connection.prepare_cached(ANSWER)?;
            let words = params![digest.0, question.command(), question.options(), question.version()];
            let head = |row: &Row<'_>| Ok((row.get(0)?, row.get::<_, String>(1)?, row.get(2)?, row.get(3)?));
            let head: Option<(_, _, _, String)> = statement.query_row(words, head).optional()?;
            match head.filter(|(.., inputs)| takes(inputs)) {
                Some((id, outcome, details, inputs)) => {
                    Ok(Some((read_answer(connection, id, &outcome, details)?, inputs)))
                }
                None => Ok(None),
            }
        })
    }

    /// Keeps the answer to a question for a content. One of another version of the program, or with other inputs, is
    /// replaced, and if there is one of this version with these inputs, nothing changes.
    ///
    /// # Errors
    ///
    /// If the store can't be written. Then nothing of the answer is kept.
    pub fn keep(&mut self, content: &Content, question: &Question, answer: &Answer) -> Result<(), StoreError> {
        self.write(|connection| {
            let id = add_content(connection, content)?;
            add_answer(connection, id, question, answer, |_, _| true)
        })
    }
}

/// Adds a content, and returns its id.
pub(crate) fn add_content(connection: &Connection, content: &Content) -> Result<i64, Problem> {
    let Content { digest, bytes, build_id, compiler } = content;
    connection.prepare_cached(ADD_CONTENT)?.execute(params![digest.0, *bytes as i64, build_id, compiler])?;
    let mut statement = connection.prepare_cached("SELECT id FROM content WHERE sha256 = ?1")?;
    Ok(statement.query_row([&digest.0[..]], |row| row.get(0))?)
}

/// Adds an answer for a content. One of another version or with other inputs is replaced if `replaces` says so of these.
pub(crate) fn add_answer(
    connection: &Connection,
    content: i64,
    question: &Question,
    answer: &Answer,
    replaces: impl FnOnce(&str, &str) -> bool,
) -> Result<(), Problem> {
    let (command, options) = (question.command(), question.options());
    let mut add = connection.prepare_cached("INSERT OR IGNORE INTO question (command, options) VALUES (?1, ?2)")?;
    add.execute([command, options])?;
    let mut find = connection.prepare_cached("SELECT id FROM question WHERE command = ?1 AND options = ?2")?;
    let question_id: i64 = find.query_row([command, options], |row| row.get(0))?;
    let known = "SELECT id, version, inputs FROM answer WHERE content = ?1 AND question = ?2";
    let head = |row: &Row<'_>| Ok((row.get(0)?, row.get(1)?, row.get(2)?));
    let known: Option<(i64, String, String)> =
        connection.prepare_cached(known)?.query_row([content, question_id], head).optional()?;
    let wanted = (question.version(), question.inputs());
    match known {
        Some((_, version, inputs)) if (&*version, &*inputs) == wanted || !replaces(&version, &inputs) => return Ok(()),
        Some((id, ..)) => connection.prepare_cached("DELETE FROM answer WHERE id = ?1")?.execute([id])?,
        None => 0,
    };
    let (version, inputs) = wanted;
    let words = params![content, question_id, version, inputs, answer.outcome.name(), text_of(&answer.details)];
    let id = connection.prepare_cached(ADD_ANSWER)?.insert(words)?;
    add_findings(connection, id, &answer.findings)?;
    let mut add = connection.prepare_cached("INSERT INTO total (answer, name, count) VALUES (?1, ?2, ?3)")?;
    answer.totals.iter().try_for_each(|(name, count)| {
        add.execute(params![id, name, *count as i64])?;
        Ok(())
    })
}

fn add_findings(connection: &Connection, answer: i64, findings: &[Finding]) -> Result<(), Problem> {
    let mut add = connection.prepare_cached(ADD_FINDING)?;
    findings.iter().enumerate().try_for_each(|(number, finding)| {
        let Finding { kind, severity, function, address, text, details } = finding;
        add.execute(params![answer, number as i64, kind, severity, function, address, text, text_of(details)])?;
        Ok(())
    })
}

/// What a command needs besides, as the store has it.
fn text_of(details: &Value) -> Option<String> {
    Some(details).filter(|details| !details.is_null()).map(Value::to_string)
}

fn details_of(text: Option<String>) -> Result<Value, Problem> {
    match text {
        None => Ok(Value::Null),
        Some(text) => serde_json::from_str(&text).map_err(|_| Problem::Damaged("details that aren't JSON")),
    }
}

/// The answer with an id, an outcome and details.
pub(crate) fn read_answer(
    connection: &Connection,
    id: i64,
    outcome: &str,
    details: Option<String>,
) -> Result<Answer, Problem> {
    let outcome = Outcome::of_name(outcome).ok_or(Problem::Damaged("an outcome that isn't known"))?;
    let findings = read_findings(connection, id)?;
    Ok(Answer { outcome, findings, totals: read_totals(connection, id)?, details: details_of(details)? })
}

fn read_findings(connection: &Connection, answer: i64) -> Result<Vec<Finding>, Problem> {
    let all = "SELECT kind, severity, function, address, text, details FROM finding WHERE answer = ?1 ORDER BY number";
    let mut statement = connection.prepare_cached(all)?;
    let mut rows = statement.query([answer])?;
    let mut findings = Vec::new();
    while let Some(row) = rows.next()? {
        findings.push(Finding {
            kind: row.get(0)?,
            severity: row.get(1)?,
            function: row.get(2)?,
            address: row.get(3)?,
            text: row.get(4)?,
            details: details_of(row.get(5)?)?,
        });
    }
    Ok(findings)
}

fn read_totals(connection: &Connection, answer: i64) -> Result<Vec<(String, u64)>, Problem> {
    let all = "SELECT name, count FROM total WHERE answer = ?1 ORDER BY name";
    let mut statement = connection.prepare_cached(all)?;
    let totals = statement.query_map([answer], |row| Ok((row.get(0)?, row.get::<_, i64>(1)? as u64)))?;
    Ok(totals.collect::<Result<_, _>>()?)
}

/// The order of two versions: the numbers in them decide, from left to right, and then their texts.
pub(crate) fn version_order(one: &str, other: &str) -> Ordering {
    let numbers = |text: &str| -> Vec<u64> {
        let words = text.split(|c: char| !c.is_ascii_digit()).filter(|word| !word.is_empty());
        words.map(|word| word.parse().unwrap_or(u64::MAX)).collect()
    };
    numbers(one).cmp(&numbers(other)).then_with(|| one.cmp(other))
}
