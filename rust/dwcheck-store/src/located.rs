//! Findings with the packages and files in which they are.

use crate::error::StoreError;
use crate::store::Store;
use rusqlite::Row;

/// All findings, in the order of their commands, packages and files.
pub(crate) const LOCATED: &str = "
    SELECT question.command, question.options, coalesce(package.name || ':' || package.architecture, '') AS package,
        CASE WHEN package.id IS NULL THEN file.path ELSE place.member END AS file, coalesce(content.compiler, ''),
        finding.kind, finding.severity, finding.function, finding.address, finding.text
    FROM finding JOIN answer ON answer.id = finding.answer JOIN question ON question.id = answer.question
        JOIN content ON content.id = answer.content JOIN place ON place.content = content.id
        JOIN file ON file.id = place.file LEFT JOIN package ON package.id = file.package
    ORDER BY question.command, question.options, package, file, file.path, finding.number";

/// A finding, and where it is.
#[derive(Clone, Debug, PartialEq, Eq)]
pub struct Located {
    /// The command that found it.
    pub command: String,
    /// The command's options.
    pub options: String,
    /// The package with its architecture, `libc6:amd64`. Empty if the file is in none.
    pub package: String,
    /// The file: a path in the package, or on disk.
    pub file: String,
    /// The compiler that the file names. Empty if it names none.
    pub compiler: String,
    /// The kind's name.
    pub kind: String,
    /// How bad it is.
    pub severity: String,
    /// The function, if it has a name.
    pub function: Option<String>,
    /// Where it is in the file.
    pub address: String,
    /// Its text, without the file.
    pub text: String,
}

impl Located {
    /// The finding of a row of [`LOCATED`].
    pub(crate) fn of_row(row: &Row<'_>) -> rusqlite::Result<Located> {
        Ok(Located {
            command: row.get(0)?,
            options: row.get(1)?,
            package: row.get(2)?,
            file: row.get(3)?,
            compiler: row.get(4)?,
            kind: row.get(5)?,
            severity: row.get(6)?,
            function: row.get(7)?,
            address: row.get(8)?,
            text: row.get(9)?,
        })
    }
}

impl Store {
    /// Calls `each` with all findings in files that are still there, in the order of their commands, packages and
    /// files.
    ///
    /// # Errors
    ///
    /// If the store can't be read.
    pub fn each_finding(&self, mut each: impl FnMut(Located)) -> Result<(), StoreError> {
        self.read(|connection| {
            let mut statement = connection.prepare(LOCATED)?;
            let mut rows = statement.query([])?;
            while let Some(row) = rows.next()? {
                each(Located::of_row(row)?);
            }
            Ok(())
        })
    }
}
