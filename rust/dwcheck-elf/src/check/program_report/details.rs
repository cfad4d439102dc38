//! The rows and the instructions of functions, as a page has them.

use super::{Function, Report};
use crate::cfi::row::Row;
use crate::cfi::validate::RowSource;
use std::collections::HashMap;
use std::fmt::Write;

/// Texts by number. Equal texts have one number.
#[derive(Default)]
pub(super) struct Texts {
    numbers: HashMap<String, usize>,
    /// The bytes of all texts.
    size: usize,
}

/// The rows and the instructions of as many functions as fit into a number of bytes.
#[derive(Default)]
pub(super) struct Details {
    /// The rules of CFAs, as `rows` writes them.
    pub cfas: Texts,
    /// The rules of registers of a row, as `rows` writes them.
    pub rules: Texts,
    /// For each function its rows, each with a semicolon after it: the distance of its first address from the
    /// function's, the number of its CFA, and that of its rules.
    pub rows: Vec<Option<String>>,
    /// For each function its instructions, a line for each.
    pub listings: Vec<Option<String>>,
}

impl Texts {
    fn number(&mut self, text: &str) -> usize {
        if let Some(number) = self.numbers.get(text) {
            return *number;
        }
        let number = self.numbers.len();
        self.size += text.len();
        self.numbers.insert(text.to_string(), number);
        number
    }

    /// All texts, by their numbers.
    pub fn all(&self) -> Vec<&str> {
        let mut all = vec![""; self.numbers.len()];
        self.numbers.iter().for_each(|(text, number)| all[*number] = text);
        all
    }
}

impl Details {
    /// Reads the rows of these functions, and then their instructions, in this order, until they have `room` bytes
    /// or all are read.
    pub fn of(report: &Report<'_>, order: &[usize], room: usize) -> Self {
        let count = report.functions.len();
        let mut details = Details { rows: vec![None; count], listings: vec![None; count], ..Details::default() };
        let mut left = room;
        for index in order {
            let function = &report.functions[*index];
            let before = details.cfas.size + details.rules.size;
            let rows = details.rows_of(report, function).unwrap_or_default();
            let taken = rows.len() + details.cfas.size + details.rules.size - before;
            details.rows[*index] = Some(rows);
            left = left.saturating_sub(taken);
            if left == 0 {
                return details;
            }
        }
        details.add_listings(report, order, left);
        details
    }

    fn add_listings(&mut self, report: &Report<'_>, order: &[usize], mut left: usize) {
        for index in order {
            let function = &report.functions[*index];
            let listing = report.memory.listing(function.begin..function.end, left);
            left = left.saturating_sub(listing.len());
            if left == 0 {
                return;
            }
            self.listings[*index] = Some(listing);
        }
    }

    fn rows_of(&mut self, report: &Report<'_>, function: &Function) -> Option<String> {
        let mut source = report.rows_of(function)?;
        let (mut row, mut text) = (Row::default(), String::new());
        for _ in 0..function.rows {
            if source.next_row(&mut row) != Ok(true) {
                break;
            }
            let rules: Vec<_> = row.rules.iter().map(|(register, rule)| format!("r{}={}", register, rule)).collect();
            let cfa = self.cfas.number(&row.cfa.to_string());
            let rules = self.rules.number(&rules.join(" "));
            // Writing to a string can't fail.
            let _ = write!(text, "{} {} {};", row.begin - function.begin, cfa, rules);
        }
        Some(text)
    }

    /// How many functions have no rows in it, and how many no instructions.
    pub fn left_out(&self) -> (usize, usize) {
        let count = |all: &[Option<String>]| all.iter().filter(|one| one.is_none()).count();
        (count(&self.rows), count(&self.listings))
    }
}
