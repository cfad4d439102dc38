//! The rows of `STACK CFI`: the rules for a range of addresses, which add up from record to record.

use crate::architecture::Architecture;
use crate::error::RuleError;
use crate::expression::{Expression, Variable};

/// The most rules of a row: one for each register, and as many of other names.
const MOST_RULES: usize = 256;

/// The rules of a row.
#[derive(Clone, Debug, Default, PartialEq, Eq)]
pub struct Row<'t> {
    /// The first address.
    pub begin: u64,
    /// The address after the last one.
    pub end: u64,
    /// The rules.
    pub rules: Rules<'t>,
}

/// Rules, each with its name. The last rule of a name counts.
#[derive(Clone, Debug, Default, PartialEq, Eq)]
pub struct Rules<'t>(Vec<(&'t str, &'t str)>);

impl<'t> Rules<'t> {
    /// Adds the rules of a record, such as `.cfa: $rsp 8 + .ra: .cfa -8 + ^`.
    ///
    /// # Errors
    ///
    /// If the text doesn't begin with a name, or there are too many rules.
    pub(crate) fn add(&mut self, text: &'t [u8]) -> Result<(), RuleError> {
        let mut rest = std::str::from_utf8(text).map_err(|_| RuleError::Word)?.trim_start_matches(' ');
        while !rest.is_empty() {
            let (name, after) = rest.split_once(':').ok_or(RuleError::NoName)?;
            if name.is_empty() || name.contains(' ') {
                return Err(RuleError::NoName);
            }
            // The rule ends where the next name begins, which is the word with a colon at its end.
            let end = after.find(':').map_or(after.len(), |colon| after[..colon].rfind(' ').unwrap_or(colon));
            self.set(name, after[..end].trim_matches(' '))?;
            rest = after[end..].trim_start_matches(' ');
        }
        Ok(())
    }

    fn set(&mut self, name: &'t str, rule: &'t str) -> Result<(), RuleError> {
        match self.0.iter().position(|(known, _)| *known == name) {
            Some(place) => self.0[place].1 = rule,
            None if self.0.len() == MOST_RULES => return Err(RuleError::TooLong),
            None => self.0.push((name, rule)),
        }
        Ok(())
    }

    /// The rules as expressions, those of the CFA and the return address first, then by the numbers of registers. A
    /// rule that can't be read is an error; one for a name that is no register of the machine is left out.
    pub fn expressions(&self, architecture: Architecture) -> Vec<(Variable, Result<Expression, RuleError>)> {
        let known = self.0.iter().filter_map(|(name, rule)| {
            // The return address has two names.
            let variable = match Variable::named(name, architecture)? {
                Variable::Register(number) if number == architecture.abi().program_counter => Variable::ReturnAddress,
                variable => variable,
            };
            Some((variable, Expression::parse(rule, architecture)))
        });
        let mut known: Vec<_> = known.collect();
        known.sort_by_key(|(variable, _)| *variable);
        known
    }
}

#[cfg(test)]
mod tests {
    use super::*;

    fn shown(texts: &[&'static str]) -> Vec<String> {
        let mut rules = Rules::default();
        texts.iter().for_each(|text| rules.add(text.as_bytes()).unwrap());
        let all = rules.expressions(Architecture::X86_64).into_iter();
        all.map(|(variable, rule)| {
            let rule = rule.map_or_else(|error| error.to_string(), |rule| rule.text(Architecture::X86_64).to_string());
            format!("{}: {}", variable.text(Architecture::X86_64), rule)
        })
        .collect()
    }

    #[test]
    fn rules_add_up() {
        let rows = ["$rbx: .cfa -16 + ^ .cfa: $rsp 8 + .ra: .cfa -8 + ^", ".cfa: $rsp 16 +", " $rbx: $rbx "];
        assert_eq!(shown(&rows), [".cfa: $rsp 16 +", ".ra: .cfa -8 + ^", "$rbx: $rbx"]);
    }

    #[test]
    fn a_bad_rule_costs_itself_alone() {
        let found = shown(&[".cfa: $rsp 8 + $rbx: .undef $xyz: 1 $rip: .cfa 4 - ^"]);
        assert_eq!(
            found,
            [".cfa: $rsp 8 +", ".ra: .cfa 4 - ^", "$rbx: a word is no number, no operator and no register"]
        );
    }

    #[test]
    fn texts_without_names_are_refused() {
        let add = |text: &'static [u8]| Rules::default().add(text);
        assert_eq!(add(b"8 +"), Err(RuleError::NoName));
        assert_eq!(add(b"a .cfa: 8"), Err(RuleError::NoName));
        assert_eq!(add(b": 8"), Err(RuleError::NoName));
        assert_eq!(add(b".cfa: \xff"), Err(RuleError::Word));
        assert_eq!(add(b""), Ok(()));
        assert_eq!(add(b".cfa:.ra: 8"), Err(RuleError::NoName));
    }
}
