//! Rows in the form that Breakpad's symbol files have (`STACK CFI`): what of a row can be said in it.
//!
//! It has expressions, but of few operators, and no word for a register that is lost, for a signal frame, or for a
//! return address that is signed. What depends on the address alone is computed for each address.

mod from_symbols;
mod postfix;

pub(crate) use from_symbols::row_of_symbols;

use crate::cfi::row::{Cfa, Rule};
use crate::cfi::table_row::TableRow;
use dwcheck_symbols::{Architecture, Expression, Operator, Token, Variable};
use postfix::{Postfix, Stack};
use std::fmt;

/// What `STACK CFI` can't say.
#[derive(Clone, Copy, Debug, PartialEq, Eq, PartialOrd, Ord, Hash)]
pub enum Unsaid {
    /// The CFA of a row, whose expression has other operators. The row is left out.
    Cfa,
    /// The return address of a row, for the same reason, or because no rule says where it is. The row is left out.
    ReturnAddress,
    /// The rule of a register, for the same reason, or because the register isn't a general one. The rule is left out.
    Register,
    /// That a register is lost.
    Undefined,
    /// That a frame is a signal frame. The rows are written, and the address of the frame above isn't after a call.
    SignalFrame,
    /// That the return address is signed (aarch64). The rows are written.
    Signed,
}

/// A row as far as it can be said.
#[derive(Clone, Debug, Default, PartialEq, Eq)]
pub(crate) struct SaidRow {
    /// The rules: those of the CFA and of the return address first, then of registers, ascending.
    pub rules: Vec<(Variable, Expression)>,
    /// What of it can't be said.
    pub unsaid: Vec<Unsaid>,
    /// Whether the rules are those of one address alone, because an expression uses the address.
    pub is_for_one_address: bool,
}

impl Unsaid {
    /// All of it.
    pub const ALL: [Unsaid; 6] =
        [Unsaid::Cfa, Unsaid::ReturnAddress, Unsaid::Register, Unsaid::Undefined, Unsaid::SignalFrame, Unsaid::Signed];
}

impl fmt::Display for Unsaid {
    fn fmt(&self, f: &mut fmt::Formatter<'_>) -> fmt::Result {
        f.write_str(match self {
            Unsaid::Cfa => "cfa",
            Unsaid::ReturnAddress => "return-address",
            Unsaid::Register => "register",
            Unsaid::Undefined => "undefined",
            Unsaid::SignalFrame => "signal-frame",
            Unsaid::Signed => "signed",
        })
    }
}

/// An expression of these words, which are known to leave one value.
fn expression(tokens: impl Into<Vec<Token>>) -> Option<Expression> {
    Expression::new(tokens.into()).ok()
}

/// A register, or the CFA, plus a number.
fn sum(variable: Variable, offset: i64) -> Option<Expression> {
    expression([Token::Variable(variable), Token::Number(offset), Token::Operator(Operator::Add)])
}

/// The word at the CFA plus an offset.
fn saved(offset: i64) -> Option<Expression> {
    let add = [Token::Variable(Variable::Cfa), Token::Number(offset), Token::Operator(Operator::Add)];
    expression([&add[..], &[Token::Operator(Operator::Dereference)]].concat())
}

/// Says a row as it is at an address.
///
/// # Errors
///
/// What can't be said, if the row is of no use without it.
pub(crate) fn said(row: &TableRow, address: u64, architecture: Architecture) -> Result<SaidRow, Unsaid> {
    let mut writer = RowWriter { address, architecture, said: SaidRow::default() };
    let cfa = match &row.row.cfa {
        Cfa::RegisterOffset { register, offset } => {
            architecture.register_name(*register).and_then(|_| sum(Variable::Register(*register), *offset))
        }
        Cfa::Expression(bytes) => writer.expression(bytes, None),
    };
    writer.said.rules.push((Variable::Cfa, cfa.ok_or(Unsaid::Cfa)?));
    let return_address = writer.return_address(row).ok_or(Unsaid::ReturnAddress)?;
    writer.said.rules.push((Variable::ReturnAddress, return_address));
    for (register, rule) in &row.row.rules {
        let is_link = Some(*register) == architecture.abi().link_register;
        if *register != row.return_register || is_link {
            writer.register(*register, rule);
        }
    }
    if row.is_signed {
        writer.said.unsaid.push(Unsaid::Signed);
    }
    Ok(writer.said)
}

struct RowWriter {
    address: u64,
    architecture: Architecture,
    said: SaidRow,
}

impl RowWriter {
    /// An expression of DWARF in postfix notation. `pushed` is what is on the stack before it.
    fn expression(&mut self, bytes: &[u8], pushed: Option<Variable>) -> Option<Expression> {
        let mut stack = Stack::new(self.architecture, self.address, pushed);
        let result = stack.run(bytes)?;
        self.said.is_for_one_address |= stack.uses_address;
        match result {
            Postfix::Number(number) => expression([Token::Number(number)]),
            Postfix::Words(words) => expression(words),
        }
    }

    /// Where the return address is. An undefined one, which ends a stack, is 0.
    fn return_address(&mut self, row: &TableRow) -> Option<Expression> {
        let register = row.return_register;
        let kept = || {
            let is_link = Some(register) == self.architecture.abi().link_register;
            is_link.then(|| expression([Token::Variable(Variable::Register(register))])).flatten()
        };
        match row.rule(register) {
            None | Some(Rule::SameValue) => kept(),
            Some(Rule::Undefined) => expression([Token::Number(0)]),
            Some(rule) => self.rule(rule),
        }
    }

    /// Says the rule of a register, or that it can't be said.
    fn register(&mut self, register: u16, rule: &Rule<'_>) {
        let variable = Variable::Register(register);
        let is_general = self.architecture.register_name(register).is_some();
        let said = match rule {
            _ if !is_general => None,
            Rule::Undefined => {
                self.said.unsaid.push(Unsaid::Undefined);
                return;
            }
            Rule::SameValue => expression([Token::Variable(variable)]),
            rule => self.rule(rule),
        };
        match said {
            Some(said) => self.said.rules.push((variable, said)),
            None => self.said.unsaid.push(Unsaid::Register),
        }
    }

    /// Where a value is, or what it is.
    fn rule(&mut self, rule: &Rule<'_>) -> Option<Expression> {
        match rule {
            Rule::Offset(offset) => saved(*offset),
            Rule::ValOffset(offset) => sum(Variable::Cfa, *offset),
            Rule::Register(other) => {
                self.architecture.register_name(*other)?;
                expression([Token::Variable(Variable::Register(*other))])
            }
            Rule::Expression(bytes) => {
                let place = self.expression(bytes, Some(Variable::Cfa))?;
                // Where the program is loaded isn't known.
                if let [Token::Number(_)] = place.tokens() {
                    return None;
                }
                expression([place.tokens(), &[Token::Operator(Operator::Dereference)]].concat())
            }
            Rule::ValExpression(bytes) => self.expression(bytes, Some(Variable::Cfa)),
            Rule::Undefined | Rule::SameValue | Rule::Architectural => None,
        }
    }
}

/// The rules of a row that are other ones than in the row before it. A register that has no rule any more is in its
/// place again.
pub(crate) fn changed_rules(before: &SaidRow, row: &SaidRow) -> Vec<(Variable, Expression)> {
    let restored = before.rules.iter().filter(|(variable, _)| row.rules.iter().all(|(other, _)| other != variable));
    let restored = restored.filter_map(|(variable, _)| Some((*variable, expression([Token::Variable(*variable)])?)));
    let changed = row.rules.iter().filter(|rule| !before.rules.contains(rule)).cloned();
    let is_needed = |(variable, rule): &(Variable, Expression)| {
        !before.rules.iter().any(|known| known == &(*variable, rule.clone()))
    };
    changed.chain(restored.filter(is_needed)).collect()
}

#[cfg(test)]
mod tests {
    use super::*;
    use crate::cfi::row::Row;
    use std::borrow::Cow;

    fn row(cfa: Cfa<'static>, return_register: u16, rules: Vec<(u16, Rule<'static>)>) -> TableRow {
        let row = Row { begin: 0x1000, end: 0x1010, cfa, rules };
        TableRow { row, return_register, ..TableRow::default() }
    }

    fn text(row: &TableRow, address: u64, architecture: Architecture) -> String {
        let shown = |(variable, rule): &(Variable, Expression)| format!("{:?}: {}", variable, rule.text(architecture));
        said(row, address, architecture).map_or_else(
            |unsaid| unsaid.to_string(),
            |said| said.rules.iter().map(shown).collect::<Vec<_>>().join("; "),
        )
    }

    fn bytes(bytes: &'static [u8]) -> Cow<'static, [u8]> {
        Cow::Borrowed(bytes)
    }

    #[test]
    fn usual_rows_are_said_as_breakpad_says_them() {
        let cfa = Cfa::RegisterOffset { register: 7, offset: 16 };
        let usual = row(cfa, 16, vec![(6, Rule::Offset(-16)), (16, Rule::Offset(-8))]);
        assert_eq!(
            text(&usual, 0x1000, Architecture::X86_64),
            "Cfa: $rsp 16 +; ReturnAddress: .cfa -8 + ^; Register(6): .cfa -16 + ^"
        );
        let leaf = row(Cfa::RegisterOffset { register: 31, offset: 0 }, 30, Vec::new());
        assert_eq!(text(&leaf, 0x1000, Architecture::Arm64), "Cfa: sp 0 +; ReturnAddress: x30");
        let cfa = Cfa::RegisterOffset { register: 29, offset: 32 };
        let saved = row(cfa, 30, vec![(30, Rule::Offset(-24)), (72, Rule::Offset(-8))]);
        assert_eq!(
            text(&saved, 0x1000, Architecture::Arm64),
            "Cfa: x29 32 +; ReturnAddress: .cfa -24 + ^; Register(30): .cfa -24 + ^"
        );
        assert_eq!(said(&saved, 0x1000, Architecture::Arm64).unwrap().unsaid, [Unsaid::Register]);
    }

    #[test]
    fn the_end_of_a_stack_has_the_return_address_0() {
        let outermost = row(Cfa::RegisterOffset { register: 7, offset: 8 }, 16, vec![(16, Rule::Undefined)]);
        assert_eq!(text(&outermost, 0x1000, Architecture::X86_64), "Cfa: $rsp 8 +; ReturnAddress: 0");
        let unknown = row(Cfa::RegisterOffset { register: 7, offset: 8 }, 16, Vec::new());
        assert_eq!(text(&unknown, 0x1000, Architecture::X86_64), "return-address");
    }

    /// rsp + 8 + ((rip & 15) >= 11) << 3: what linkers write for procedure linkage tables.
    #[test]
    fn an_expression_of_the_address_is_computed() {
        let plt = bytes(&[0x77, 8, 0x80, 0, 0x3f, 0x1a, 0x3b, 0x2a, 0x33, 0x24, 0x22]);
        let plt = row(Cfa::Expression(plt), 16, vec![(16, Rule::Offset(-8))]);
        assert_eq!(text(&plt, 0x100a, Architecture::X86_64), "Cfa: $rsp 8 +; ReturnAddress: .cfa -8 + ^");
        assert_eq!(text(&plt, 0x100b, Architecture::X86_64), "Cfa: $rsp 16 +; ReturnAddress: .cfa -8 + ^");
        assert!(said(&plt, 0x100b, Architecture::X86_64).unwrap().is_for_one_address);
    }

    #[test]
    fn expressions_with_other_operators_are_not_said() {
        // rsp * 2
        let doubled = row(Cfa::Expression(bytes(&[0x77, 0, 0x32, 0x1e])), 16, vec![(16, Rule::Offset(-8))]);
        assert_eq!(text(&doubled, 0x1000, Architecture::X86_64), "cfa");
        // *(rsp + 160), as in signal frames
        let loaded = row(Cfa::Expression(bytes(&[0x77, 0xa0, 1, 0x06])), 16, vec![(16, Rule::Offset(-8))]);
        assert_eq!(text(&loaded, 0x1000, Architecture::X86_64), "Cfa: $rsp 160 + ^; ReturnAddress: .cfa -8 + ^");
        // The CFA, less 8, rounded down to 16: an address
        let rule = Rule::Expression(bytes(&[0x38, 0x1c, 0x09, 0xf0, 0x1a]));
        let aligned = row(Cfa::RegisterOffset { register: 7, offset: 8 }, 16, vec![(3, rule), (16, Rule::Offset(-8))]);
        assert!(text(&aligned, 0x1000, Architecture::X86_64).ends_with("Register(3): .cfa -8 + 16 @ ^"));
    }

    #[test]
    fn a_register_without_a_rule_is_in_its_place_again() {
        let said = |rules| {
            said(&row(Cfa::RegisterOffset { register: 7, offset: 8 }, 16, rules), 0x1000, Architecture::X86_64).unwrap()
        };
        let (before, after) =
            (said(vec![(3, Rule::Offset(-16)), (16, Rule::Offset(-8))]), said(vec![(16, Rule::Offset(-8))]));
        let changed = changed_rules(&before, &after);
        assert_eq!(changed, [(Variable::Register(3), expression([Token::Variable(Variable::Register(3))]).unwrap())]);
        assert_eq!(changed_rules(&before, &before), []);
    }
}
