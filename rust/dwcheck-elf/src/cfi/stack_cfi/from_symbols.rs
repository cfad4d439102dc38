//! Rows of symbol files as rows of unwind tables.

use crate::cfi::row::{Cfa, Row, Rule};
use crate::cfi::table_row::TableRow;
use dwcheck_symbols::{Architecture, Expression, Operator, Token, Variable};
use dwcheck_types::codes::op;
use std::borrow::Cow;

/// A row of a symbol file. `None` if its CFA or its return address has no rule that can be read.
pub(crate) fn row_of_symbols(found: &dwcheck_symbols::Row<'_>, architecture: Architecture) -> Option<TableRow> {
    let abi = architecture.abi();
    let return_register = abi.link_register.unwrap_or(abi.program_counter);
    let (mut cfa, mut rules, mut has_return_address) = (None, Vec::new(), false);
    for (variable, rule) in found.rules.expressions(architecture) {
        let (register, rule) = match (variable, rule) {
            (Variable::Cfa, rule) => {
                cfa = Some(cfa_of(&rule.ok()?)?);
                continue;
            }
            (Variable::ReturnAddress, rule) => {
                has_return_address = true;
                (return_register, return_rule(&rule.ok()?, return_register)?)
            }
            // It says the same as the rule of the return address, or what nobody asks for.
            (Variable::Register(register), _) if register == return_register => continue,
            (Variable::Register(register), rule) => {
                (register, rule.ok().and_then(|rule| rule_of(&rule, register)).unwrap_or(Rule::Undefined))
            }
        };
        // A rule lasts until another one; that of a register in its place is for none.
        if rule == Rule::SameValue && register != return_register {
            continue;
        }
        rules.push((register, rule));
    }
    rules.sort_by_key(|(register, _)| *register);
    let row = Row { begin: found.begin, end: found.end, cfa: cfa.filter(|_| has_return_address)?, rules };
    Some(TableRow { row, return_register, ..TableRow::default() })
}

fn cfa_of(rule: &Expression) -> Option<Cfa<'static>> {
    Some(match *rule.tokens() {
        [Token::Variable(Variable::Register(register))] => Cfa::RegisterOffset { register, offset: 0 },
        [Token::Variable(Variable::Register(register)), Token::Number(offset), Token::Operator(Operator::Add)]
        | [Token::Number(offset), Token::Variable(Variable::Register(register)), Token::Operator(Operator::Add)] => {
            Cfa::RegisterOffset { register, offset }
        }
        [Token::Variable(Variable::Register(register)), Token::Number(offset), Token::Operator(Operator::Subtract)] => {
            Cfa::RegisterOffset { register, offset: offset.wrapping_neg() }
        }
        _ => Cfa::Expression(Cow::Owned(dwarf(rule.tokens())?)),
    })
}

/// The rule of the return address. 0 is that of the outermost frame.
fn return_rule(rule: &Expression, register: u16) -> Option<Rule<'static>> {
    match rule.tokens() {
        [Token::Number(0)] => Some(Rule::Undefined),
        _ => rule_of(rule, register),
    }
}

fn rule_of(rule: &Expression, register: u16) -> Option<Rule<'static>> {
    const CFA: Token = Token::Variable(Variable::Cfa);
    const ADD: Token = Token::Operator(Operator::Add);
    const SUBTRACT: Token = Token::Operator(Operator::Subtract);
    const LOAD: Token = Token::Operator(Operator::Dereference);
    Some(match *rule.tokens() {
        [CFA, Token::Number(offset), ADD, LOAD] | [Token::Number(offset), CFA, ADD, LOAD] => Rule::Offset(offset),
        [CFA, Token::Number(offset), SUBTRACT, LOAD] => Rule::Offset(offset.wrapping_neg()),
        [CFA, LOAD] => Rule::Offset(0),
        [CFA, Token::Number(offset), ADD] => Rule::ValOffset(offset),
        [CFA, Token::Number(offset), SUBTRACT] => Rule::ValOffset(offset.wrapping_neg()),
        [CFA] => Rule::ValOffset(0),
        [Token::Variable(Variable::Register(other))] if other == register => Rule::SameValue,
        [Token::Variable(Variable::Register(other))] => Rule::Register(other),
        [ref place @ .., LOAD] => Rule::Expression(Cow::Owned(dwarf(place)?)),
        ref value => Rule::ValExpression(Cow::Owned(dwarf(value)?)),
    })
}

/// An expression of DWARF. `None` if it uses the return address or rounds to what isn't a number.
fn dwarf(tokens: &[Token]) -> Option<Vec<u8>> {
    let mut bytes = Vec::new();
    let mut words = tokens.iter().peekable();
    while let Some(word) = words.next() {
        match *word {
            Token::Number(unit) if words.peek() == Some(&&Token::Operator(Operator::Align)) => {
                words.next();
                let is_power = unit > 0 && unit & (unit - 1) == 0;
                push_constant(&mut bytes, is_power.then(|| unit.wrapping_neg())?);
                bytes.push(op::AND);
            }
            Token::Number(number) => push_constant(&mut bytes, number),
            Token::Variable(Variable::Cfa) => bytes.push(op::CALL_FRAME_CFA),
            Token::Variable(Variable::ReturnAddress) | Token::Operator(Operator::Align) => return None,
            Token::Variable(Variable::Register(register)) => {
                bytes.push(op::BREG0 + u8::try_from(register).ok().filter(|register| *register < 32)?);
                bytes.push(0);
            }
            Token::Operator(operator) => bytes.push(match operator {
                Operator::Add => op::PLUS,
                Operator::Subtract => op::MINUS,
                Operator::Multiply => op::MUL,
                Operator::Dereference => op::DEREF,
                // Those of DWARF are of signed numbers.
                Operator::Divide | Operator::Remainder | Operator::Align => return None,
            }),
        }
    }
    Some(bytes)
}

fn push_constant(bytes: &mut Vec<u8>, number: i64) {
    bytes.push(op::CONST8S);
    bytes.extend_from_slice(&number.to_le_bytes());
}

#[cfg(test)]
mod tests {
    use super::*;
    use crate::cfi::stack_cfi::said;
    use dwcheck_symbols::SymbolFile;

    fn row(rules: &str) -> Option<TableRow> {
        let text = format!("MODULE Linux x86_64 00 a\nSTACK CFI INIT 10 10 {}\n", rules);
        row_of_symbols(&SymbolFile::read(text.as_bytes()).unwrap().row(0x10)?, Architecture::X86_64)
    }

    #[test]
    fn rules_are_those_of_unwind_tables() {
        let found = row(".cfa: 16 $rsp + .ra: .cfa 8 - ^ $rbx: .cfa -24 + ^ $r12: $r12 $rbp: .cfa -16 +").unwrap();
        assert_eq!(found.to_string(), "cfa=r7+16 r3=[c-24] r6=c-16 r16=[c-8]");
        assert_eq!(row(".cfa: $rbp $rip: 0").unwrap().to_string(), "cfa=r6+0 r16=u");
        assert_eq!(row(".cfa: $rsp 8 +"), None);
        assert_eq!(row(".cfa: $rsp 8 3 @ .ra: .cfa -8 + ^"), None);
        let lost = row(".cfa: $rsp 8 + .ra: .cfa -8 + ^ $rbx: .undef").unwrap();
        assert_eq!(lost.rule(3), Some(&Rule::Undefined));
    }

    #[test]
    fn what_is_said_of_a_row_is_read_as_this_row() {
        for rules in [
            ".cfa: $rsp 16 + .ra: .cfa -8 + ^ $rbx: .cfa -24 + ^",
            ".cfa: $rbp 16 + .ra: .cfa -8 + ^ $rsp: .cfa 0 +",
            ".cfa: $rsp 8 + .ra: 0",
        ] {
            let found = row(rules).unwrap();
            let said = said(&found, 0x10, Architecture::X86_64).unwrap();
            let names = |variable: &Variable| match variable {
                Variable::Cfa => ".cfa".to_string(),
                Variable::ReturnAddress => ".ra".to_string(),
                Variable::Register(number) => format!("${}", Architecture::X86_64.register_name(*number).unwrap()),
            };
            let texts =
                said.rules.iter().map(|(name, rule)| format!("{}: {}", names(name), rule.text(Architecture::X86_64)));
            assert_eq!(texts.collect::<Vec<_>>().join(" "), rules);
        }
    }
}
