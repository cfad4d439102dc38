//! Expressions of DWARF in postfix notation: they are run over words instead of values.

use dwcheck_symbols::{Architecture, Operator, Token, Variable};
use dwcheck_types::abi::Abi;
use dwcheck_types::codes::op;
use dwcheck_types::cursor::Cursor;
use dwcheck_types::target::Target;

/// The most words of an expression, and the most values on the stack.
const MOST_WORDS: usize = 256;

/// A value: a number that is known, or the words that compute it.
#[derive(Clone, Debug, PartialEq, Eq)]
pub(super) enum Postfix {
    Number(i64),
    Words(Vec<Token>),
}

/// The stack on which an expression is run.
pub(super) struct Stack {
    abi: &'static Abi,
    architecture: Architecture,
    /// The address of the frame.
    address: u64,
    /// Whether the expression uses it.
    pub uses_address: bool,
    values: Vec<Postfix>,
}

impl Postfix {
    fn into_words(self) -> Vec<Token> {
        match self {
            Postfix::Number(number) => vec![Token::Number(number)],
            Postfix::Words(words) => words,
        }
    }

    /// The value, and another one after it, combined.
    fn with(self, other: Postfix, operator: Operator) -> Self {
        let words = [self.into_words(), other.into_words(), vec![Token::Operator(operator)]];
        Postfix::Words(words.concat())
    }

    /// The value plus a number. A number that was added last is added to it.
    fn plus(self, number: i64) -> Self {
        match self {
            Postfix::Number(known) => Postfix::Number(known.wrapping_add(number)),
            Postfix::Words(words) => {
                let (before, added) = match words.as_slice() {
                    [before @ .., Token::Number(added), Token::Operator(Operator::Add)] if !before.is_empty() => {
                        (before, *added)
                    }
                    words => (words, 0),
                };
                let sum = [Token::Number(added.wrapping_add(number)), Token::Operator(Operator::Add)];
                Postfix::Words([before, &sum].concat())
            }
        }
    }
}

impl Stack {
    /// A stack for an expression of a machine that is run at an address. `pushed` is on it at first.
    pub fn new(architecture: Architecture, address: u64, pushed: Option<Variable>) -> Self {
        let values = pushed.into_iter().map(|variable| Postfix::Words(vec![Token::Variable(variable)])).collect();
        Stack { abi: architecture.abi(), architecture, address, uses_address: false, values }
    }

    /// Runs an expression, and returns its result. `None` if it can't be said.
    pub fn run(&mut self, expression: &[u8]) -> Option<Postfix> {
        let target = Target { address_size: self.abi.address_size, ..Target::LITTLE_64 };
        let mut reader = Cursor::new(expression, target);
        while !reader.is_at_end() {
            let code = reader.byte().ok()?;
            self.operate(code, &mut reader)?;
            if self.values.len() > MOST_WORDS {
                return None;
            }
        }
        self.values.pop()
    }

    fn operate(&mut self, code: u8, reader: &mut Cursor<'_>) -> Option<()> {
        let value = match code {
            op::BREG0..=op::BREG31 => self.register(u16::from(code - op::BREG0), reader.sleb().ok()? as i64)?,
            op::BREGX => {
                let register = u16::try_from(reader.uleb().ok()?).ok()?;
                self.register(register, reader.sleb().ok()? as i64)?
            }
            op::DUP => self.values.last()?.clone(),
            op::OVER => self.values.iter().rev().nth(1)?.clone(),
            op::PICK => self.values.iter().rev().nth(usize::from(reader.byte().ok()?))?.clone(),
            op::DROP => return self.values.pop().map(drop),
            op::SWAP => {
                let (last, before) = (self.values.pop()?, self.values.pop()?);
                self.values.push(last);
                before
            }
            op::NOP => return Some(()),
            op::DEREF => self.loaded()?,
            op::DEREF_SIZE if reader.byte().ok()? == self.abi.address_size.bytes() => self.loaded()?,
            op::PLUS_UCONST => self.values.pop()?.plus(reader.uleb().ok()? as i64),
            op::AND | op::MINUS | op::OR | op::PLUS | op::SHL | op::EQ..=op::NE => {
                let (other, one) = (self.values.pop()?, self.values.pop()?);
                self.combined(code, one, other)?
            }
            _ => Postfix::Number(self.literal(code, reader)?),
        };
        self.push(value)
    }

    fn push(&mut self, value: Postfix) -> Option<()> {
        let fits = !matches!(&value, Postfix::Words(words) if words.len() > MOST_WORDS);
        fits.then(|| self.values.push(value))
    }

    /// A register plus a number. The instruction pointer of x86 is known.
    fn register(&mut self, register: u16, offset: i64) -> Option<Postfix> {
        if register == self.abi.program_counter && self.abi.link_register.is_none() {
            self.uses_address = true;
            return Some(Postfix::Number((self.address as i64).wrapping_add(offset)));
        }
        self.architecture.register_name(register)?;
        Some(Postfix::Words(vec![Token::Variable(Variable::Register(register))]).plus(offset))
    }

    fn loaded(&mut self) -> Option<Postfix> {
        match self.values.pop()? {
            // Where the program is loaded isn't known.
            Postfix::Number(_) => None,
            Postfix::Words(mut words) => {
                words.push(Token::Operator(Operator::Dereference));
                Some(Postfix::Words(words))
            }
        }
    }

    /// A number that an operation pushes.
    fn literal(&self, code: u8, reader: &mut Cursor<'_>) -> Option<i64> {
        let number = match code {
            op::LIT0..=op::LIT31 => Ok(u64::from(code - op::LIT0)),
            op::CONST1U => reader.number(1),
            op::CONST1S => reader.signed(1),
            op::CONST2U => reader.number(2),
            op::CONST2S => reader.signed(2),
            op::CONST4U => reader.number(4),
            op::CONST4S => reader.signed(4),
            op::CONST8U | op::CONST8S => reader.number(8),
            op::CONSTU => reader.uleb(),
            op::CONSTS => reader.sleb(),
            _ => return None,
        };
        number.ok().map(|number| number as i64)
    }

    fn combined(&self, code: u8, one: Postfix, other: Postfix) -> Option<Postfix> {
        match (code, one, other) {
            (_, Postfix::Number(one), Postfix::Number(other)) => self.computed(code, one, other).map(Postfix::Number),
            (op::PLUS, value, Postfix::Number(number)) | (op::PLUS, Postfix::Number(number), value) => {
                Some(value.plus(number))
            }
            (op::PLUS, one, other) => Some(one.with(other, Operator::Add)),
            (op::MINUS, value, Postfix::Number(number)) => Some(value.plus(number.wrapping_neg())),
            (op::MINUS, one, other) => Some(one.with(other, Operator::Subtract)),
            (op::AND, value, Postfix::Number(mask)) | (op::AND, Postfix::Number(mask), value) => {
                self.aligned(value, mask)
            }
            _ => None,
        }
    }

    /// The value without its low bits, if the mask has all others.
    fn aligned(&self, value: Postfix, mask: i64) -> Option<Postfix> {
        let unit = self.wrapped(mask.wrapping_neg());
        let is_alignment = unit > 0 && unit & (unit - 1) == 0;
        is_alignment.then(|| value.with(Postfix::Number(unit), Operator::Align))
    }

    /// A number modulo 2 to the power of the bits of an address.
    fn wrapped(&self, number: i64) -> i64 {
        (number as u64 & self.abi.address_size.highest()) as i64
    }

    /// A number of the size of an address, with its sign.
    fn signed(&self, number: i64) -> i64 {
        match self.abi.address_size.bytes() {
            4 => i64::from(number as i32),
            _ => number,
        }
    }

    /// The result for two numbers. Comparisons are of signed ones (DWARF 5, section 2.5.1.4).
    fn computed(&self, code: u8, one: i64, other: i64) -> Option<i64> {
        let (first, second) = (self.signed(one), self.signed(other));
        Some(match code {
            op::AND => one & other,
            op::OR => one | other,
            op::PLUS => one.wrapping_add(other),
            op::MINUS => one.wrapping_sub(other),
            op::SHL if (0..32).contains(&other) => self.wrapped(one << other),
            op::EQ => i64::from(first == second),
            op::GE => i64::from(first >= second),
            op::GT => i64::from(first > second),
            op::LE => i64::from(first <= second),
            op::LT => i64::from(first < second),
            op::NE => i64::from(first != second),
            _ => return None,
        })
    }
}

#[cfg(test)]
mod tests {
    use super::*;

    fn run(expression: &[u8], architecture: Architecture) -> Option<Postfix> {
        Stack::new(architecture, 0x100b, None).run(expression)
    }

    /// esp + 4 + ((eip & 15) >= 11) << 2: i386's procedure linkage table.
    #[test]
    fn the_instruction_pointer_is_a_number() {
        let plt = [0x74, 4, 0x78, 0, 0x3f, 0x1a, 0x3b, 0x2a, 0x32, 0x24, 0x22];
        let sum = [Token::Variable(Variable::Register(4)), Token::Number(8), Token::Operator(Operator::Add)];
        assert_eq!(run(&plt, Architecture::X86), Some(Postfix::Words(sum.to_vec())));
    }

    #[test]
    fn an_expression_that_grows_without_end_is_refused() {
        let doubled = [0x77_u8, 0].into_iter().chain([0x12, 0x22].repeat(64)).collect::<Vec<_>>();
        assert_eq!(run(&doubled, Architecture::X86_64), None);
        assert_eq!(run(&[0x12], Architecture::X86_64), None);
        assert_eq!(run(&[], Architecture::X86_64), None);
        // deref of a number, an unknown operation, an operand that is cut off
        assert_eq!(run(&[0x31, 0x06], Architecture::X86_64), None);
        assert_eq!(run(&[0x77, 0, 0x19], Architecture::X86_64), None);
        assert_eq!(run(&[0x77], Architecture::X86_64), None);
    }
}
