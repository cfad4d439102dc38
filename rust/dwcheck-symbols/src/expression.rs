//! Expressions of `STACK CFI`: values and operators, in postfix notation.

use crate::architecture::Architecture;
use crate::error::RuleError;
use std::fmt;

/// The most words of an expression.
const MOST_WORDS: usize = 512;

/// What an expression can name, and what a rule is for.
#[derive(Clone, Copy, Debug, PartialEq, Eq, Hash, PartialOrd, Ord)]
pub enum Variable {
    /// The canonical frame address (`.cfa`).
    Cfa,
    /// The return address (`.ra`).
    ReturnAddress,
    /// A register, by its DWARF number.
    Register(u16),
}

/// An operator.
#[derive(Clone, Copy, Debug, PartialEq, Eq)]
pub enum Operator {
    /// `+`
    Add,
    /// `-`
    Subtract,
    /// `*`
    Multiply,
    /// `/`
    Divide,
    /// `%`
    Remainder,
    /// `@`: the first value, rounded down to a multiple of the second one, which is a power of two.
    Align,
    /// `^`: the word in memory at the value.
    Dereference,
}

/// A word of an expression.
#[derive(Clone, Copy, Debug, PartialEq, Eq)]
pub enum Token {
    /// A number.
    Number(i64),
    /// The value of a variable.
    Variable(Variable),
    /// An operator.
    Operator(Operator),
}

/// An expression that leaves one value.
#[derive(Clone, Debug, PartialEq, Eq)]
pub struct Expression(Vec<Token>);

/// What an expression is evaluated over: a frame.
pub trait Frame {
    /// The value of a variable, if it is known.
    fn variable(&self, variable: Variable) -> Option<u64>;

    /// The word in memory at an address, if it is known.
    fn word(&self, address: u64) -> Option<u64>;

    /// The highest address. Numbers wrap there.
    fn highest_address(&self) -> u64;
}

impl Variable {
    /// The variable with a name.
    pub(crate) fn named(name: &str, architecture: Architecture) -> Option<Self> {
        match name {
            ".cfa" => Some(Variable::Cfa),
            ".ra" => Some(Variable::ReturnAddress),
            _ => architecture.register(name).map(Variable::Register),
        }
    }
}

impl Operator {
    const ALL: [(Operator, &'static str); 7] = [
        (Operator::Add, "+"),
        (Operator::Subtract, "-"),
        (Operator::Multiply, "*"),
        (Operator::Divide, "/"),
        (Operator::Remainder, "%"),
        (Operator::Align, "@"),
        (Operator::Dereference, "^"),
    ];

    fn of_word(word: &str) -> Option<Self> {
        Operator::ALL.into_iter().find(|(_, sign)| *sign == word).map(|(operator, _)| operator)
    }

    fn sign(self) -> &'static str {
        Operator::ALL.into_iter().find(|(operator, _)| *operator == self).map_or("", |(_, sign)| sign)
    }

    /// How many values it takes.
    fn operands(self) -> usize {
        if self == Operator::Dereference {
            1
        } else {
            2
        }
    }
}

impl Expression {
    /// An expression of these words.
    ///
    /// # Errors
    ///
    /// If they don't leave one value, or are too many.
    pub fn new(tokens: Vec<Token>) -> Result<Self, RuleError> {
        if tokens.len() > MOST_WORDS {
            return Err(RuleError::TooLong);
        }
        let mut height = 0_usize;
        for token in &tokens {
            let taken = if let Token::Operator(operator) = token { operator.operands() } else { 0 };
            height = height.checked_sub(taken).ok_or(RuleError::Stack)? + 1;
        }
        if height == 1 {
            Ok(Expression(tokens))
        } else {
            Err(RuleError::Stack)
        }
    }

    /// Reads an expression.
    ///
    /// # Errors
    ///
    /// If a word isn't known, or the words don't leave one value.
    pub fn parse(text: &str, architecture: Architecture) -> Result<Self, RuleError> {
        let word = |word: &str| {
            let operator = Operator::of_word(word).map(Token::Operator);
            let number = || parse_number(word).map(Token::Number);
            let variable = || Variable::named(word, architecture).map(Token::Variable);
            operator.or_else(number).or_else(variable).ok_or(RuleError::Word)
        };
        Expression::new(text.split_ascii_whitespace().take(MOST_WORDS + 1).map(word).collect::<Result<_, _>>()?)
    }

    /// Its words.
    pub fn tokens(&self) -> &[Token] {
        &self.0
    }

    /// Its value. `None` if it needs something that isn't known, or divides by zero.
    pub fn evaluate(&self, frame: &impl Frame) -> Option<u64> {
        let mut stack: Vec<u64> = Vec::new();
        for token in &self.0 {
            let value = match token {
                Token::Number(number) => *number as u64,
                Token::Variable(variable) => frame.variable(*variable)?,
                Token::Operator(Operator::Dereference) => frame.word(stack.pop()?)?,
                Token::Operator(operator) => {
                    let (second, first) = (stack.pop()?, stack.pop()?);
                    combine(*operator, first, second)?
                }
            };
            stack.push(value & frame.highest_address());
        }
        stack.pop()
    }

    /// Its text, with the names of a machine's registers.
    pub fn text(&self, architecture: Architecture) -> impl fmt::Display + '_ {
        Text { expression: self, architecture }
    }
}

/// A decimal number. Breakpad writes no other ones.
fn parse_number(word: &str) -> Option<i64> {
    let digits = word.strip_prefix('-').unwrap_or(word);
    if digits.is_empty() || !digits.bytes().all(|byte| byte.is_ascii_digit()) {
        return None;
    }
    // An address may be above the highest signed number.
    word.parse::<i64>().ok().or_else(|| word.parse::<u64>().ok().map(|number| number as i64))
}

fn combine(operator: Operator, first: u64, second: u64) -> Option<u64> {
    match operator {
        Operator::Add => Some(first.wrapping_add(second)),
        Operator::Subtract => Some(first.wrapping_sub(second)),
        Operator::Multiply => Some(first.wrapping_mul(second)),
        Operator::Divide => first.checked_div(second),
        Operator::Remainder => first.checked_rem(second),
        Operator::Align => second.is_power_of_two().then(|| first & !(second - 1)),
        Operator::Dereference => None,
    }
}

/// The text of an expression.
struct Text<'e> {
    expression: &'e Expression,
    architecture: Architecture,
}

impl fmt::Display for Text<'_> {
    fn fmt(&self, f: &mut fmt::Formatter<'_>) -> fmt::Result {
        for (place, token) in self.expression.0.iter().enumerate() {
            f.write_str(if place > 0 { " " } else { "" })?;
            match token {
                Token::Number(number) => write!(f, "{}", number)?,
                Token::Variable(variable) => write!(f, "{}", variable.text(self.architecture))?,
                Token::Operator(operator) => f.write_str(operator.sign())?,
            }
        }
        Ok(())
    }
}

impl Variable {
    /// Its name, with that of a machine's register.
    pub(crate) fn text(self, architecture: Architecture) -> impl fmt::Display {
        VariableText { variable: self, architecture }
    }
}

struct VariableText {
    variable: Variable,
    architecture: Architecture,
}

impl fmt::Display for VariableText {
    fn fmt(&self, f: &mut fmt::Formatter<'_>) -> fmt::Result {
        match self.variable {
            Variable::Cfa => f.write_str(".cfa"),
            Variable::ReturnAddress => f.write_str(".ra"),
            Variable::Register(number) => match self.architecture.register_name(number) {
                Some(name) => write!(f, "{}{}", self.architecture.prefix(), name),
                None => write!(f, "{}r{}", self.architecture.prefix(), number),
            },
        }
    }
}

#[cfg(test)]
mod tests {
    use super::*;

    /// A frame whose rsp is 0x1004 and whose memory holds the address of each word, plus 1.
    struct Example(u64);

    impl Frame for Example {
        fn variable(&self, variable: Variable) -> Option<u64> {
            match variable {
                Variable::Register(7) => Some(0x1004),
                Variable::Cfa => Some(0x2000),
                _ => None,
            }
        }

        fn word(&self, address: u64) -> Option<u64> {
            (address < 0x10000).then(|| address + 1)
        }

        fn highest_address(&self) -> u64 {
            self.0
        }
    }

    fn value(text: &str) -> Option<u64> {
        Expression::parse(text, Architecture::X86_64).unwrap().evaluate(&Example(u64::MAX))
    }

    #[test]
    fn operators_do_what_breakpads_page_says() {
        assert_eq!(value("$rsp 8 +"), Some(0x100c));
        assert_eq!(value(".cfa -8 + ^"), Some(0x1ff9));
        assert_eq!(value("10 3 -"), Some(7));
        assert_eq!(value("10 3 *"), Some(30));
        assert_eq!(value("10 3 /"), Some(3));
        assert_eq!(value("10 3 %"), Some(1));
        assert_eq!(value("$rsp 16 @"), Some(0x1000));
    }

    #[test]
    fn what_is_not_known_has_no_value() {
        assert_eq!(value("$rbx 8 +"), None);
        assert_eq!(value("65536 ^"), None);
        assert_eq!(value("1 0 /"), None);
        assert_eq!(value("1 0 %"), None);
        assert_eq!(value("$rsp 3 @"), None);
    }

    #[test]
    fn numbers_wrap_at_the_size_of_an_address() {
        let expression = Expression::parse("0 1 -", Architecture::X86).unwrap();
        assert_eq!(expression.evaluate(&Example(u64::from(u32::MAX))), Some(0xffff_ffff));
        assert_eq!(value("9223372036854775807 1 +"), Some(1 << 63));
        assert_eq!(value("18446744073709551615"), Some(u64::MAX));
    }

    #[test]
    fn texts_that_are_no_expressions_are_refused() {
        let parse = |text: &str| Expression::parse(text, Architecture::X86_64);
        assert_eq!(parse("$rsp +"), Err(RuleError::Stack));
        assert_eq!(parse("$rsp 8"), Err(RuleError::Stack));
        assert_eq!(parse(""), Err(RuleError::Stack));
        assert_eq!(parse(".undef"), Err(RuleError::Word));
        assert_eq!(parse("$rsp 0x8 +"), Err(RuleError::Word));
        assert_eq!(parse("$xyz"), Err(RuleError::Word));
        assert_eq!(parse("--8"), Err(RuleError::Word));
        assert_eq!(parse("99999999999999999999"), Err(RuleError::Word));
        assert_eq!(parse(&"1 ".repeat(600)), Err(RuleError::TooLong));
    }

    #[test]
    fn the_text_of_an_expression_is_what_was_read() {
        let text = |text: &str, machine| Expression::parse(text, machine).unwrap().text(machine).to_string();
        assert_eq!(text("$rsp 8 + 16 @ ^", Architecture::X86_64), "$rsp 8 + 16 @ ^");
        assert_eq!(text("fp -16 +", Architecture::Arm64), "x29 -16 +");
    }
}
