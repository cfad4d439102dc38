//! Writes variables as text: a line for each function, and one for each variable.

use super::{Function, Missing, Value, Variable};
use crate::elf::escaped::Escaped;
use std::fmt;

/// What stands in the place of a name that isn't there.
const NO_NAME: &str = "?";

impl fmt::Display for Function {
    fn fmt(&self, f: &mut fmt::Formatter<'_>) -> fmt::Result {
        let word = if self.is_inlined { "inlined" } else { "function" };
        write!(f, "{} {}", word, Escaped(self.name.as_deref().unwrap_or(NO_NAME)))?;
        self.source.as_ref().map_or(Ok(()), |source| write!(f, " ({})", Escaped(source)))?;
        writeln!(f)?;
        self.lines().fmt(f)
    }
}

/// The lines of a function's variables.
#[derive(Clone, Copy, Debug)]
pub struct Lines<'f>(&'f [Variable]);

impl Function {
    /// The text without the line of the function.
    pub fn lines(&self) -> Lines<'_> {
        Lines(&self.variables)
    }
}

impl fmt::Display for Lines<'_> {
    fn fmt(&self, f: &mut fmt::Formatter<'_>) -> fmt::Result {
        self.0.iter().try_for_each(|variable| writeln!(f, "    {}", variable))
    }
}

impl fmt::Display for Variable {
    fn fmt(&self, f: &mut fmt::Formatter<'_>) -> fmt::Result {
        let word = if self.is_parameter { "param" } else { "var" };
        let name = self.name.as_deref().unwrap_or(NO_NAME);
        write!(f, "{} {}: {}", word, Escaped(name), Escaped(&self.type_name))?;
        match (&self.value, &self.place) {
            (Ok(value), Ok(place)) => write!(f, " = {} ({})", value, Escaped(&place.to_string())),
            (Err(missing), Ok(place)) => write!(f, ": {} ({})", missing, Escaped(&place.to_string())),
            (_, Err(missing)) => write!(f, ": {}", missing),
        }
    }
}

impl fmt::Display for Value {
    fn fmt(&self, f: &mut fmt::Formatter<'_>) -> fmt::Result {
        match self {
            Value::Scalar(text) => write!(f, "{}", Escaped(text)),
            Value::Text { address, prefix, text } => write!(f, "{} {}\"{}\"", address, prefix, text),
            Value::Pointer(Some(name), value) => write!(f, "&{}, {}", Escaped(name), value),
            Value::Pointer(None, value) => write!(f, "&{}", value),
            Value::Reference(address, value) => {
                write!(f, "@{}: ", address)?;
                write_value_text(f, value)
            }
            Value::Members(members, more) => {
                f.write_str("{")?;
                for (index, (name, value)) in members.iter().enumerate() {
                    let comma = if index > 0 { ", " } else { "" };
                    write!(f, "{}{}{}", comma, Escaped(name), if name.is_empty() { "" } else { " = " })?;
                    write_value_text(f, value)?;
                }
                write_rest(f, members.len(), *more)
            }
            Value::Elements(elements, more) => {
                f.write_str("{")?;
                for (index, value) in elements.iter().enumerate() {
                    f.write_str(if index > 0 { ", " } else { "" })?;
                    write_value_text(f, value)?;
                }
                write_rest(f, elements.len(), *more)
            }
            Value::Entries(entries, more) => {
                f.write_str("{")?;
                for (index, (key, value)) in entries.iter().enumerate() {
                    f.write_str(if index > 0 { ", [" } else { "[" })?;
                    write_value_text(f, key)?;
                    f.write_str("] = ")?;
                    write_value_text(f, value)?;
                }
                write_rest(f, entries.len(), *more)
            }
            Value::Shared { value, uses, weak } => write!(f, "{} (use count {}, weak count {})", value, uses, weak),
            Value::Deeper => f.write_str("{..}"),
        }
    }
}

/// How many members or elements aren't shown.
fn write_rest(f: &mut fmt::Formatter<'_>, shown: usize, more: u64) -> fmt::Result {
    match more {
        0 => f.write_str("}"),
        _ => write!(f, "{}{} more}}", if shown > 0 { ", " } else { "" }, more),
    }
}

fn write_value_text(f: &mut fmt::Formatter<'_>, part: &Result<Value, Missing>) -> fmt::Result {
    match part {
        Ok(value) => write!(f, "{}", value),
        Err(missing) => write!(f, "<{}>", missing),
    }
}
