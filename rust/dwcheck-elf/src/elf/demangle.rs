//! Shows names of functions as they are in the source code: demangles those of C++ and Rust.

mod cpp;

use cpp::Form;
use std::borrow::Cow;
use std::fmt::{self, Write};

/// A name with more bytes than this isn't demangled. Neither is a name whose demangled form would
/// have more bytes than this, because a short mangled name can stand for a huge one.
const LONGEST: usize = 4096;

/// The end of the name of a stub of the procedure linkage table.
pub(crate) const STUB: &str = "@plt";

/// A C++ name whose parts are nested deeper than this isn't demangled.
const NESTED: u32 = 64;

/// Demangles a Rust or C++ name. Returns the name unchanged if it is neither, or can't be
/// demangled.
///
/// ```
/// use dwcheck_elf::names::demangled;
///
/// assert_eq!(demangled("_ZNSt6vectorIiSaIiEE9push_backERKi"), "std::vector<int, std::allocator<int> >::push_back(int const&)");
/// assert_eq!(demangled("_ZN4core3fmt5write17h0123456789abcdefE"), "core::fmt::write");
/// assert_eq!(demangled("main"), "main");
/// assert_eq!(demangled("_Z5twicei@plt"), "twice(int)@plt");
/// ```
pub fn demangled(name: &str) -> Cow<'_, str> {
    demangled_with(name, Form::Whole)
}

fn demangled_with(name: &str, form: Form) -> Cow<'_, str> {
    // Each end of a stub takes a call.
    if name.len() > LONGEST + STUB.len() {
        return Cow::Borrowed(name);
    }
    match name.strip_suffix(STUB).map(|function| demangled_with(function, form)) {
        Some(Cow::Owned(function)) => return Cow::Owned(function + STUB),
        Some(Cow::Borrowed(_)) => return Cow::Borrowed(name),
        None => {}
    }
    if name.len() > LONGEST || !(name.starts_with("_Z") || name.starts_with("_R")) {
        return Cow::Borrowed(name);
    }
    let written = match rustc_demangle::try_demangle(name) {
        Ok(name) => demangled_rust(&name),
        Err(_) => cpp::demangled_cpp(name, form),
    };
    written.map_or(Cow::Borrowed(name), Cow::Owned)
}

fn demangled_rust(name: &rustc_demangle::Demangle<'_>) -> Option<String> {
    let mut text = Bounded(String::new());
    write!(text, "{:#}", name).ok()?;
    Some(text.0)
}

/// The characters of a demangled name that are shown. Control characters are left out, because a
/// line feed in a name would begin a new line.
pub(super) fn shown_characters(demangled: &str) -> impl Iterator<Item = char> + '_ {
    demangled.chars().filter(|c| !c.is_control())
}

/// A function's name as it is shown: demangled, without control characters.
pub(crate) fn shown_name(symbol: &str) -> String {
    shown_characters(&demangled(symbol)).collect()
}

/// The same without the return type and the parameters of C++ functions, as perf shows names.
pub fn short_name(symbol: &str) -> String {
    shown_characters(&demangled_with(symbol, Form::Short)).collect()
}

/// A function's name as it is in the file, without control characters.
pub(crate) fn raw_name(symbol: &str) -> String {
    match symbol.contains(char::is_control) {
        true => shown_characters(symbol).collect(),
        false => symbol.to_string(),
    }
}

/// A symbol's name without the version that `.symtab` has in it, such as `@@GLIBC_2.34`.
pub(crate) fn without_version(name: &str) -> &str {
    match name.find('@') {
        Some(at) if at > 0 && &name[at..] != STUB => &name[..at],
        _ => name,
    }
}

/// Whether the function that has the name `symbol` in the file is shown as `name`.
pub(crate) fn is_shown_as(symbol: &str, name: &str) -> bool {
    shown_characters(&demangled(symbol)).eq(name.chars())
}

/// The shown name of the function that has the name `symbol` in the file, if `name` may be short
/// for it: `leaf` is short for `leaf(int)`, `leaf<char>()` and `tree::leaf(int)`. Very long names
/// aren't looked at.
pub(crate) fn similar_name(symbol: &str, name: &str) -> Option<String> {
    if symbol.len() > LONGEST || name.is_empty() {
        return None;
    }
    let whole: String = shown_characters(&demangled(symbol)).collect();
    let is_short = whole != name && whole.match_indices(name).any(|(at, _)| is_last_part(&whole, at, name));
    Some(whole).filter(|_| is_short)
}

/// Whether the part of a function's shown name that is `name` and begins at `at` is the last part
/// of the function's path, before template arguments and parameters.
fn is_last_part(whole: &str, at: usize, name: &str) -> bool {
    let (before, rest) = whole.split_at(at);
    let after = rest.strip_prefix(name).unwrap_or(rest);
    let after = after.strip_prefix("::").filter(|arguments| arguments.starts_with('<')).unwrap_or(after);
    let begins = before.is_empty() || before.ends_with("::") || before.ends_with(' ');
    let ends = after.is_empty() || after.starts_with('(') || after.starts_with('<');
    begins && ends && is_outside_brackets(before) && !without_brackets(after).contains("::")
}

/// Whether what follows a text isn't inside parentheses or angle brackets that the text opens.
fn is_outside_brackets(text: &str) -> bool {
    let count = |brackets: &[char]| text.matches(brackets).count();
    count(&['(', '<']) == count(&[')', '>'])
}

/// A text without its parts in parentheses and angle brackets.
fn without_brackets(text: &str) -> String {
    let mut depth = 0_usize;
    let is_outside = |c: &char| {
        match c {
            '(' | '<' => depth += 1,
            ')' | '>' => depth = depth.saturating_sub(1),
            _ => return depth == 0,
        }
        false
    };
    text.chars().filter(is_outside).collect()
}

/// A string that refuses to get longer than [`LONGEST`] bytes.
struct Bounded(String);

impl Write for Bounded {
    fn write_str(&mut self, part: &str) -> fmt::Result {
        if self.0.len() + part.len() > LONGEST {
            return Err(fmt::Error);
        }
        self.0.push_str(part);
        Ok(())
    }
}
