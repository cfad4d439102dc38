//! Names of C++ as c++filt writes them.
//!
//! The crate cpp_demangle reads nearly all names, but it writes some in another way than c++filt, and where gcc's
//! mangling isn't the ABI's, it reads none of the name. Of such a name, the part before the types is read alone.

use super::{Bounded, NESTED};
use cpp_demangle::{DemangleOptions, ParseOptions, Symbol};

/// How much of a name is written.
#[derive(Clone, Copy, Debug, PartialEq, Eq)]
pub(super) enum Form {
    Whole,
    /// Without the types of the parameters and of the result, as perf shows names.
    Short,
}

impl Form {
    fn options(self) -> DemangleOptions {
        let options = DemangleOptions::new().recursion_limit(NESTED);
        match self {
            Form::Whole => options,
            Form::Short => options.no_params().no_return_type(),
        }
    }
}

/// What a C++ name is the mangled form of. `None` if it isn't known.
pub(super) fn demangled_cpp(name: &str, form: Form) -> Option<String> {
    match thunk_target(name) {
        Some((what, target)) => Some(format!("{} to {}", what, demangled_cpp_target(&target, form)?)),
        None => demangled_cpp_target(name, form),
    }
}

/// The same, for a name that isn't one of a thunk.
fn demangled_cpp_target(name: &str, form: Form) -> Option<String> {
    let text = parse_cpp_name(name, form).or_else(|| without_types(name, form)).map(as_cxxfilt_writes)?;
    // The names of thunks within other names, and what else cpp_demangle may describe in its own way.
    let is_odd = ["{virtual", "{offset", "{vtable", "{vtt"].iter().any(|odd| text.contains(odd));
    Some(text).filter(|_| !is_odd)
}

fn parse_cpp_name(name: &str, form: Form) -> Option<String> {
    let symbol = Symbol::new_with_options(name, &ParseOptions::default().recursion_limit(NESTED)).ok()?;
    let mut text = Bounded(String::new());
    symbol.structured_demangle(&mut text, &form.options()).ok()?;
    Some(text.0)
}

/// A name with more bytes than this isn't read in part.
const LONGEST_IN_PART: usize = 1024;

/// The name of a function without the types of its parameters and of its result. gcc writes `sr` and a type in them
/// where the ABI wants `sr` and a name, as in `enable_if<is_integral<T>::value>`; nothing of the name can be read then.
///
/// What is before the types ends with an `E`, which ends a nested name or the arguments of a template. No shorter part
/// is a name.
fn without_types(name: &str, form: Form) -> Option<String> {
    let (name, clone) = name.split_once('.').map_or((name, None), |(name, clone)| (name, Some(clone)));
    if name.len() > LONGEST_IN_PART {
        return None;
    }
    let mut ends = name.match_indices('E').map(|(at, _)| name.split_at(at + 1));
    let text = ends.find_map(|(part, rest)| parse_cpp_name(part, Form::Short).filter(|_| are_types(rest)))?;
    match clone.filter(|_| form == Form::Whole) {
        Some(clone) => Some(format!("{} [clone .{}]", text, clone)),
        None => Some(text),
    }
}

/// Whether what follows in a name are types with an `sr`, and not the arguments of a template or a tag.
fn are_types(rest: &str) -> bool {
    rest.contains("sr") && !rest.starts_with(['I', 'B'])
}

/// What a thunk is called, and the name of the function to which it leads. `None` if the name isn't one of a thunk.
fn thunk_target(name: &str) -> Option<(&'static str, String)> {
    let rest = name.strip_prefix("_ZT")?;
    let (what, target) = match rest.chars().next()? {
        'h' => ("non-virtual thunk", after_thunk_offset(rest)?),
        'v' => ("virtual thunk", after_thunk_offset(rest)?),
        'c' => ("covariant return thunk", after_thunk_offset(after_thunk_offset(&rest[1..])?)?),
        _ => return None,
    };
    Some((what, format!("_Z{}", target)))
}

/// What follows the offset of a thunk: `h` and a number, or `v` and two numbers.
fn after_thunk_offset(text: &str) -> Option<&str> {
    let after_number = |text: &'_ str| -> Option<usize> {
        let digits = text.strip_prefix('n').unwrap_or(text);
        let end = digits.find('_')?;
        let is_number = end > 0 && digits[..end].bytes().all(|byte| byte.is_ascii_digit());
        is_number.then_some(text.len() - digits.len() + end + 1)
    };
    let (kind, numbers) = (text.chars().next()?, text.get(1..)?);
    let first = numbers.get(after_number(numbers)?..)?;
    match kind {
        'h' => Some(first),
        'v' => first.get(after_number(first)?..),
        _ => None,
    }
}

/// The literals that c++filt writes with a suffix: the type that cpp_demangle writes before them, and the suffix.
const SUFFIXES: [(&str, &str); 5] = [
    ("(unsigned int)", "u"),
    ("(long)", "l"),
    ("(unsigned long)", "ul"),
    ("(long long)", "ll"),
    ("(unsigned long long)", "ull"),
];

/// What cpp_demangle writes for an argument that is an empty pack, and what c++filt does.
const EMPTY_PACKS: [(&str, &str); 3] = [(", >", ">"), (", )", ")"), (", ,", ",")];

/// Writes a name as c++filt does.
fn as_cxxfilt_writes(text: String) -> String {
    let special = [("{vtable(", "vtable for "), ("{vtt(", "VTT for ")];
    for (begin, instead) in special {
        if let Some(of) = text.strip_prefix(begin).and_then(|rest| rest.strip_suffix(")}")) {
            return as_cxxfilt_writes(format!("{}{}", instead, of));
        }
    }
    let text = SUFFIXES.iter().fold(text, |text, (kind, suffix)| with_suffixes(text, kind, suffix));
    EMPTY_PACKS.iter().fold(text, |mut text, (empty, instead)| {
        while text.contains(empty) {
            text = text.replace(empty, instead);
        }
        text
    })
}

/// Writes `(unsigned long)16` as `16ul`.
fn with_suffixes(text: String, kind: &str, suffix: &str) -> String {
    if !text.contains(kind) {
        return text;
    }
    let mut parts = text.split(kind);
    let first = parts.next().unwrap_or("").to_string();
    parts.fold(first, |written, part| {
        let sign = usize::from(part.starts_with('-'));
        let digits = part[sign..].bytes().take_while(u8::is_ascii_digit).count();
        let (number, rest) = part.split_at(if digits == 0 { 0 } else { sign + digits });
        match number.is_empty() {
            true => written + kind + rest,
            false => written + number + suffix + rest,
        }
    })
}

#[cfg(test)]
mod tests {
    use super::{demangled_cpp, Form};

    #[test]
    fn names_are_those_of_cxxfilt() {
        for (name, expected) in [
            ("_ZN11SmallVectorIiLm16ESaIiEE4pushEi", "SmallVector<int, 16ul, std::allocator<int> >::push(int)"),
            ("_Z1fILln5ELj3ELx1ELy2EEvv", "void f<-5l, 3u, 1ll, 2ull>()"),
            ("_Z1fIiJEJEEvv", "void f<int>()"),
            ("_Z1fILb1EEvlm", "void f<true>(long, unsigned long)"),
            ("_ZThn8_N1A1fEi", "non-virtual thunk to A::f(int)"),
            ("_ZTv0_n24_N1A1fEv", "virtual thunk to A::f()"),
            ("_ZTch0_v0_n24_N1A1fEv", "covariant return thunk to A::f()"),
            ("_ZTV1A", "vtable for A"),
            ("_ZTTSt6vectorIiLj2EE", "VTT for std::vector<int, 2u>"),
            ("_ZN1AcmEi", "A::operator,(int)"),
        ] {
            assert_eq!(demangled_cpp(name, Form::Whole).unwrap(), expected);
        }
    }

    #[test]
    fn a_name_is_read_without_types_that_are_not_read() {
        let types = "ENSt9enable_ifIXsrSt24__is_bitwise_relocatableIT_vE5valueEPS2_E4typeES4_S4_S4_RSaIT0_E";
        for (name, expected) in [
            ("_ZSt14__relocate_a_1Iii", "std::__relocate_a_1<int, int>"),
            ("_ZN2wi6bit_orI1ALj2EE", "wi::bit_or<A, 2u>"),
        ] {
            let symbol = format!("{}{}", name, types);
            let cold = format!("{}.cold", symbol);
            assert_eq!(demangled_cpp(&symbol, Form::Whole).unwrap(), expected);
            assert_eq!(demangled_cpp(&cold, Form::Whole).unwrap(), format!("{} [clone .cold]", expected));
            assert_eq!(demangled_cpp(&cold, Form::Short).unwrap(), expected);
        }
        for name in ["_ZN1A1fEv_more", "_ZThn8_", "_ZTh_N1A1fEv", "_ZTcN1A1fEv", "_ZT"] {
            assert_eq!(demangled_cpp(name, Form::Whole), None, "{}", name);
        }
    }
}
