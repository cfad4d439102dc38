//! SFrame sections that gas and ld 2.40, 2.44 and 2.47.50 have written, versions 1, 2 and 3. tests/sframe/make.sh makes
//! these samples, and has each version's objdump say what they hold.

use dwcheck_elf::program::Program;
use dwcheck_elf::row::{Cfa, Rule};
use dwcheck_elf::sframe::{Abi, Function, Sframe, SframeRow, SframeSection, Version};
use std::fs;
use std::path::PathBuf;

/// The versions of binutils, and those of SFrame that they write.
const VERSIONS: [(&str, Version); 3] = [("2.40", Version::One), ("2.44", Version::Two), ("2.47.50", Version::Three)];

/// The samples of each version.
const SAMPLES: [&str; 5] = ["hard", "hard-aarch64", "plt", "remember", "silent"];

pub fn sample(version: &str, name: &str) -> PathBuf {
    PathBuf::from(env!("CARGO_MANIFEST_DIR")).join("tests/sframe").join(version).join(name)
}

/// A function as objdump shows it: `pc` and a line for each row.
fn objdump(version: &str, name: &str) -> Vec<(u64, Vec<String>)> {
    let text = fs::read_to_string(sample(version, &format!("{}.txt", name))).unwrap();
    let mut functions: Vec<(u64, Vec<String>)> = Vec::new();
    for line in text.lines() {
        if let Some((_, rest)) = line.split_once(": pc = 0x") {
            let begin = u64::from_str_radix(rest.split(',').next().unwrap(), 16).unwrap();
            functions.push((begin, Vec::new()));
        }
        let words: Vec<_> = line.split_whitespace().collect();
        let is_row = words.len() > 2 && words[0].len() == 16 && words[0].bytes().all(|byte| byte.is_ascii_hexdigit());
        if is_row {
            let begin = u64::from_str_radix(words[0], 16).unwrap();
            functions.last_mut().unwrap().1.push(format!("{:x} {}", begin, words[1..].join(" ")));
        }
    }
    functions
}

/// A register as objdump names it.
fn register(abi: Abi, register: u16) -> String {
    match register {
        register if register == abi.stack_pointer() => "sp".to_string(),
        register if register == abi.frame_pointer() => "fp".to_string(),
        register => format!("r{}", register),
    }
}

/// A rule as objdump shows it. A value that is in memory at a register plus an offset is in parentheses.
fn rule(abi: Abi, rule: Option<&Rule<'_>>) -> String {
    match rule {
        None => "u".to_string(),
        Some(Rule::Offset(offset)) => format!("c{:+}", offset),
        Some(Rule::Register(other)) => format!("{}+0", register(abi, *other)),
        Some(Rule::Expression(bytes)) => {
            // One operation: a register plus an offset of one byte.
            let offset = i64::from((bytes[1] << 1) as i8 >> 1);
            format!("({}{:+})", register(abi, u16::from(bytes[0] - 0x70)), offset)
        }
        Some(other) => panic!("{:?}", other),
    }
}

/// A row in objdump's words.
fn shown(sframe: &Sframe<'_>, function: &Function, row: &SframeRow) -> String {
    let abi = sframe.header().abi;
    let begin = if function.block.is_some() { row.row.begin - function.begin } else { row.row.begin };
    if row.is_outermost {
        return format!("{:x} RA undefined", begin);
    }
    let cfa = match &row.row.cfa {
        Cfa::RegisterOffset { register: number, offset } => format!("{}{:+}", register(abi, *number), offset),
        Cfa::Expression(bytes) => format!("({})", bytes.len()),
    };
    let find = |number| row.row.rules.iter().find(|(register, _)| *register == number).map(|(_, rule)| rule);
    let address = match find(abi.return_address()) {
        // The fixed offset.
        Some(Rule::Offset(-8)) if abi == Abi::Amd64 => "f".to_string(),
        other => rule(abi, other),
    };
    let signed = if row.is_signed { "[s]" } else { "" };
    format!("{:x} {} {} {}{}", begin, cfa, rule(abi, find(abi.frame_pointer())), address, signed)
}

/// objdump's line in the same words: negative offsets have a plus, too; the fixed offset of a return address is u in 2.40,
/// else f; 2.47.50 shows U for one that a flexible row doesn't mention.
fn mended(abi: Abi, line: &str) -> String {
    let line = line.replace("+-", "-");
    match line.rsplit_once(' ') {
        Some((rest, "u" | "U")) if abi == Abi::Amd64 => format!("{} f", rest),
        _ => line,
    }
}

#[test]
fn rows_are_those_that_objdump_shows() {
    for (version, number) in VERSIONS {
        for name in SAMPLES {
            let data = fs::read(sample(version, &format!("{}.so", name))).unwrap();
            let program = Program::read(&data).unwrap();
            let section = SframeSection::read(&program).unwrap().unwrap();
            let sframe = section.check().unwrap();
            assert_eq!(sframe.header().version, number);
            let ours = sframe.functions().iter().map(|function| {
                // objdump shows the row of a function without addresses.
                let rows = sframe.rows(function).map(|row| shown(&sframe, function, &row)).collect::<Vec<_>>();
                (function.begin, rows)
            });
            let abi = sframe.header().abi;
            let theirs = objdump(version, name)
                .into_iter()
                .map(|(begin, rows)| (begin, rows.iter().map(|row| mended(abi, row)).collect::<Vec<_>>()));
            for (function, (our, their)) in sframe.functions().iter().zip(ours.zip(theirs)) {
                if function.begin < function.end {
                    assert_eq!(our, their, "{} {}", version, name);
                }
            }
            assert_eq!(sframe.functions().len(), objdump(version, name).len());
        }
    }
}
