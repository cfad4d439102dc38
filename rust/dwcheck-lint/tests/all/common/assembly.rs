//! Functions in assembly, and what is found in them.
//!
//! Of a function with a planted defect, a line `WRONG text` is there only with the defect, and a line
//! `RIGHT text` only without it.

use super::gimli_rows::readable;
use super::{found, has, Folder, Found};

/// An assembler, by the compiler that runs it, and the option that says for which machine.
pub struct Assembler(pub &'static str, &'static str);

pub const X86_64: Assembler = Assembler("gcc", "-m64");
pub const I386: Assembler = Assembler("gcc", "-m32");
pub const AARCH64: Assembler = Assembler("aarch64-linux-gnu-gcc", "");

/// A function with its body, and text after it.
pub fn function(body: &str, after: &str) -> String {
    format!(
        ".text\n.globl f\n.type f, @function\nf:\n.cfi_startproc\n{}\n.cfi_endproc\n{}\n\
         .section .note.GNU-stack,\"\",@progbits\n",
        body, after
    )
}

/// The lines of a function without those that begin with `dropped`, and without the word `kept`.
fn variant(text: &str, kept: &str, dropped: &str) -> String {
    let lines = text.lines().filter(|line| !line.trim_start().starts_with(dropped));
    lines.map(|line| line.replacen(kept, "", 1)).collect::<Vec<_>>().join("\n")
}

impl Assembler {
    /// What is found in a function. `None` if the assembler isn't installed.
    pub fn found(&self, name: &str, body: &str, after: &str) -> Option<Found> {
        let Assembler(compiler, option) = self;
        let folder = Folder::new(&format!("{}{}-{}", compiler, option, name));
        folder.write("text.s", &readable(&function(body, after)));
        has(compiler).then(|| found(&folder, &format!("{} {} -nostdlib -shared -o out text.s", compiler, option)))
    }

    /// The defect of a function is found, by its kind and nothing else, and nothing is found without it.
    pub fn planted(&self, name: &str, kind: &str, text: &str) {
        for (kept, dropped, kinds) in [("WRONG", "RIGHT", vec![kind]), ("RIGHT", "WRONG", vec![])] {
            if let Some(found) = self.found(name, &variant(text, kept, dropped), "") {
                assert_eq!(found.kinds, kinds, "{}", text);
            }
        }
    }

    /// Nothing is found in a function.
    pub fn quiet(&self, name: &str, body: &str, after: &str) {
        if let Some(found) = self.found(name, body, after) {
            assert_eq!(found.kinds, [""; 0], "{}{}", body, after);
        }
    }

    /// Nothing is found in a function, and all of it is judged.
    pub fn judged(&self, name: &str, body: &str, after: &str) {
        if let Some(Found { kinds, coverage }) = self.found(name, body, after) {
            assert_eq!((kinds.len(), coverage.judged), (0, coverage.instructions), "{}{}", body, after);
        }
    }
}
