//! The list of the modules of a process, by which frames can be named on another machine.

use super::json::hex_number;
use super::lost::Lost;
use super::per_file::PerFile;
use super::Stacks;
use crate::cfi::text::{Address, Escaped};
use crate::elf::debug_files::build_id_hex;
use crate::elf::program::Program;
use crate::process::core_file::Mapping;
use dwcheck_types::target::Target;
use serde_json::{json, Value};
use std::collections::HashMap;
use std::fmt;
use std::os::unix::ffi::OsStrExt;
use std::path::PathBuf;

/// A module of a process, or a file with code that can't be used.
#[derive(Clone, Debug, PartialEq, Eq)]
pub struct Listed {
    /// The path of its file, or `[vdso]`.
    pub path: PathBuf,
    /// Its build id, in hex digits. `None` if it has none, or if it isn't known.
    pub build_id: Option<String>,
    /// The first address of its mappings.
    pub begin: u64,
    /// The address after its last mapping.
    pub end: u64,
    /// What is added to an address in the file to get the address in the process. `None` if the file can't be used.
    pub bias: Option<u64>,
    target: Target,
}

impl Stacks<'_> {
    /// The modules of the process, and the files with code that can't be used, by their addresses.
    pub fn modules(&self) -> Vec<Listed> {
        let tables = self.tables.borrow();
        let mut build_ids = PerFile::new(|program: &Program<'_>| program.build_id().map(build_id_hex));
        let modules = tables.modules().iter().map(|module| Listed {
            path: module.path.clone(),
            build_id: build_ids.of(module),
            begin: module.begin,
            end: module.end,
            bias: Some(module.bias),
            target: self.core.target(),
        });
        let mut listed: Vec<_> = modules.chain(self.lost_files()).chain(self.lost_modules()).collect();
        listed.sort_by_key(|module| module.begin);
        listed
    }

    /// The modules of a minidump whose files aren't known.
    fn lost_modules(&self) -> impl Iterator<Item = Listed> + '_ {
        self.lost.iter().map(|Lost { name, build_id, begin, end }| Listed {
            path: name.clone(),
            build_id: build_id.clone(),
            begin: *begin,
            end: *end,
            bias: None,
            target: self.core.target(),
        })
    }

    /// The files with code that can't be used.
    fn lost_files(&self) -> Vec<Listed> {
        let mut places: HashMap<&[u8], (u64, u64)> = HashMap::new();
        for Mapping { begin, end, path, .. } in self.core.mappings() {
            let place = places.entry(path).or_insert((*begin, *end));
            *place = (place.0.min(*begin), place.1.max(*end));
        }
        let files = self.files.all().iter().filter(|file| file.is_lost());
        let listed = files.filter_map(|file| {
            let (begin, end) = *places.get(file.path.as_os_str().as_bytes())?;
            let (path, build_id, target) = (file.path.clone(), file.build_id().map(build_id_hex), self.core.target());
            Some(Listed { path, build_id, begin, end, bias: None, target })
        });
        listed.collect()
    }
}

impl Listed {
    /// The module as an object. docs/OUTPUT.md lists the keys.
    pub fn json(&self) -> Value {
        json!({
            "path": self.path.to_string_lossy(),
            "build_id": self.build_id,
            "begin": hex_number(self.begin),
            "end": hex_number(self.end),
            "bias": self.bias.map(hex_number),
        })
    }
}

impl fmt::Display for Listed {
    fn fmt(&self, f: &mut fmt::Formatter<'_>) -> fmt::Result {
        write!(f, "module {}..{}", Address(self.target, self.begin), Address(self.target, self.end))?;
        self.build_id.as_ref().map_or(Ok(()), |id| write!(f, " build-id {}", id))?;
        write!(f, " ({})", Escaped(&self.path.to_string_lossy()))
    }
}
