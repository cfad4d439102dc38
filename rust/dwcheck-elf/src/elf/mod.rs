//! ELF files and what they hold: sections, symbols, segments, relocations, separate files of debug information; and
//! what all other parts use: formats and names.
//!
//! It uses no other part.

pub mod code_id;
pub mod compressed;
pub mod constants;
pub mod covered;
pub mod debug_files;
pub mod demangle;
pub mod escaped;
pub mod fetch;
pub mod format;
pub mod function_offset;
pub mod functions;
pub mod image;
pub mod layout;
pub mod mapped;
mod nameless_file;
pub mod other_file;
pub mod plt;
pub mod program;
pub mod relocate;
pub mod unpacked;
