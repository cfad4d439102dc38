//! All tests of this crate that use its library and its program, as one program: to compile and link one
//! takes a small part of the time of one for each file. `cargo test NAME` runs those of one file, or one
//! test.
//!
//! The tests run as threads of one process. So none changes what a process has once, such as its
//! environment, its current folder or how it handles signals: what needs that is done by a child.

mod common;

mod arm64_kept;
mod commands;
mod compare;
mod containers;
mod copies_and_marks;
mod core_file;
mod crash_files;
mod crashes;
mod damage;
mod defects;
mod demangled_names;
mod eh_frame;
mod frame_names;
mod handler;
mod lint;
mod lists;
mod live;
mod minidumps;
mod modules;
mod objects;
mod packages;
mod profile;
mod profile_formats;
mod profile_jit;
mod profile_made;
mod profile_page;
mod profile_tail_calls;
mod program;
mod refusals;
mod report_page;
mod same_frames;
mod sframe;
mod stacks;
mod stored;
mod surveys;
mod symbols;
#[cfg(all(target_os = "linux", target_arch = "x86_64"))]
mod trace_finds;
#[cfg(all(target_os = "linux", target_arch = "x86_64"))]
mod trace_quiet;
#[cfg(all(target_os = "linux", target_arch = "x86_64"))]
mod trace_runs;
mod unusual_files;
mod unusual_stops;
mod values;
mod variables;
mod variables_of_languages;
mod walk;
