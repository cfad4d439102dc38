//! Finds the C library `dwcheck` and tells cargo to link it. The library is looked for in the
//! folders that DWCHECK_LIB_DIR lists, or, if that variable isn't set, with pkg-config. Its version
//! is checked by pkg-config, or by the file dwcheck.pc if one is in or near the folder.

use std::env;
use std::error;
use std::ffi::{OsStr, OsString};
use std::fmt;
use std::fs;
use std::io;
use std::path::{Path, PathBuf};
use std::process::{exit, Command};
use std::string::FromUtf8Error;

const DIRS: &str = "DWCHECK_LIB_DIR";
const NAMES: &str = "DWCHECK_LIBS";

/// The major version of the library's interface that this crate is for.
const MAJOR: &str = "2";

/// The same in pkg-config's words, without and with the feature `dl`.
const VERSIONS: [&str; 2] = [
    "dwcheck >= 2 dwcheck < 3",
    "dwcheck-dl >= 2 dwcheck-dl < 3 dwcheck >= 2 dwcheck < 3",
];

/// The libraries to link if DWCHECK_LIBS isn't set. The first one is for the feature `dl`, and uses the second one.
const LIBRARIES: [&str; 2] = ["dwcheck-dl", "dwcheck"];

/// Whether the crate is built with the feature `dl`.
fn has_dl() -> bool {
    env::var_os("CARGO_FEATURE_DL").is_some()
}

fn versions() -> &'static str {
    VERSIONS[usize::from(has_dl())]
}

/// Why the library can't be linked.
#[derive(Debug)]
enum Error {
    /// No folder of DWCHECK_LIB_DIR has the library of this name.
    NotFound(String),
    /// This file says that the library is of this version, which this crate isn't for.
    OtherVersion(PathBuf, String),
    /// pkg-config doesn't run.
    NoPkgConfig(io::Error),
    /// pkg-config doesn't find the library, and prints this.
    NotFoundByPkgConfig(String),
    /// What pkg-config prints isn't text.
    NoText(FromUtf8Error),
}

impl fmt::Display for Error {
    fn fmt(&self, f: &mut fmt::Formatter<'_>) -> fmt::Result {
        match self {
            Error::NotFound(name) => write!(f, "no library {} in {}", name, DIRS),
            Error::OtherVersion(file, version) => {
                let file = file.display();
                write!(
                    f,
                    "{} has version {}, and this crate is for version {}",
                    file, version, MAJOR
                )
            }
            Error::NoPkgConfig(why) => write!(f, "pkg-config doesn't run ({}); set {}", why, DIRS),
            Error::NotFoundByPkgConfig(why) => {
                write!(
                    f,
                    "pkg-config doesn't find {}; set {}\n{}",
                    versions(),
                    DIRS,
                    why
                )
            }
            Error::NoText(why) => why.fmt(f),
        }
    }
}

impl error::Error for Error {
    fn source(&self) -> Option<&(dyn error::Error + 'static)> {
        match self {
            Error::NoPkgConfig(why) => Some(why),
            Error::NoText(why) => Some(why),
            Error::NotFound(_) | Error::OtherVersion(..) | Error::NotFoundByPkgConfig(_) => None,
        }
    }
}

fn main() {
    for name in [DIRS, NAMES, "PKG_CONFIG", "PKG_CONFIG_PATH"] {
        println!("cargo:rerun-if-env-changed={}", name);
    }
    let linked = match env::var_os(DIRS) {
        Some(dirs) => link_from_folders(&dirs),
        None => link_by_pkg_config(),
    };
    if let Err(why) = linked {
        eprintln!("dwcheck: {}", why);
        exit(1);
    }
}

/// A library that was found: its file, its folder, and the kind (`static` or `dylib`) as which
/// rustc links it.
struct Found {
    name: String,
    kind: &'static str,
    folder: PathBuf,
    file: PathBuf,
}

/// Links the libraries that DWCHECK_LIBS names, or else `dwcheck` (and `dwcheck-dl`), from the folders that
/// DWCHECK_LIB_DIR lists.
fn link_from_folders(dirs: &OsStr) -> Result<(), Error> {
    let folders: Vec<PathBuf> = env::split_paths(dirs).collect();
    let found = match env::var(NAMES) {
        Ok(names) => {
            let names: Vec<&str> = names
                .split(|c: char| c == ',' || c.is_whitespace())
                .filter(|name| !name.is_empty())
                .collect();
            find_libraries(&folders, &names)?
        }
        Err(_) => find_libraries(&folders, &LIBRARIES[usize::from(!has_dl())..])?,
    };
    for library in found {
        check_version(&library.folder)?;
        println!("cargo:rerun-if-changed={}", library.file.display());
        println!(
            "cargo:rustc-link-search=native={}",
            library.folder.display()
        );
        println!("cargo:rustc-link-lib={}={}", library.kind, library.name);
    }
    Ok(())
}

/// Refuses a library of another version, if a file dwcheck.pc beside it or in its folder `pkgconfig`
/// says so.
fn check_version(folder: &Path) -> Result<(), Error> {
    for file in [
        folder.join("dwcheck.pc"),
        folder.join("pkgconfig/dwcheck.pc"),
    ] {
        let text = match fs::read_to_string(&file) {
            Ok(text) => text,
            Err(_) => continue,
        };
        println!("cargo:rerun-if-changed={}", file.display());
        let version = text.lines().find_map(|line| line.strip_prefix("Version:"));
        let version = version.unwrap_or("").trim();
        if version.split('.').next() != Some(MAJOR) {
            return Err(Error::OtherVersion(file, version.to_string()));
        }
    }
    Ok(())
}

fn find_libraries(folders: &[PathBuf], names: &[&str]) -> Result<Vec<Found>, Error> {
    names
        .iter()
        .map(|name| find_library(folders, name))
        .collect()
}

/// The static library of a name, or else the shared one, in the first of the folders that has it.
fn find_library(folders: &[PathBuf], name: &str) -> Result<Found, Error> {
    for (kind, ending) in [("static", "a"), ("dylib", "so"), ("dylib", "dylib")] {
        for folder in folders {
            let file = folder.join(format!("lib{}.{}", name, ending));
            if file.is_file() {
                return Ok(Found {
                    name: name.to_string(),
                    kind,
                    folder: folder.clone(),
                    file,
                });
            }
        }
    }
    Err(Error::NotFound(name.to_string()))
}

/// Links what pkg-config prints for the library.
fn link_by_pkg_config() -> Result<(), Error> {
    let program = env::var_os("PKG_CONFIG").unwrap_or_else(|| OsString::from("pkg-config"));
    let output = Command::new(program)
        .args(["--libs", versions()])
        .output()
        .map_err(Error::NoPkgConfig)?;
    if !output.status.success() {
        let why = String::from_utf8_lossy(&output.stderr).into_owned();
        return Err(Error::NotFoundByPkgConfig(why));
    }
    let words = String::from_utf8(output.stdout).map_err(Error::NoText)?;
    for word in words.split_whitespace() {
        if let Some(folder) = word.strip_prefix("-L") {
            println!("cargo:rustc-link-search=native={}", folder);
        } else if let Some(name) = word.strip_prefix("-l") {
            println!("cargo:rustc-link-lib={}", name);
        }
    }
    Ok(())
}
