//! Asks the servers that `DEBUGINFOD_URLS` names, each as long as it answers.

use crate::interrupt::{is_interrupted, Interrupt};
use crate::library::{Artifact, DebuginfodError, Library};
use std::cell::Cell;
use std::env;
use std::fs;
use std::path::{Path, PathBuf};
use std::rc::Rc;
use std::sync::Arc;

/// The variable that names the servers, and the one that says how often one is asked again.
const URLS: &str = "DEBUGINFOD_URLS";
const RETRIES: &str = "DEBUGINFOD_RETRY_LIMIT";

/// The most bytes of a file that is fetched. A server may send without end.
const LARGEST: u64 = 8 << 30;

/// How far a file is fetched.
#[derive(Clone, Copy, Debug, PartialEq, Eq)]
pub enum Step<'s> {
    /// This server sends a file, of which so many bytes are here; and of how many, 0 if it doesn't say.
    Fetching {
        /// The server.
        server: &'s str,
        /// The bytes so far.
        done: u64,
        /// All bytes.
        all: u64,
    },
    /// Nothing is fetched any more.
    Done,
}

/// A server.
#[derive(Clone, Debug)]
struct Server {
    url: String,
    /// Whether it isn't asked again.
    is_given_up: bool,
}

/// Fetches files from servers.
pub struct Client {
    library: Library,
    servers: Vec<Server>,
    problems: Vec<String>,
    on_step: Arc<dyn Fn(Step<'_>) + Send + Sync>,
}

impl Client {
    /// A client for the servers that `DEBUGINFOD_URLS` names. `None` if it names none.
    ///
    /// `on_step` is called while a file is fetched. Ctrl-C ends a fetch, and then no server is asked again.
    ///
    /// # Errors
    ///
    /// If the library isn't there.
    pub fn from_environment(
        on_step: impl Fn(Step<'_>) + Send + Sync + 'static,
    ) -> Result<Option<Self>, DebuginfodError> {
        let urls = env::var(URLS).unwrap_or_default();
        let servers: Vec<_> =
            urls.split_ascii_whitespace().map(|url| Server { url: url.to_string(), is_given_up: false }).collect();
        if servers.is_empty() {
            return Ok(None);
        }
        let library = Library::load()?;
        Ok(Some(Client { library, servers, problems: Vec::new(), on_step: Arc::new(on_step) }))
    }

    /// The path of a file in the cache, which is fetched if it isn't there yet. `None` if no server has it. What a server
    /// sent may be another file.
    pub fn find(&mut self, artifact: Artifact, build_id: &[u8]) -> Option<PathBuf> {
        for place in 0..self.servers.len() {
            if is_interrupted() {
                return None;
            }
            if self.servers[place].is_given_up {
                continue;
            }
            match self.ask(place, artifact, build_id) {
                Ok(Some(path)) => return Some(path),
                Ok(None) => {}
                Err(why) => {
                    let server = &mut self.servers[place];
                    server.is_given_up = true;
                    self.problems.push(format!("{}: {}: not asked again", server.url, why));
                }
            }
        }
        None
    }

    /// The servers that weren't asked again, and why.
    pub fn problems(&self) -> &[String] {
        &self.problems
    }

    /// Asks one server, once.
    fn ask(&mut self, place: usize, artifact: Artifact, build_id: &[u8]) -> Result<Option<PathBuf>, DebuginfodError> {
        let url = self.servers[place].url.clone();
        let before = Environment::set(&[(URLS, &url), (RETRIES, "0")]);
        let (on_step, server) = (Arc::clone(&self.on_step), url);
        let interrupt = Interrupt::taken();
        let is_too_large = Rc::new(Cell::new(false));
        let too_large = Rc::clone(&is_too_large);
        let progress = move |done, all| {
            on_step(Step::Fetching { server: &server, done, all });
            too_large.set(done > LARGEST);
            is_interrupted() || done > LARGEST
        };
        let found = self.library.find(artifact, build_id, Box::new(progress));
        (self.on_step)(Step::Done);
        drop((before, interrupt));
        if let (Ok(None), true) = (&found, place + 1 < self.servers.len()) {
            forget_miss(artifact, build_id);
        }
        match found {
            // What ended it isn't the server's silence.
            Err(_) if is_interrupted() => Ok(None),
            Err(_) if is_too_large.get() => Err(DebuginfodError::Failed(libc::EFBIG)),
            found => found,
        }
    }
}

/// Variables of the environment, which have their values again when this is dropped.
struct Environment(Vec<(&'static str, Option<std::ffi::OsString>)>);

impl Environment {
    fn set(values: &[(&'static str, &str)]) -> Self {
        let before = values.iter().map(|(name, _)| (*name, env::var_os(name))).collect();
        values.iter().for_each(|(name, value)| env::set_var(name, value));
        Environment(before)
    }
}

impl Drop for Environment {
    fn drop(&mut self) {
        for (name, value) in self.0.drain(..) {
            match value {
                Some(value) => env::set_var(name, value),
                None => env::remove_var(name),
            }
        }
    }
}

/// Forgets that a server doesn't have a file: the library remembers it as an empty file, for all servers.
fn forget_miss(artifact: Artifact, build_id: &[u8]) {
    let digits: String = build_id.iter().map(|byte| format!("{:02x}", byte)).collect();
    let name = match artifact {
        Artifact::Executable => "executable",
        Artifact::DebugInfo => "debuginfo",
    };
    if let Some(file) = cache_folder().map(|folder| folder.join(digits).join(name)) {
        if file.metadata().map_or(false, |found| found.is_file() && found.len() == 0) {
            let _ = fs::remove_file(file);
        }
    }
}

/// The folder of the library's cache (debuginfod_find_debuginfo(3), "CACHE").
fn cache_folder() -> Option<PathBuf> {
    let variable = |name: &str| env::var_os(name).filter(|value| !value.is_empty()).map(PathBuf::from);
    if let Some(folder) = variable("DEBUGINFOD_CACHE_PATH") {
        return Some(folder);
    }
    let home = variable("HOME");
    let old = home.as_ref().map(|home| home.join(".debuginfod_client_cache")).filter(|old| old.is_dir());
    let usual = || {
        Some(
            variable("XDG_CACHE_HOME")
                .or_else(|| Some(home.as_deref()?.join(".cache")))?
                .join(Path::new("debuginfod_client")),
        )
    };
    old.or_else(usual)
}
