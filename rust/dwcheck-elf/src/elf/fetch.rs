//! Files that are fetched by their build ids, such as from servers of debuginfod.

use dwcheck_debuginfod::{Artifact, Client};
use std::fmt;
use std::path::PathBuf;
use std::sync::{Arc, Mutex};

/// Fetches files by their build ids. Its clones share servers and what is known of these. The default fetches nothing.
#[derive(Clone, Default)]
pub struct Fetcher(Option<Arc<Mutex<Client>>>);

impl Fetcher {
    /// Fetches with this client.
    pub fn new(client: Client) -> Self {
        Fetcher(Some(Arc::new(Mutex::new(client))))
    }

    /// Whether it fetches anything.
    pub fn is_on(&self) -> bool {
        self.0.is_some()
    }

    /// The path of a program or library with this build id, which who uses it has to check.
    pub fn executable(&self, build_id: &[u8]) -> Option<PathBuf> {
        self.find(Artifact::Executable, build_id)
    }

    /// The path of the file of debug information of a program with this build id.
    pub(crate) fn debug_info(&self, build_id: &[u8]) -> Option<PathBuf> {
        self.find(Artifact::DebugInfo, build_id)
    }

    fn find(&self, artifact: Artifact, build_id: &[u8]) -> Option<PathBuf> {
        self.0.as_ref()?.lock().ok()?.find(artifact, build_id)
    }

    /// The servers that weren't asked again, and why.
    pub fn problems(&self) -> Vec<String> {
        let client = self.0.as_ref().and_then(|client| client.lock().ok());
        client.map_or_else(Vec::new, |client| client.problems().to_vec())
    }
}

impl fmt::Debug for Fetcher {
    fn fmt(&self, f: &mut fmt::Formatter<'_>) -> fmt::Result {
        f.debug_tuple("Fetcher").field(&self.is_on()).finish()
    }
}
