//! The store of a run, which its threads share.

use crate::end::{shown_path, Failure};
use dwcheck_store::{Answer, Content, Digest, Listing, Question, SeenFile, Stamps, Store, StoreError};
use std::path::Path;
use std::sync::{Mutex, MutexGuard, PoisonError};

/// A store that several threads use.
pub struct SharedStore(Mutex<Store>);

impl SharedStore {
    /// Opens a store, or makes one.
    pub fn open(path: &Path) -> Result<SharedStore, Failure> {
        Ok(SharedStore(Mutex::new(Store::open(path)?)))
    }

    fn lock(&self) -> MutexGuard<'_, Store> {
        // Each change is one transaction, so a thread that panicked left nothing half done.
        self.0.lock().unwrap_or_else(PoisonError::into_inner)
    }

    /// The files that the store knows.
    pub fn stamps(&self) -> Result<Stamps, Failure> {
        Ok(self.lock().stamps()?)
    }

    /// Notes which files were found.
    pub fn note_listing(&self, listing: &Listing) -> Result<(), Failure> {
        Ok(self.lock().note_listing(listing)?)
    }

    /// Notes what is in a package.
    pub fn note_file(&self, file: &SeenFile) -> Result<(), Failure> {
        Ok(self.lock().note_file(file)?)
    }

    /// The answer to a question for a content, if it is there.
    pub fn answer(&self, digest: Digest, question: &Question) -> Result<Option<Answer>, Failure> {
        Ok(self.lock().answer(digest, question)?)
    }

    /// The answer to a question for a content, if it is there, whatever its inputs are, and these.
    pub fn answer_of_any_inputs(
        &self,
        digest: Digest,
        question: &Question,
    ) -> Result<Option<(Answer, String)>, Failure> {
        Ok(self.lock().answer_of_any_inputs(digest, question)?)
    }

    /// Keeps an answer.
    pub fn keep(&self, content: &Content, question: &Question, answer: &Answer) -> Result<(), Failure> {
        Ok(self.lock().keep(content, question, answer)?)
    }
}

impl From<StoreError> for Failure {
    fn from(error: StoreError) -> Self {
        match error.into_output() {
            Ok(error) => Failure::Output(error),
            Err(error) => Failure::File(format!("the store {}: {}", shown_path(error.store()), error)),
        }
    }
}
