//! The threads that work on several files, or on several stacks, at once.

use crate::end::Failure;
use rayon::{ThreadPool, ThreadPoolBuildError, ThreadPoolBuilder};

/// The number of bytes of each thread's stack: more than gimli and `dwcheck` need.
const STACK: usize = 8 << 20;

/// So many threads, or one for each processor.
fn threads(jobs: Option<usize>) -> ThreadPoolBuilder {
    ThreadPoolBuilder::new().num_threads(jobs.unwrap_or(0)).stack_size(STACK)
}

fn no_threads(error: ThreadPoolBuildError) -> Failure {
    Failure::File(format!("no threads: {}", error))
}

/// A pool of so many threads, or of one for each processor.
pub fn thread_pool(jobs: Option<usize>) -> Result<ThreadPool, Failure> {
    threads(jobs).build().map_err(no_threads)
}

/// Starts so many threads, or one for each processor, for all that runs in parallel and names no pool.
pub fn start_threads(jobs: Option<usize>) -> Result<(), Failure> {
    threads(jobs).build_global().map_err(no_threads)
}
