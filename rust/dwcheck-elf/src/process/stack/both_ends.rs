//! The innermost frames of a walk, and the outermost ones of a stack that has too many.

use super::{Frame, LeftOut, Stop, WalkOptions};
use std::collections::VecDeque;

/// The most frames of a stack of which the outermost ones are looked for. A stack of 8 MB has half as many.
const MOST_PASSED: usize = 1 << 20;

/// The frames so far.
pub(super) struct BothEnds {
    options: WalkOptions,
    frames: Vec<Frame>,
    /// The last ones of those that are past the limit.
    outermost: VecDeque<Frame>,
    /// How many frames there were.
    count: usize,
}

/// A walk that has ended.
pub(super) struct Walked {
    /// The frames, the innermost first.
    pub frames: Vec<Frame>,
    /// Those that are left out of `frames`.
    pub left_out: Option<LeftOut>,
    /// Why there are no more frames.
    pub stop: Stop,
}

impl BothEnds {
    /// No frames yet.
    pub fn new(options: WalkOptions) -> Self {
        BothEnds { options, frames: Vec::new(), outermost: VecDeque::new(), count: 0 }
    }

    /// Whether no other frame is looked for.
    pub fn is_full(&self) -> bool {
        let most = if self.options.outermost == 0 { 0 } else { MOST_PASSED };
        self.count >= self.options.limit.max(most)
    }

    /// Adds the next frame.
    pub fn push(&mut self, frame: Frame) {
        self.count += 1;
        if self.frames.len() < self.options.limit {
            return self.frames.push(frame);
        }
        if self.outermost.len() >= self.options.outermost {
            self.outermost.pop_front();
        }
        self.outermost.push_back(frame);
    }

    /// The frames, of which there are no more.
    pub fn end(mut self, stop: Stop) -> Walked {
        let after = self.frames.len();
        let count = self.count - after - self.outermost.len();
        self.frames.extend(self.outermost);
        Walked { frames: self.frames, left_out: Some(LeftOut { after, count }).filter(|_| count > 0), stop }
    }
}
