//! Traces of recorded restores, and their replay.

use super::{Refusal, Restore};
use treskibben::trace;

/// A frame of a trace with its recorded answer, such an answer, and the first that differs in a replay.
pub use treskibben::trace::{Difference, Recorded, Step};

/// The bytes of a trace.
pub fn trace_of(steps: &[Step]) -> Vec<u8> {
    trace::to_bytes(steps)
}

/// What a trace says: 35 of a broken one.
pub fn steps_of(trace: &[u8]) -> Result<Vec<Step>, Refusal> {
    Ok(trace::steps(trace)?)
}

/// What was answered, as it is recorded: how many pointers, or the refusal.
pub fn outcome(answer: Recorded) -> Result<u64, Refusal> {
    Ok(answer.answer()?)
}

impl Restore<'_> {
    /// Moves each frame of a trace, one after the other, and tells the first answer that isn't the recorded one. 35
    /// of a broken trace, which leaves the image as it is; every other refusal is an answer. The machine is that
    /// of each frame.
    pub fn replay(&self, image: &mut [u8], trace: &[u8]) -> Result<Option<Difference>, Refusal> {
        let (section, first, moves) = (self.section, self.first, self.moves());
        Ok(self.edition.replay(section, image, first, moves, trace)?)
    }
}
