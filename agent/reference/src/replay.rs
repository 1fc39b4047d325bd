//! Replay of a recorded restore: the frames of a trace are moved one after
//! another, and their answers compared with the recorded ones.
//!
//! A trace is a row of items in the listing's shape: one byte of kind, then a
//! body whose length the kind fixes. Kind 1 is a frame, kind 2 an answer and
//! kind 3 the end. Each frame is followed by its answer, and nothing stands
//! after the end.

mod trace;

#[cfg(test)]
mod tests;
#[cfg(test)]
mod tests_moves;

pub use trace::{parse, write, Recorded, Step};

use crate::restore::Restore;
use crate::Refusal;

/// Moves each frame of a trace, and gives the number of the first answer that
/// differs from the recorded one, counted from 0, or none.
///
/// A broken trace is 35 at its first bad item, before all else, and leaves the
/// image as it is. Every other refusal is an answer that is compared. After a
/// difference the frames are moved all the same.
pub fn replay(restore: &Restore, image: &mut [u8], trace: &[u8]) -> Result<Option<u64>, Refusal> {
    let mut differs = None;
    for (step, number) in parse(trace)?.into_iter().zip(0..) {
        let mut registers = step.registers;
        let answer = restore.relocate(image, step.machine.into(), step.frame, &mut registers);
        if differs.is_none() && Recorded::of(answer) != step.answer {
            differs = Some(number);
        }
    }
    Ok(differs)
}
