//! All slots of a frame or of a thread, and why each moves or does not.

use crate::explain::reason;
use crate::ffi::{rows::ROW, Answer};
use crate::thread::MOST_FRAMES;
use crate::{Reason, Refusal, Slot, ThreadRefusal};

/// The most pointers of a frame.
const MOST_POINTERS: usize = 256;

/// How many pointers of a frame a list for a thread first has room for.
const OFTEN_POINTERS: usize = 16;

/// A pointer of a frame, and why its two slots move or do not: what
/// [`Edition::explain_frame`](crate::editions::Edition::explain_frame) and
/// [`Edition::explain_thread`](crate::editions::Edition::explain_thread) tell.
///
/// A pair of several pointers has as many of these, one for each. A slot that several pointers have is told
/// with each of them, and is the same in all.
#[derive(Clone, Copy, Debug, PartialEq, Eq, Hash)]
pub struct ExplainedPointer {
    /// The position of its frame in the list, counted from 0; of a single frame 0.
    pub frame: usize,
    /// The number of its pair, counted from 0 among the pairs of the record.
    pub pair: u64,
    /// The slot of its base and its own, which is derived from that. `None` for a null pair, which has no
    /// slots.
    pub slots: Option<(ExplainedSlot, ExplainedSlot)>,
}

/// A slot of a pointer, what it holds before the move, and why it moves or does not.
#[derive(Clone, Copy, Debug, PartialEq, Eq, Hash)]
pub struct ExplainedSlot {
    /// The slot.
    pub slot: Slot,
    /// What it holds before the move.
    pub content: u64,
    /// Why it moves or does not; never [`Reason::Unlisted`].
    pub reason: Reason,
}

impl ExplainedSlot {
    /// What the slot holds after the move: its content plus the new base minus the old one, modulo 2^64, if
    /// it is [`Reason::Moved`], and its content if it is not.
    pub fn new_content(&self) -> u64 {
        match self.reason {
            Reason::Moved {
                old_base, new_base, ..
            } => self.content.wrapping_add(new_base).wrapping_sub(old_base),
            _ => self.content,
        }
    }
}

/// The pointers of a frame, of rows that a call writes, or its refusal.
pub(crate) fn frame_rows(
    call: impl Fn(&mut [u64]) -> Answer,
) -> Result<Vec<ExplainedPointer>, Refusal> {
    let mut rows = vec![0; ROW * MOST_POINTERS];
    let written = call(&mut rows).outcome()?;
    Ok(pointers(&rows, written))
}

/// The pointers of a thread with this list of frames, of rows that a call writes, or its refusal. The list
/// of rows is made longer once where it is too short.
pub(crate) fn thread_rows(
    frames: &[u64],
    call: impl Fn(&mut [u64]) -> Answer,
) -> Result<Vec<ExplainedPointer>, ThreadRefusal> {
    let count = (frames.len() / 2).min(MOST_FRAMES);
    let rows_of = |each: usize| -> Result<Vec<ExplainedPointer>, Refusal> {
        let mut rows = vec![0; ROW * each * count];
        let written = call(&mut rows).outcome()?;
        Ok(pointers(&rows, written))
    };
    let told = match rows_of(OFTEN_POINTERS) {
        Err(refusal) if refusal.number() == 24 => rows_of(MOST_POINTERS),
        told => told,
    };
    told.map_err(ThreadRefusal::new)
}

/// The pointers that the written numbers of a list tell. The library is proved to write whole rows, and no
/// more than the list has room for.
fn pointers(rows: &[u64], written: u64) -> Vec<ExplainedPointer> {
    let of = usize::try_from(written)
        .ok()
        .and_then(|end| rows.get(..end));
    let Some((rows, [])) = of.map(<[u64]>::as_chunks::<ROW>) else {
        panic!(
            "libtreskibben answers that it wrote {written} numbers to a list of {}, {ROW} a pointer",
            rows.len()
        )
    };
    rows.iter().map(pointer).collect()
}

/// The pointer of a row.
fn pointer(
    &[frame, pair, b0, b1, b2, b3, b4, b5, b6, ref derived @ ..]: &[u64; ROW],
) -> ExplainedPointer {
    let base = slot([b0, b1, b2, b3, b4, b5, b6]);
    ExplainedPointer {
        frame: frame as usize,
        pair,
        slots: base.zip(slot(*derived)),
    }
}

/// The slot that seven numbers of a row tell, none where there is no slot.
fn slot([kind, which, content, why, pair, old, new]: [u64; 7]) -> Option<ExplainedSlot> {
    let slot = match kind {
        0 => return None,
        1 => Slot::Address(which),
        2 => Slot::Register(which),
        other => panic!("libtreskibben answers the kind of slot {other}, and these are 0 to 2"),
    };
    let reason = reason(why, [pair, old, new]);
    Some(ExplainedSlot {
        slot,
        content,
        reason,
    })
}

#[cfg(test)]
mod tests;
