//! The counts of a report.

use super::Report;
use crate::library::Reason;
use serde::Serialize;

#[derive(Clone, Copy, Default, Serialize)]
pub struct Counts {
    pub frames: u64,
    pub pairs: u64,
    pub null_pairs: u64,
    pub pointers: u64,
    pub slots: u64,
    /// The slots by their reasons.
    pub moved: u64,
    pub null_base: u64,
    pub only_base: u64,
}

impl Counts {
    pub fn of(report: &Report) -> Counts {
        let mut counts = Counts::default();
        for frame in &report.frames {
            counts.frames += 1;
            counts.pairs += frame.stands.pairs;
            counts.null_pairs += frame.null_pairs.len() as u64;
            counts.pointers += frame.pointers;
            counts.slots += frame.slots.len() as u64;
            for slot in &frame.slots {
                match slot.reason {
                    Reason::Moved { .. } => counts.moved += 1,
                    Reason::NullBase => counts.null_base += 1,
                    Reason::OnlyBase => counts.only_base += 1,
                    // A report has the slots that are listed.
                    Reason::Unlisted => {}
                }
            }
        }
        counts
    }
}
