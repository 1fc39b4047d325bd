//! What a section adds to each total, counted off the data that it is made of.

use super::TOTALS;
use crate::frames::plain::first_pair;
use crate::layout::Section;

/// What a refused section adds: one to the sections and one to the refused.
pub const REFUSED: [u128; TOTALS] = [1, 1, 0, 0, 0, 0, 0, 0, 0, 0, 0, 0, 0];

/// Where the total of kind 1 stands, and those after the kinds.
const KIND_1: usize = 6;
const STACK: usize = 11;
const UNKNOWN: usize = 12;

/// What a whole section adds.
pub fn counts(section: &Section) -> [u128; TOTALS] {
    let mut adds = [0; TOTALS];
    adds[0] = 1;
    for function in &section.functions {
        adds[2] += 1;
        match function.stack_size {
            u64::MAX => adds[UNKNOWN] += 1,
            size => adds[STACK] += u128::from(size),
        }
    }
    for record in &section.records {
        adds[3] += 1;
        if let Some(first) = first_pair(record) {
            adds[4] += 1;
            adds[5] += (record.locations.len() - first) as u128 / 2;
        }
        for location in &record.locations {
            adds[KIND_1 + usize::from(location.kind) - 1] += 1;
        }
    }
    adds
}
