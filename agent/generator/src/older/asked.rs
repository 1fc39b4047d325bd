//! Whole version 1 sections that are made to be asked. They are the same in every run.

use super::edges::{every_part, function};
use crate::asked::{live_outs_at_edges, locations_of_all_kinds};
use crate::edges::record;
use crate::layout::{Section, Version};

/// The sections.
pub fn all() -> Vec<Section> {
    vec![
        at_offsets(0, &[]),
        at_offsets(3, &[]),
        at_offsets(0, &[0, 8]),
        at_offsets(1, &[8, 0, 8, 16, 8]),
        at_offsets(5, &[0, 1, u32::MAX, u32::MAX - 1, 0]),
        every_part(),
        kinds(),
        live_outs(),
        full_record(),
    ]
}

/// So many functions, and records at these offsets.
fn at_offsets(functions: usize, offsets: &[u32]) -> Section {
    let offsets = offsets.iter().enumerate();
    Section {
        version: Version::One,
        functions: (0..functions).map(|nth| function(nth as u64)).collect(),
        constants: vec![],
        records: offsets
            .map(|(nth, offset)| record(*offset, nth % 4, nth % 3))
            .collect(),
    }
}

/// Every kind with offsets and sizes at the edges, and constants at theirs.
fn kinds() -> Section {
    const OFFSETS: [u32; 6] = [0, 1, 0x7fff_ffff, 0x8000_0000, u32::MAX - 7, u32::MAX];
    let mut section = at_offsets(2, &[4, 8]);
    section.constants = vec![0, 1, 1 << 31, 1 << 63, u64::MAX];
    locations_of_all_kinds(&mut section, &OFFSETS, &[0, 8, 127, 128, 255]);
    section
}

/// Live-outs in odd and even numbers, after odd and even numbers of locations, with no padding
/// between.
fn live_outs() -> Section {
    let mut section = at_offsets(1, &[1, 2, 3, 4]);
    live_outs_at_edges(&mut section);
    section
}

/// A record with as many locations and live-outs as it can state, each unlike the one before.
pub(crate) fn full_record() -> Section {
    Section {
        version: Version::One,
        functions: every_part().functions,
        ..crate::asked::full_record()
    }
}
