//! Whole sections for reports: most of their records are statepoints, or just not.

use crate::layout::{LiveOut, Location, Record, Section, Version};
use crate::rng::Rng;
use crate::section_in;

/// A random whole section of this version, many of whose records are statepoints or nearly so, with
/// stack sizes of all sorts.
pub fn section(rng: &mut Rng, version: Version) -> Section {
    let mut section = section_in(rng, version);
    let constants = section.constants.len();
    for record in &mut section.records {
        if rng.one_in(4) {
            continue;
        }
        statepoint(rng, record, version, constants);
        if rng.one_in(2) {
            edge(rng, record, constants);
        }
    }
    section
}

/// The same, with stack sizes that are unknown or below 2^32.
pub fn small_section(rng: &mut Rng, version: Version) -> Section {
    let mut section = section(rng, version);
    for function in &mut section.functions {
        if function.stack_size != u64::MAX {
            function.stack_size = rng.number(32);
        }
    }
    section
}

/// A location of any kind, with any numbers.
fn location(rng: &mut Rng, version: Version, constants: usize) -> Location {
    let any = crate::valid::location(rng, constants);
    let most = match version {
        Version::One => 255,
        Version::Three => u16::MAX,
    };
    Location {
        size: any.size.min(most),
        ..any
    }
}

/// Makes a record a statepoint, with a few deopt locations and pairs; now and then with over 256.
fn statepoint(rng: &mut Rng, record: &mut Record, version: Version, constants: usize) {
    let deopt = rng.pick(&[0, 0, 1, 2, 3, 7]);
    let pairs = match rng.below(32) {
        0 => 255 + rng.below(4),
        _ => rng.below(5),
    };
    let more = deopt + 2 * pairs;
    record.locations = (0..3 + more)
        .map(|_| location(rng, version, constants))
        .collect();
    for first in &mut record.locations[..3] {
        first.kind = 4;
    }
    record.locations[2].offset = deopt as u32;
    record.live_outs.clear();
}

/// Changes a statepoint in one place, so that it is just one no longer, or just one still.
fn edge(rng: &mut Rng, record: &mut Record, constants: usize) {
    let rest = record.locations.len() as u32 - 3;
    match rng.below(7) {
        0 => record.locations.truncate(rng.below(3)),
        1 => {
            let first = &mut record.locations[rng.below(3)];
            let kinds: &[u8] = if constants > 0 {
                &[1, 2, 3, 5]
            } else {
                &[1, 2, 3]
            };
            first.kind = rng.pick(kinds);
            if first.kind == 5 {
                first.offset = rng.below(constants) as u32;
            }
        }
        2 => record.locations[2].offset = rng.pick(&[u32::MAX, 1 << 31, u32::MAX - 1]),
        3 => record.locations[2].offset = rest + 1 + rng.below(3) as u32,
        4 => record.locations[2].offset = rest,
        5 => {
            record.locations.pop();
        }
        _ => {
            let (register, size) = (rng.number(16) as u16, rng.number(8) as u8);
            record.live_outs = vec![LiveOut { register, size }; 1 + rng.below(2)];
        }
    }
}
