//! Settings of an edition: right ones, mostly at their limits, and ones of which something is wrong.

use crate::rng::Rng;

/// What an edition is made with.
#[derive(Clone, Copy, Debug, PartialEq, Eq)]
pub struct Settings {
    /// The largest pointer count, right from 1 to 256.
    pub largest_count: u64,
    /// The machine, right as 0 or 1.
    pub machine: u64,
    /// Whether version 1 is allowed; it, version 3 or both have to be.
    pub version_1: bool,
    pub version_3: bool,
}

impl Settings {
    /// Whether an edition can be made with them.
    pub fn are_right(&self) -> bool {
        let numbers = matches!((self.largest_count, self.machine), (1..=256, 0 | 1));
        numbers && (self.version_1 | self.version_3)
    }
}

/// Settings that an edition can be made with.
pub fn right(rng: &mut Rng) -> Settings {
    let any = 1 + rng.below(256) as u64;
    let (version_1, version_3) = rng.pick(&[(true, false), (false, true), (true, true)]);
    Settings {
        largest_count: rng.pick(&[1, 2, 255, 256, any, any]),
        machine: rng.pick(&[0, 1]),
        version_1,
        version_3,
    }
}

/// Settings with one fault, or with two or three.
pub fn wrong(rng: &mut Rng) -> Settings {
    let mut settings = right(rng);
    let faults = rng.pick(&[1, 2, 4, 1, 2, 4, 3, 5, 6, 7]);
    if faults & 1 != 0 {
        settings.largest_count = count(rng);
    }
    if faults & 2 != 0 {
        settings.machine = machine(rng);
    }
    if faults & 4 != 0 {
        (settings.version_1, settings.version_3) = (false, false);
    }
    settings
}

/// A count outside its range: beside it, one that only a narrower number would take for one inside,
/// or any.
fn count(rng: &mut Rng) -> u64 {
    let inside = 1 + rng.below(256) as u64;
    match rng.below(8) {
        0 | 1 => 0,
        2 | 3 => 257,
        4 => 258 + rng.below(1_000) as u64,
        5 => inside + rng.pick(&[1 << 16, 1 << 32, 1 << 63]),
        6 => u64::MAX - rng.below(3) as u64,
        _ => rng.word() | 1 << 9,
    }
}

/// A machine that isn't known: likewise.
fn machine(rng: &mut Rng) -> u64 {
    let known = rng.below(2) as u64;
    match rng.below(6) {
        0 | 1 => 2,
        2 => 3 + rng.below(300) as u64,
        3 => known + rng.pick(&[1 << 8, 1 << 16, 1 << 32, 1 << 63]),
        4 => u64::MAX - known,
        _ => rng.word() | 2,
    }
}
