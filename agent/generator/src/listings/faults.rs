//! Faults of a section as data, for listings, which say nothing but data. Each gives a section
//! without fault exactly one refusal, at a place of the section's bytes.

use crate::aimed::{beside, large_index, owner, WRONG_KINDS};
use crate::edges::record;
use crate::layout::{Location, Section, Version, COUNTS};
use crate::rng::Rng;

/// The faults that a section of this version can have.
pub fn numbers(version: Version) -> &'static [u64] {
    match version {
        Version::One => &[6, 7],
        Version::Three => &[5, 6, 7, 8],
    }
}

/// Gives the section this fault, one of its version's, and says at which place the check then
/// refuses its bytes. `None` where it has no part that can have the fault; it is then as it was.
pub fn fault(rng: &mut Rng, number: u64, section: &mut Section) -> Option<usize> {
    match number {
        5 => counts(rng, section),
        6 => kind(rng, section),
        7 => const_index(rng, section),
        8 => address(rng, section),
        _ => None,
    }
}

/// Record counts whose exact sum isn't the number of records, also where it is so modulo 2^64.
fn counts(rng: &mut Rng, section: &mut Section) -> Option<usize> {
    let functions = section.functions.len();
    let place = Some(COUNTS[2]);
    if functions == 0 || rng.one_in(4) {
        section.records.push(record(0, 1, 1));
        return place;
    }
    let (first, second) = (rng.below(functions), rng.below(functions));
    let count = section.functions[first].record_count;
    if first == second {
        let large = [count.wrapping_add(1 << 32), 1 << 63, u64::MAX];
        section.functions[first].record_count = match rng.below(2) {
            0 => beside(rng, count),
            _ => rng.pick(&large),
        };
        return place;
    }
    let both = count.wrapping_add(section.functions[second].record_count);
    let large = rng.pick(&[1 << 63, u64::MAX, u64::MAX - 1]);
    section.functions[first].record_count = large;
    section.functions[second].record_count = both.wrapping_sub(large);
    place
}

/// One of the section's locations, and its number among them all.
fn some_location<'a>(rng: &mut Rng, section: &'a mut Section) -> Option<(usize, &'a mut Location)> {
    let locations = section.records.iter().map(|r| r.locations.len()).sum();
    let nth = (locations > 0).then(|| rng.below(locations))?;
    let all = section.records.iter_mut().flat_map(|r| &mut r.locations);
    all.enumerate().nth(nth)
}

fn kind(rng: &mut Rng, section: &mut Section) -> Option<usize> {
    let (nth, location) = some_location(rng, section)?;
    location.kind = rng.pick(&WRONG_KINDS);
    Some(section.build().locations[nth])
}

fn const_index(rng: &mut Rng, section: &mut Section) -> Option<usize> {
    let pool = section.constants.len();
    let (nth, location) = some_location(rng, section)?;
    location.kind = 5;
    location.offset = large_index(rng, pool);
    Some(section.build().locations[nth])
}

/// A function so high that one of its records lies beyond 2^64 - 1; the place is the first that does.
fn address(rng: &mut Rng, section: &mut Section) -> Option<usize> {
    let record = rng.below(section.records.len().max(1));
    let (owner, first) = owner(section, record)?;
    let offset = &mut section.records.get_mut(record)?.offset;
    if *offset == 0 {
        *offset = rng.pick(&[1, 2, 0x8000_0000, u32::MAX]);
    }
    let least = u64::MAX - u64::from(*offset) + 1;
    let address = least.saturating_add(if rng.one_in(2) { 0 } else { rng.number(32) });
    section.functions[owner].address = address;
    let beyond = |r: &usize| u64::from(section.records[*r].offset) > u64::MAX - address;
    let nth = (first..=record).find(beyond)?;
    Some(section.build().records[nth].start)
}
