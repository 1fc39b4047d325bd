//! Damages that aim at one refusal. On a section without fault each gives exactly that refusal,
//! and says at which place.

use crate::layout::{Built, Section, Version, CONSTANT, COUNTS, HEADER};
use crate::rng::Rng;

/// The largest number of locations, or of live-outs, that a record can state.
const MOST: usize = 65_535;

/// Kinds that no location has.
pub(crate) const WRONG_KINDS: [u8; 6] = [0, 6, 7, 0x80, 0x85, 0xff];

/// The first bytes, of all 254, that are most easily taken for a version.
const WRONG_VERSIONS: [u64; 8] = [0, 2, 4, 7, 0x13, 0x81, 0x83, 0xff];

/// The refusals that a section of this version can have.
pub fn numbers(version: Version) -> &'static [u64] {
    match version {
        Version::One => &[1, 2, 3, 4, 6, 7, 9],
        Version::Three => &[1, 2, 3, 4, 5, 6, 7, 8, 9],
    }
}

/// Damages `built`, the bytes of `section`, so that the check gives this refusal, 1 to 9, and says
/// at which place it does. `None` where the section has no part that can be damaged so, as none of
/// version 1 can be for 5 and 8; its bytes are then as they were.
pub fn aim(rng: &mut Rng, number: u64, section: &Section, built: &mut Built) -> Option<usize> {
    match number {
        1 => short(rng, built),
        2 => version(rng, built),
        3 => not_zero(rng, built),
        4 => not_inside(rng, section, built),
        5 => counts(rng, section, built),
        6 => kind(rng, built),
        7 => const_index(rng, section, built),
        8 => address(rng, section, built),
        9 => growth(rng, built),
        _ => None,
    }
}

fn short(rng: &mut Rng, built: &mut Built) -> Option<usize> {
    built.bytes.truncate(rng.below(HEADER));
    Some(0)
}

fn version(rng: &mut Rng, built: &mut Built) -> Option<usize> {
    let any = loop {
        let any = rng.byte();
        if !Version::ALL.iter().any(|version| version.number() == any) {
            break any.into();
        }
    };
    let version = match rng.below(2) {
        0 => any,
        _ => rng.pick(&WRONG_VERSIONS),
    };
    built.set(0, 1, version);
    Some(0)
}

/// One to three bytes that must be zero; the first of them is the place.
fn not_zero(rng: &mut Rng, built: &mut Built) -> Option<usize> {
    let mut first = usize::MAX;
    let records = built.zeros.len() > 3 && !rng.one_in(6);
    for _ in 0..=rng.below(3) {
        let nth = if records {
            3 + rng.below(built.zeros.len() - 3)
        } else {
            rng.below(3)
        };
        let place = built.zeros[nth];
        let value = rng.pick(&[1, 2, 3, 0x80, 0xff]);
        built.set(place, 1, value);
        first = first.min(place);
    }
    Some(first)
}

fn not_inside(rng: &mut Rng, section: &Section, built: &mut Built) -> Option<usize> {
    match rng.below(6) {
        0 => many_functions(rng, built),
        1 => many_constants(rng, section, built),
        2 => many_locations(rng, built),
        3 => many_live_outs(rng, built),
        4 if section.version == Version::One => many_records(rng, section, built),
        _ => cut(rng, section, built),
    }
}

/// A number above `most`, up to the largest of `bits` bits, if there is one.
fn above(rng: &mut Rng, most: usize, bits: u32) -> Option<u64> {
    let largest = u64::MAX >> (64 - bits);
    let room = largest.checked_sub(most as u64 + 1)?;
    Some(match rng.below(3) {
        0 => most as u64 + 1,
        1 => largest,
        _ => most as u64 + 1 + rng.number(bits).min(room),
    })
}

fn many_functions(rng: &mut Rng, built: &mut Built) -> Option<usize> {
    let function = built.version.function();
    let inside = built.bytes.len().checked_sub(HEADER)? / function;
    let count = above(rng, inside, 32)?;
    built.set(COUNTS[0], 4, count);
    Some(HEADER + function * inside)
}

fn many_constants(rng: &mut Rng, section: &Section, built: &mut Built) -> Option<usize> {
    let start = section.constants_at();
    let inside = built.bytes.len().checked_sub(start)? / CONSTANT;
    let count = above(rng, inside, 32)?;
    built.set(COUNTS[1], 4, count);
    Some(start + CONSTANT * inside)
}

/// More records than there are, which version 1 misses at the section's end.
fn many_records(rng: &mut Rng, section: &Section, built: &mut Built) -> Option<usize> {
    let count = above(rng, section.records.len(), 32)?;
    built.set(COUNTS[2], 4, count);
    Some(built.bytes.len())
}

fn many_locations(rng: &mut Rng, built: &mut Built) -> Option<usize> {
    let start = built
        .records
        .get(rng.below(built.records.len().max(1)))?
        .start;
    let inside = built.bytes.len().checked_sub(start + 20)? / built.version.location();
    let count = above(rng, inside.min(MOST), 16)?;
    built.set(start + 14, 2, count);
    Some(start)
}

fn many_live_outs(rng: &mut Rng, built: &mut Built) -> Option<usize> {
    let spot = built
        .records
        .get(rng.below(built.records.len().max(1)))?
        .clone();
    let inside = built.bytes.len().checked_sub(spot.out_count + 2)? / 4;
    let count = above(rng, inside.min(MOST), 16)?;
    built.set(spot.out_count, 2, count);
    Some(spot.start)
}

/// Cuts the section behind its header, in the middle of an item or between two.
fn cut(rng: &mut Rng, section: &Section, built: &mut Built) -> Option<usize> {
    let end = built.bytes.len();
    if end <= HEADER {
        return None;
    }
    let length = HEADER + rng.below(end - HEADER);
    built.bytes.truncate(length);
    Some(item_at(section, built, length))
}

/// The first byte of the item that the byte at `place`, behind the header, is a part of.
pub fn item_at(section: &Section, built: &Built, place: usize) -> usize {
    let (constants, records) = (section.constants_at(), section.records_at());
    if place < constants {
        place - (place - HEADER) % section.version.function()
    } else if place < records {
        place - (place - constants) % CONSTANT
    } else {
        let after = built.records.partition_point(|r| r.start <= place);
        after
            .checked_sub(1)
            .map_or(place, |nth| built.records[nth].start)
    }
}

/// Counts whose exact sum isn't NumRecords, also where it is so modulo 2^32 or 2^64.
fn counts(rng: &mut Rng, section: &Section, built: &mut Built) -> Option<usize> {
    if section.version == Version::One {
        return None;
    }
    let functions = section.functions.len();
    let records = section.records.len() as u64;
    match rng.below(3) {
        0 if functions >= 2 => wrapping_counts(rng, section, built),
        1 if functions >= 1 => {
            let nth = rng.below(functions);
            let old = section.functions[nth].record_count;
            let large = [old + (1 << 32), old + (1 << 63), u64::MAX, u64::MAX - old];
            let new = if rng.one_in(2) {
                beside(rng, old)
            } else {
                rng.pick(&large)
            };
            built.set(built.functions[nth] + 16, 8, new);
        }
        _ => {
            let new = if rng.one_in(2) {
                beside(rng, records)
            } else {
                u64::from(u32::MAX)
            };
            built.set(COUNTS[2], 4, new);
        }
    }
    Some(COUNTS[2])
}

/// 0 or a number near `old`, and not `old` itself.
pub(crate) fn beside(rng: &mut Rng, old: u64) -> u64 {
    let above = old.wrapping_add(1);
    let new = rng.pick(&[0, above, old.wrapping_add(2), old.saturating_sub(1)]);
    if new == old {
        above
    } else {
        new
    }
}

/// Two counts that bring the sum to NumRecords plus 2^64.
fn wrapping_counts(rng: &mut Rng, section: &Section, built: &mut Built) {
    let functions = section.functions.len();
    let first = rng.below(functions);
    let second = (first + 1 + rng.below(functions - 1)) % functions;
    let both = section.functions[first].record_count + section.functions[second].record_count;
    let large = rng.pick(&[1 << 63, u64::MAX, u64::MAX - 1, both + 1, (1 << 32) + both]);
    built.set(built.functions[first] + 16, 8, large);
    built.set(built.functions[second] + 16, 8, both.wrapping_sub(large));
}

fn kind(rng: &mut Rng, built: &mut Built) -> Option<usize> {
    let place = *built
        .locations
        .get(rng.below(built.locations.len().max(1)))?;
    let kind = rng.pick(&WRONG_KINDS);
    built.set(place, 1, kind.into());
    Some(place)
}

/// An index at or beyond the pool's end, or one that is negative.
fn const_index(rng: &mut Rng, section: &Section, built: &mut Built) -> Option<usize> {
    let place = *built
        .locations
        .get(rng.below(built.locations.len().max(1)))?;
    let index = large_index(rng, section.constants.len());
    built.set(place, 1, 5);
    built.set(place + built.version.offset(), 4, index.into());
    Some(place)
}

/// An offset that is the number of no entry of a pool of this length.
pub(crate) fn large_index(rng: &mut Rng, pool: usize) -> u32 {
    let pool = pool as u32;
    let edges = [
        pool,
        pool,
        pool + 1,
        0x7fff_ffff,
        0x8000_0000,
        0x8000_0001,
        0xffff_ffff,
    ];
    rng.pick(&edges)
}

/// A function so high that one of its records lies beyond 2^64 - 1; the place is the first that does.
fn address(rng: &mut Rng, section: &Section, built: &mut Built) -> Option<usize> {
    let mut offsets: Vec<u32> = section.records.iter().map(|r| r.offset).collect();
    let record = rng.below(offsets.len().max(1));
    let (owner, first) = owner(section, record)?;
    if offsets[record] == 0 {
        offsets[record] = rng.pick(&[1, 2, 0x8000_0000, u32::MAX]);
        built.set(built.records[record].start + 8, 4, offsets[record].into());
    }
    let least = u64::MAX - u64::from(offsets[record]) + 1;
    let address = if rng.one_in(2) {
        least
    } else {
        least + rng.number(32).min(u64::MAX - least)
    };
    built.set(built.functions[owner], 8, address);
    let beyond = |r: &usize| u64::from(offsets[*r]) > u64::MAX - address;
    (first..=record)
        .find(beyond)
        .map(|r| built.records[r].start)
}

/// The function that a record belongs to, and the first record of that function. In version 1 a
/// record belongs to none.
pub(crate) fn owner(section: &Section, record: usize) -> Option<(usize, usize)> {
    let mut first: usize = 0;
    for (nth, function) in section.functions.iter().enumerate() {
        let next = first.saturating_add(function.record_count as usize);
        if record < next {
            return Some((nth, first));
        }
        first = next;
    }
    None
}

/// Bytes after the last record: zeros, any, or the section a second time; in version 1 also records
/// that are not counted.
fn growth(rng: &mut Rng, built: &mut Built) -> Option<usize> {
    let end = built.bytes.len();
    if built.version == Version::One && !built.records.is_empty() && rng.one_in(3) {
        let count = rng.below(built.records.len());
        built.set(COUNTS[2], 4, count as u64);
        return Some(built.records[count].start);
    }
    if rng.one_in(4) {
        built.bytes.extend_from_within(..);
        return Some(end);
    }
    let zeros = rng.one_in(2);
    for _ in 0..=rng.below(40) {
        built.bytes.push(if zeros { 0 } else { rng.byte() });
    }
    Some(end)
}
