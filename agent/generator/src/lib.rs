//! Random stack map sections, listings and address indexes for tests and benchmarks, of versions 1 and
//! 3, and flat sections: whole ones, and damaged ones. Also sequences of calls on a store of editions,
//! reports over lists of sections, frames and threads to be moved, traces of recorded moves, linked
//! sections, and stacks in several pieces.
//!
//! Everything is made from a seed, so that a run can be had again. The encoder is this package's
//! own: where it says what a section must be answered, that is one more opinion beside those of
//! the library and of the second implementation.

pub mod aimed;
pub mod arranged;
pub mod asked;
pub mod damage;
pub mod edges;
pub mod editions;
pub mod flat;
pub mod frames;
pub mod indexes;
pub mod largest;
pub mod layout;
pub mod linked;
pub mod listings;
pub mod older;
pub mod questions;
pub mod reports;
pub mod rng;
pub mod traces;
pub mod valid;

pub use layout::{Section, Version};
pub use rng::Rng;

/// The bytes of a section, whole or not.
#[derive(Clone, Debug)]
pub struct Case {
    /// How it was made.
    pub name: &'static str,
    pub bytes: Vec<u8>,
    /// The answer, where it is known beforehand: number and place, both 0 for a whole section.
    pub answer: Option<(u64, u64)>,
}

impl Case {
    /// A case with a known answer.
    pub fn known(name: &'static str, bytes: Vec<u8>, number: u64, place: usize) -> Case {
        Case {
            name,
            bytes,
            answer: Some((number, place as u64)),
        }
    }

    /// A case whose answer nobody has worked out.
    pub fn open(name: &'static str, bytes: Vec<u8>) -> Case {
        Case {
            name,
            bytes,
            answer: None,
        }
    }
}

/// A random case of either version: whole, aimed at one refusal or at several, damaged at random, or
/// noise.
pub fn case(rng: &mut Rng) -> Case {
    let version = rng.pick(&Version::ALL);
    case_in(rng, version)
}

/// A random case that is made of a section of this version.
pub fn case_in(rng: &mut Rng, version: Version) -> Case {
    let section = match rng.below(4_096) {
        0 => medium(rng, version),
        _ => section_in(rng, version),
    };
    case_of(rng, &section)
}

/// A random whole section of this version.
pub fn section_in(rng: &mut Rng, version: Version) -> Section {
    match version {
        Version::One => older::section(rng),
        Version::Three => valid::section(rng),
    }
}

/// A random whole section of this version, many of whose records have the same address or offset.
pub fn crowded_in(rng: &mut Rng, version: Version) -> Section {
    match version {
        Version::One => older::crowded(rng),
        Version::Three => valid::crowded(rng),
    }
}

/// A random whole section of this version with exactly so many bytes, as `of_length` of its module
/// makes it.
pub fn of_length_in(rng: &mut Rng, version: Version, length: usize) -> Section {
    match version {
        Version::One => older::of_length(rng, length),
        Version::Three => valid::of_length(rng, length),
    }
}

/// A random case that is made of this section. Where it is known to be accepted, its bytes are
/// those of the section.
pub fn case_of(rng: &mut Rng, section: &Section) -> Case {
    match rng.below(16) {
        0 | 1 => Case::known("whole", section.encode(), 0, 0),
        2..=8 => aimed(rng, section),
        9 | 10 => aimed_twice(rng, section),
        11 => Case::open("noise", noise(rng, section.version)),
        _ => damaged(rng, section),
    }
}

/// A whole section of up to 64 kB.
fn medium(rng: &mut Rng, version: Version) -> Section {
    let length = layout::HEADER + 8 * rng.below(8_192);
    of_length_in(rng, version, length)
}

/// A case with one fault.
fn aimed(rng: &mut Rng, section: &Section) -> Case {
    let mut built = section.build();
    let number = rng.pick(aimed::numbers(section.version));
    match aimed::aim(rng, number, section, &mut built) {
        Some(place) => Case::known("one fault", built.bytes, number, place),
        None => Case::known("whole", built.bytes, 0, 0),
    }
}

/// A case with two or three faults: which is given depends on their order.
fn aimed_twice(rng: &mut Rng, section: &Section) -> Case {
    let mut built = section.build();
    for _ in 0..2 + rng.below(2) {
        let number = rng.pick(&aimed::numbers(section.version)[1..]);
        aimed::aim(rng, number, section, &mut built);
    }
    Case::open("several faults", built.bytes)
}

/// A case with one to three damages.
fn damaged(rng: &mut Rng, section: &Section) -> Case {
    let mut built = section.build();
    let version = rng.pick(&Version::ALL);
    let other = section_in(rng, version).encode();
    for _ in 0..=rng.below(3) {
        damage::damage(rng, &mut built, &other);
    }
    Case::open("damaged", built.bytes)
}

/// Bytes that are no section, after a header with small counts that is mostly right.
fn noise(rng: &mut Rng, version: Version) -> Vec<u8> {
    let mut bytes = vec![version.number(), 0, 0, 0];
    for _ in 0..3 {
        let count = rng.pick(&[0u32, 0, 1, 1, 2, u32::MAX]);
        bytes.extend_from_slice(&count.to_le_bytes());
    }
    let zeros = 1 + rng.below(8);
    for _ in 0..rng.below(160) {
        let byte = if rng.below(8) < zeros { 0 } else { rng.byte() };
        bytes.push(byte);
    }
    if rng.one_in(8) {
        bytes[0] = rng.byte();
    }
    bytes
}

#[cfg(test)]
mod tests {
    use super::*;

    #[test]
    fn a_seed_decides_every_case() {
        let cases = |seed, part| {
            let mut rng = Rng::part(seed, part);
            (0..500).map(|_| case(&mut rng).bytes).collect::<Vec<_>>()
        };
        assert_eq!(cases(1, 0), cases(1, 0));
        assert_ne!(cases(1, 0), cases(2, 0));
        assert_ne!(cases(1, 0), cases(1, 1));
    }

    #[test]
    fn lengths_are_as_asked_for() {
        let mut rng = Rng::new(1);
        for length in (16..4_000).step_by(8) {
            for version in Version::ALL {
                let section = of_length_in(&mut rng, version, length);
                assert_eq!((section.length(), section.encode().len()), (length, length));
                assert_eq!(section.encode()[0], version.number());
            }
        }
    }

    #[test]
    fn aims_leave_a_section_whole_where_they_fail() {
        let mut rng = Rng::new(1);
        for number in 1..=9 {
            for _ in 0..1_000 {
                let version = rng.pick(&Version::ALL);
                let section = section_in(&mut rng, version);
                let mut built = section.build();
                let hit = aimed::aim(&mut rng, number, &section, &mut built).is_some();
                assert_eq!(hit, built.bytes != section.encode(), "{number}");
                assert!(!hit || aimed::numbers(version).contains(&number));
            }
        }
    }

    #[test]
    fn sections_of_version_1_say_nothing_that_it_has_no_room_for() {
        let mut rng = Rng::new(1);
        for nth in 0..2_000 {
            let section = match nth % 3 {
                0 => older::section(&mut rng),
                1 => older::crowded(&mut rng),
                _ => older::of_length(&mut rng, 16 + 8 * nth),
            };
            assert!(section.functions.iter().all(|f| f.record_count == 0));
            let mut locations = section.records.iter().flat_map(|r| &r.locations);
            assert!(locations.all(|location| location.size <= 255));
        }
    }
}
