//! Listings whose sections are about as long as a section can be, and listings about as long as one
//! can be.

use super::grammar::break_any;
use super::narrow::{self, Beyond};
use super::{faults, several, Listed};
use super::{CONSTANT, END, FUNCTION, LIVE_OUT, LONGEST, RECORD, VERSION};
use crate::edges::Visit;
use crate::layout::{Section, Version, HEADER, LARGEST};
use crate::{largest, layout, section_in, Case, Rng};

/// Hands over the ones that are costly to make; the seed decides the one that is random.
pub fn all(seed: u64, visit: Visit) {
    largest::sections(seed, &mut |section| {
        let mut bytes = Listed::of(section).bytes;
        let end = bytes.len();
        visit(Case::known("of the largest section", bytes.clone(), 0, 0));
        bytes.push(0);
        visit(Case::known("and a byte", bytes, 22, end));
    });
    longest(visit);
}

/// A listing of exactly the longest length, with as many functions as make that possible.
fn of_longest_length(version: Version) -> Vec<u8> {
    let mut bytes = Vec::with_capacity(LONGEST + 1);
    let functions = match version {
        Version::One => {
            bytes.extend([VERSION, 1]);
            5
        }
        Version::Three => 4,
    };
    for _ in 0..functions {
        bytes.push(FUNCTION);
        bytes.extend([0; 24]);
    }
    while bytes.len() + 1 < LONGEST {
        bytes.push(CONSTANT);
        bytes.extend([5; 8]);
    }
    bytes.push(END);
    assert_eq!(bytes.len(), LONGEST);
    bytes
}

/// Listings of exactly the longest length, and a byte longer.
fn longest(visit: Visit) {
    let mut first = of_longest_length(Version::One);
    visit(Case::known("longest of version 1", first.clone(), 1, 0));
    first[2 + 25 + 17] = 1;
    visit(Case::known("longest, and a count", first.clone(), 28, 27));
    first.push(END);
    visit(Case::known("over the longest, and a count", first, 1, 0));
    let mut bytes = of_longest_length(Version::Three);
    visit(Case::known("longest", bytes.clone(), 1, 0));
    bytes[LONGEST - 1] = 0;
    visit(Case::known(
        "longest, no end",
        bytes.clone(),
        22,
        LONGEST - 1,
    ));
    bytes.push(END);
    visit(Case::known("over the longest", bytes.clone(), 1, 0));
    bytes.fill(0);
    visit(Case::known("over the longest, zeros", bytes.clone(), 1, 0));
    bytes.truncate(LONGEST);
    visit(Case::known("longest, zeros", bytes, 22, 0));
    visit(overfull());
}

/// The longest listing, with one record that has all its bytes but a few as live-outs.
fn overfull() -> Case {
    let mut bytes = vec![CONSTANT; 9 * 2];
    bytes.extend([RECORD; 13]);
    while bytes.len() + 1 < LONGEST {
        bytes.extend([LIVE_OUT; 4]);
    }
    bytes.push(END);
    assert_eq!(bytes.len(), LONGEST);
    Case::known("longest, overfull", bytes, 23, 18)
}

/// Listings whose sections are of the largest length or longer, cheap to make one after the other:
/// all begin with the same functions, which have no records.
pub struct Large {
    version: Version,
    bytes: Vec<u8>,
    /// The bytes of those functions, and of item 7 where there is one.
    base: usize,
    /// The bytes that the section has left for all else.
    left: usize,
}

impl Large {
    /// The functions, with numbers of this source.
    pub fn new(rng: &mut Rng, version: Version) -> Large {
        let functions = LARGEST / version.function() - 100;
        let mut bytes = Vec::with_capacity(25 * functions + 65_536);
        if version == Version::One {
            bytes.extend([VERSION, 1]);
        }
        for _ in 0..functions {
            bytes.push(FUNCTION);
            bytes.extend(rng.word().to_le_bytes());
            bytes.extend(rng.word().to_le_bytes());
            bytes.extend([0; 8]);
        }
        Large {
            version,
            base: bytes.len(),
            left: LARGEST - HEADER - version.function() * functions,
            bytes,
        }
    }

    /// A listing whose section is too long, by a little or more, and often has other faults.
    pub fn over(&mut self, rng: &mut Rng) -> &[u8] {
        let mut section = section_in(rng, self.version);
        self.pad(&mut section, layout::CONSTANT * (1 + rng.below(4)));
        if rng.one_in(2) {
            section = several(rng, &section);
        }
        self.with(&Listed::without_version(&section).bytes)
    }

    /// A listing that is refused by itself, and whose section would have the largest length or be too
    /// long: it breaks the grammar or, in version 1, says more than there is room for. Also number and
    /// place of its answer.
    pub fn broken(&mut self, rng: &mut Rng) -> (&[u8], u64, usize) {
        let mut section = section_in(rng, self.version);
        self.pad(&mut section, rng.below(2) * layout::CONSTANT);
        let beyond = rng.pick(&Beyond::ALL);
        let wide =
            self.version == Version::One && narrow::widen(rng, beyond, &mut section).is_some();
        let mut listed = Listed::without_version(&section);
        let (number, place) = match narrow::first_beyond(&listed) {
            Some(place) if wide && rng.one_in(2) => (28, place),
            _ => (22, break_any(rng, &mut listed)),
        };
        let place = self.base + place;
        (self.with(&listed.bytes), number, place)
    }

    /// A listing whose section has the largest length and, where it can, a fault; also number and
    /// place of its answer, both 0 where it has none.
    pub fn faulty(&mut self, rng: &mut Rng) -> (&[u8], u64, usize) {
        let mut section = section_in(rng, self.version);
        while self.length(&section) > self.left {
            section = section_in(rng, self.version);
        }
        self.pad(&mut section, 0);
        let number = rng.pick(faults::numbers(self.version));
        let place = faults::fault(rng, number, &mut section);
        // A record more, which is one of the faults, makes the section too long.
        let fits = self.length(&section) == self.left;
        // The places of this section's parts are those after the functions; 12 is in the header.
        let place = place.map(|place| match place {
            12 => place,
            _ => place + LARGEST - HEADER - self.left,
        });
        let bytes = self.with(&Listed::without_version(&section).bytes);
        match place {
            _ if !fits => (bytes, 1, 0),
            Some(place) => (bytes, number, place),
            None => (bytes, 0, 0),
        }
    }

    /// The functions, and then ends until the listing has so many bytes.
    pub fn longer(mut self, length: usize) -> Vec<u8> {
        self.bytes.truncate(self.base);
        self.bytes.resize(length, END);
        self.bytes
    }

    /// What a section's parts take, its header not counted.
    fn length(&self, section: &Section) -> usize {
        section.length() - HEADER
    }

    /// Adds constants until the section takes at least `more` bytes more than are left.
    fn pad(&self, section: &mut Section, more: usize) {
        let missing = (self.left + more).saturating_sub(self.length(section));
        let count = section.constants.len() + missing / layout::CONSTANT;
        section.constants.resize(count, 7);
    }

    /// The functions, and then these items.
    fn with(&mut self, items: &[u8]) -> &[u8] {
        self.bytes.truncate(self.base);
        self.bytes.extend_from_slice(items);
        &self.bytes
    }
}
