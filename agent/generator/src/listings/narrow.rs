//! Version 1 listings that say more than such a section has room for: a record count other than 0, or
//! a size over 255. They are refused by 28.

use super::{several, Listed, FUNCTION, LOCATION};
use crate::layout::Section;
use crate::{Case, Rng};

/// What there is no room for.
#[derive(Clone, Copy, Debug, PartialEq, Eq)]
pub enum Beyond {
    Count,
    Size,
    Both,
}

impl Beyond {
    /// All of them.
    pub const ALL: [Beyond; 3] = [Beyond::Count, Beyond::Size, Beyond::Both];

    /// It in words, which is the name of its cases.
    pub fn name(self) -> &'static str {
        match self {
            Beyond::Count => "a record count in version 1",
            Beyond::Size => "a size over 255 in version 1",
            Beyond::Both => "a record count and a size over 255 in version 1",
        }
    }
}

/// A random listing of this section with more than it has room for; the section that it says would
/// often be refused too. Whole where there is nothing to say it of.
pub fn case(rng: &mut Rng, mut section: Section) -> Case {
    let beyond = rng.pick(&Beyond::ALL);
    if widen(rng, beyond, &mut section).is_none() {
        return Case::known("whole", Listed::of(&section).bytes, 0, 0);
    }
    if rng.one_in(3) {
        section = several(rng, &section);
    }
    let listed = Listed::of(&section);
    let place = first_beyond(&listed).expect("one was widened");
    Case::known(beyond.name(), listed.bytes, 28, place)
}

/// Gives some of the section's functions a record count, or some of its locations a size over 255, and
/// says where the first of them stands in its listing. `None` where it has none of them; it is then as
/// it was.
pub fn widen(rng: &mut Rng, beyond: Beyond, section: &mut Section) -> Option<usize> {
    let locations: usize = section.records.iter().map(|r| r.locations.len()).sum();
    let (counts, sizes) = (beyond != Beyond::Size, beyond != Beyond::Count);
    if counts && section.functions.is_empty() || sizes && locations == 0 {
        return None;
    }
    for _ in 0..1 + rng.below(3) {
        if counts {
            let nth = rng.below(section.functions.len());
            let count = rng.number(64).max(1);
            section.functions[nth].record_count = rng.pick(&[1, count, 1 << 32, 1 << 56, 1 << 63]);
        }
        if sizes {
            let nth = rng.below(locations);
            let mut all = section.records.iter_mut().flat_map(|r| &mut r.locations);
            let location = all.nth(nth).expect("so many there are");
            let size = rng.number(16).max(256) as u16;
            location.size = rng.pick(&[256, 257, 0x108, 0x8000, u16::MAX, size]);
        }
    }
    first_beyond(&Listed::of(section))
}

/// The first item of a version 1 listing that says more than there is room for.
pub fn first_beyond(listed: &Listed) -> Option<usize> {
    let beyond = |item: &&usize| {
        let bytes = &listed.bytes[**item..];
        match bytes[0] {
            FUNCTION => bytes[17..25] != [0; 8],
            LOCATION => bytes[3] != 0,
            _ => false,
        }
    };
    listed.items.iter().find(beyond).copied()
}
