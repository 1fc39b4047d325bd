//! The bounds, and what the conversions would say of a library that is not the proved one.

use super::*;
use generator::edges::{function, record};
use generator::layout::{Section, Version};
use generator::listings::Listed;
use std::panic::catch_unwind;

/// The numbers of locations and of live-outs of a record.
type Shape = (usize, usize);

/// A section of this version with these numbers of functions and constants, and one record of each
/// shape. In version 3 the first function has them all.
fn section(version: Version, functions: u64, constants: usize, records: &[Shape]) -> Section {
    let count = |nth| match (version, nth) {
        (Version::Three, 0) => records.len() as u64,
        _ => 0,
    };
    let record = |(locations, live_outs): &Shape| record(1, *locations, *live_outs);
    Section {
        version,
        functions: (0..functions).map(|nth| function(0, count(nth))).collect(),
        constants: vec![7; constants],
        records: records.iter().map(record).collect(),
    }
}

/// The bound of the listing of a section of this version, by its length.
fn listing_most(version: Version, length: usize) -> usize {
    listing_bound(version.number(), length)
}

/// The lengths of its listing and of the section itself, both of which the library accepts.
fn lengths(section: &Section) -> (usize, usize) {
    let listing = Listed::of(section).bytes;
    let section = section.encode();
    assert_eq!(listing_of(&section).as_ref(), Ok(&listing));
    assert_eq!(section_of(&listing).as_ref(), Ok(&section));
    (listing.len(), section.len())
}

#[test]
fn constants_reach_the_bound_of_listings() {
    for constants in [0, 1, 2, 3, 100] {
        let (listing, section) = lengths(&section(Version::Three, 0, constants, &[]));
        assert_eq!(listing, listing_most(Version::Three, section));
    }
}

#[test]
fn functions_reach_the_bound_of_version_1_listings() {
    for functions in [0, 1, 2, 3, 100] {
        let (listing, section) = lengths(&section(Version::One, functions, 0, &[]));
        assert_eq!(listing, listing_most(Version::One, section));
    }
}

#[test]
fn bare_records_reach_the_bound_of_sections() {
    // The function, which there must be, stays below it by a bit over 22.
    for records in [1, 2, 3, 100] {
        let (listing, section) = lengths(&section(Version::Three, 1, 0, &vec![(0, 0); records]));
        assert!((section + 22..=section + 23).contains(&section_bound(listing)));
    }
    let (listing, section) = lengths(&section(Version::Three, 0, 0, &[]));
    assert_eq!(section_bound(listing), section);
}

#[test]
fn bare_records_of_version_1_come_near_the_bound_of_sections() {
    // No function has to be there; the item of the version stays below it by a bit under 4.
    for records in [0, 1, 2, 3, 100] {
        let (listing, section) = lengths(&section(Version::One, 0, 0, &vec![(0, 0); records]));
        assert_eq!(section_bound(listing), section + 3);
    }
}

#[test]
fn every_shape_is_inside_the_bounds() {
    for locations in 0..12 {
        for live_outs in 0..12 {
            for version in Version::ALL {
                let record = (locations, live_outs);
                inside_the_bounds(section(version, 1, 0, &[record]));
                inside_the_bounds(section(version, 1, 3, &[record; 9]));
                inside_the_bounds(section(version, locations as u64, live_outs, &[]));
            }
        }
    }
}

fn inside_the_bounds(shape: Section) {
    let (listing, section) = lengths(&shape);
    let most = listing_most(shape.version, section);
    assert!(listing <= most, "{shape:?}");
    assert!(section <= section_bound(listing), "{shape:?}");
}

#[test]
fn the_bounds_of_any_length_fit() {
    for length in [0, 1, 15, 16, 17, LISTING_MOST + 1, isize::MAX as usize] {
        assert!(listing_bound(3, length) <= 18_874_351);
        assert!(listing_bound(1, length) <= 26_214_378);
        assert!((16..=SECTION_MOST).contains(&section_bound(length)));
    }
    assert_eq!(listing_bound(3, SECTION_MOST), 9 * 2_097_150 + 1);
    assert_eq!(listing_bound(1, SECTION_MOST), 26_214_378);
    assert_eq!(section_bound(LISTING_MOST), SECTION_MOST);
}

#[test]
fn a_length_inside_the_output_is_answered() {
    for length in [0, 1, 10] {
        assert_eq!(inside(length, &[0; 10]), length as usize);
    }
}

#[test]
fn a_length_beyond_the_output_is_a_panic_that_says_so() {
    for length in [11, 1 << 32, u64::MAX] {
        let panic = catch_unwind(|| inside(length, &[0; 10])).expect_err("a panic");
        let text = panic.downcast::<String>().expect("a text");
        assert!(text.ends_with(&format!(" wrote {length} bytes to an output of 10")));
    }
}
