//! Sections that LLVM made, those of two maps too, and what an older LLVM would have made of them.

use crate::common::say;
use crate::outputs::{Outputs, Way};
use crate::sections;
use generator::listings::{item_length, FUNCTION, LOCATION, VERSION};
use generator::{Case, Rng};
use treskibben::{listing_of, section_of};

/// Each section whole and with any byte damaged; and its listing whole, damaged and cut.
#[test]
fn sections_of_llvm() {
    let mut outputs = Outputs::new(&mut Rng::new(1));
    let mut cases = 0;
    for built in sections::all() {
        explore_damaged(&mut outputs, Way::ToListing, &built.bytes, &mut cases);
        if let Ok(listing) = listing_of(&built.bytes) {
            explore_damaged(&mut outputs, Way::ToSection, &listing, &mut cases);
        }
    }
    say(&format!(
        "{cases} sections and listings of LLVM, whole and damaged"
    ));
}

/// The same functions, constants and records in version 1: the listings are made of those of LLVM's
/// sections, and the sections are made of the listings.
#[test]
fn sections_of_llvm_in_version_1() {
    let mut outputs = Outputs::new(&mut Rng::new(1));
    let (mut cases, mut sections) = (0, 0);
    for built in sections::single() {
        let listing = listing_of(&built.bytes).expect("LLVM makes whole sections");
        let older = as_version_1(&listing);
        let section = section_of(&older).expect("a listing of version 1");
        assert_eq!(section[0], 1);
        assert_eq!(section[4..16], built.bytes[4..16], "the same counts");
        assert_eq!(listing_of(&section).as_ref(), Ok(&older), "{}", built.name);
        explore_damaged(&mut outputs, Way::ToListing, &section, &mut cases);
        explore_damaged(&mut outputs, Way::ToSection, &older, &mut cases);
        sections += 1;
    }
    assert!(sections > 10, "only {sections} sections");
    say(&format!("{cases} of LLVM in version 1, whole and damaged"));
}

/// The listing with item 7 before it, without record counts, and with the low byte of each size.
fn as_version_1(listing: &[u8]) -> Vec<u8> {
    let mut older = listing.to_vec();
    let mut at = 0;
    while at < older.len() {
        let kind = older[at];
        let item = &mut older[at..at + item_length(kind)];
        match kind {
            FUNCTION => item[17..].fill(0),
            LOCATION => item[3] = 0,
            _ => {}
        }
        at += item_length(kind);
    }
    older.splice(0..0, [VERSION, 1]);
    older
}

/// The bytes as they are, with each byte damaged, and cut at each place.
fn explore_damaged(outputs: &mut Outputs, way: Way, bytes: &[u8], cases: &mut u64) {
    let mut explore = |bytes: Vec<u8>| {
        outputs.explore(way, &Case::open("made by LLVM", bytes), None);
        *cases += 1;
    };
    explore(bytes.to_vec());
    for place in 0..bytes.len() {
        explore(bytes[..place].to_vec());
        for flip in [0x01, 0x80, 0xff] {
            let mut damaged = bytes.to_vec();
            damaged[place] ^= flip;
            explore(damaged);
        }
    }
}
