//! The worked rows A to H, written out by hand, also as version 1 has them, and the samples that the
//! repository ships.

mod rows;

use generator::layout::{Function, Location, Record, Section};
use generator::listings::Listed;
use generator::Version;
use rows::{c_and_zero, c_with, h_1_listing, C, H, H_1, H_LISTING};
use std::fs;
use std::path::Path;
use treskibben::{ContentPlace, Found, LocationKind, Refusal};

/// Number and place of the answer; both 0 where the section is accepted.
fn answer(section: &[u8]) -> (u64, u64) {
    match treskibben::check(section) {
        Ok(()) => (0, 0),
        Err(refusal) => (refusal.number(), refusal.place()),
    }
}

#[test]
fn rows_a_to_h() {
    assert_eq!(answer(&[]), (1, 0), "A");
    assert_eq!(answer(&C[..15]), (1, 0), "B");
    assert_eq!(answer(&C), (0, 0), "C");
    assert_eq!(answer(&c_with(0, 2)), (2, 0), "D");
    assert_eq!(answer(&c_and_zero()), (9, 16), "E");
    assert_eq!(answer(&c_with(12, 1)), (5, 12), "F");
    assert_eq!(answer(&c_with(4, 1)), (4, 16), "G");
    assert_eq!(answer(&H), (0, 0), "H");
}

/// Row D with every first byte: 1 and 3 alone are versions.
#[test]
fn every_version() {
    for version in 0..=255 {
        let expected = if [1, 3].contains(&version) { 0 } else { 2 };
        assert_eq!(answer(&c_with(0, version)), (expected, 0), "{version}");
        // Before any other fault, but not before the length.
        let mut faulty = c_with(0, version);
        faulty[1..].fill(0xff);
        let expected = if expected == 0 { (3, 1) } else { (2, 0) };
        assert_eq!(answer(&faulty), expected, "{version}");
        assert_eq!(answer(&faulty[..15]), (1, 0), "{version}");
    }
}

#[test]
fn rows_a_to_h_in_version_1() {
    let mut c = c_with(0, 1);
    assert_eq!(answer(&c[..15]), (1, 0), "B");
    assert_eq!(answer(&c), (0, 0), "C");
    assert_eq!(answer(&[&c[..], &[0]].concat()), (9, 16), "E");
    c[12] = 1;
    assert_eq!(answer(&c), (4, 16), "F: the record is missed at the end");
    c[4] = 1;
    c[12] = 0;
    assert_eq!(answer(&c), (4, 16), "G");
    assert_eq!(answer(&H_1), (0, 0), "H");
    // Any size; nothing is required to be zero in a location.
    for size in 0..=255 {
        let mut section = H_1;
        section[97] = size;
        assert_eq!(answer(&section), (0, 0));
        let slot = treskibben::location(&section, 0, 6).expect("the last slot");
        assert_eq!(
            (slot.size, slot.register, slot.offset),
            (size.into(), 7, 16)
        );
    }
}

const FOUND: Found = Found {
    record: 0,
    function: 0,
    sharing: 1,
};

fn refused(number: u64) -> Option<(u64, u64)> {
    Some((number, 0))
}

fn of(refusal: Refusal) -> (u64, u64) {
    (refusal.number(), refusal.place())
}

#[test]
fn finding_on_row_h() {
    assert_eq!(treskibben::find(&H, 0x1020), Ok(FOUND));
    for address in [0, 0x20, 0x1000, 0x101f, 0x1021, u64::MAX] {
        assert_eq!(treskibben::find(&H, address).err().map(of), refused(10));
        assert_eq!(treskibben::find(&H_1, address).err().map(of), refused(27));
    }
    assert_eq!(treskibben::find(&H_1, 0x1020).err().map(of), refused(27));
    assert_eq!(treskibben::find_in_function(&H_1, 0, 0x20), Ok(FOUND));
    let nowhere = [(1, 0x20), (u64::MAX, 0x20), (1 << 32, 0x20), (0, 0x1020)];
    for (function, offset) in nowhere.into_iter().chain([(0, 0), (0, (1 << 32) + 0x20)]) {
        let ask = |section| treskibben::find_in_function(section, function, offset);
        assert_eq!(ask(&H_1).err().map(of), refused(10));
        assert_eq!(ask(&H).err().map(of), refused(27));
    }
    let mut damaged = H_1;
    damaged[96] = 9;
    let found = treskibben::find(&damaged, 0x1020);
    assert_eq!(found.err().map(of), Some((6, 96)), "before 27");
}

#[test]
fn questions_on_row_h() {
    for (section, first) in [(&H[..], 40), (&H_1, 32)] {
        questions(section, first);
    }
}

/// The questions by number on row H in either version, whose record begins there.
fn questions(section: &[u8], first: usize) {
    let bytes = treskibben::record(section, 0).expect("record 0");
    assert!(std::ptr::eq(bytes, &section[first..]));
    assert_eq!(treskibben::record(section, 1).err().map(of), refused(10));
    for (number, offset) in [0, 0, 0, 8, 8, 8, 16].into_iter().enumerate() {
        let (kind, register, content) = match number {
            0..3 => (LocationKind::Constant, 0, ContentPlace::Nowhere),
            _ => (LocationKind::Indirect, 7, ContentPlace::Memory),
        };
        let expected = treskibben::Location {
            kind,
            size: 8,
            register,
            offset,
            constant: 0,
            content,
        };
        assert_eq!(
            treskibben::location(section, 0, number as u64),
            Ok(expected)
        );
    }
    let location = |record, number| treskibben::location(section, record, number);
    let live_out = |record, number| treskibben::live_out(section, record, number);
    assert_eq!(location(0, 7).err().map(of), refused(11));
    assert_eq!(live_out(0, 0).err().map(of), refused(11));
    assert_eq!(location(1, 7).err().map(of), refused(10));
    assert_eq!(live_out(1, 0).err().map(of), refused(10));
}

#[test]
fn listings_of_rows_c_and_h() {
    for (section, listing) in [
        (&C[..], &[6][..]),
        (&H, &H_LISTING),
        (&c_with(0, 1), &[7, 1, 6]),
        (&H_1, &h_1_listing()),
    ] {
        assert_eq!(treskibben::listing_of(section).as_deref(), Ok(listing));
        assert_eq!(treskibben::section_of(listing).as_deref(), Ok(section));
        let mut output = [0xaa; 200];
        assert_eq!(
            treskibben::to_listing(section, &mut output),
            Ok(listing.len())
        );
        assert_eq!(output[..listing.len()], *listing);
        assert_eq!(output[listing.len()..], [0xaa; 200][listing.len()..]);
        let mut output = [0xaa; 200];
        assert_eq!(
            treskibben::to_section(listing, &mut output),
            Ok(section.len())
        );
        assert_eq!(output[..section.len()], *section);
        assert_eq!(output[section.len()..], [0xaa; 200][section.len()..]);
    }
}

/// What version 1 listings are refused by, at which items.
#[test]
fn listings_of_version_1_that_are_refused() {
    let refused = |listing: &[u8]| treskibben::section_of(listing).err().map(of);
    assert_eq!(refused(&[7]), Some((22, 0)));
    assert_eq!(refused(&[7, 1]), Some((22, 2)));
    assert_eq!(refused(&[7, 3, 6]), Some((22, 0)));
    assert_eq!(refused(&[7, 1, 7, 1, 6]), Some((22, 2)));
    assert_eq!(refused(&[6, 7, 1]), Some((22, 1)));
    let whole = h_1_listing();
    assert_eq!(refused(&whole), None);
    let with = |changes: &[(usize, u8)]| {
        let mut listing = whole.clone();
        changes
            .iter()
            .for_each(|(place, byte)| listing[*place] = *byte);
        refused(&listing)
    };
    // The function is at 2, the record at 27, the locations at 40 and every 10 bytes.
    let (count, size, kind) = ((19, 1), (103, 1), (41, 9));
    assert_eq!(with(&[count]), Some((28, 2)));
    assert_eq!(with(&[size]), Some((28, 100)));
    assert_eq!(with(&[size, count]), Some((28, 2)));
    assert_eq!(with(&[kind]), Some((6, 48)));
    assert_eq!(with(&[kind, size]), Some((28, 100)));
    assert_eq!(with(&[size, (110, 0)]), Some((22, 110)));
    assert_eq!(with(&[size, count, kind, (1, 2)]), Some((22, 0)));
}

/// Row H with RBX (DWARF 3) in place of its base slot: the first three of the four locations of its pairs, from
/// byte 92 on.
fn with_base_in_rbx() -> Vec<u8> {
    let mut section = H.to_vec();
    for location in section[92..128].chunks_exact_mut(12) {
        location.copy_from_slice(&[1, 0, 8, 0, 3, 0, 0, 0, 0, 0, 0, 0]);
    }
    section
}

#[test]
fn samples_are_the_rows() {
    let samples = Path::new(env!("CARGO_MANIFEST_DIR")).join("../samples");
    let rows = [
        ("c-empty", C.to_vec()),
        ("c-version-1", c_with(0, 1)),
        ("d-version-2", c_with(0, 2)),
        ("e-byte-after", c_and_zero()),
        ("f-record-missing", c_with(12, 1)),
        ("g-function-missing", c_with(4, 1)),
        ("h-statepoint", H.to_vec()),
        ("h-version-1", H_1.to_vec()),
        ("r-registers", with_base_in_rbx()),
    ];
    for (name, bytes) in rows {
        let sample = fs::read(samples.join(name).with_extension("section")).expect(name);
        assert_eq!(sample, bytes, "{name}");
    }
    let listing = |name| fs::read(samples.join(name)).expect("the listing");
    assert_eq!(listing("h-statepoint.listing"), H_LISTING);
    assert_eq!(listing("h-version-1.listing"), h_1_listing());
}

#[test]
fn the_generator_writes_row_h() {
    let constant = Location {
        kind: 4,
        size: 8,
        register: 0,
        offset: 0,
    };
    let slot = |offset| Location {
        kind: 3,
        size: 8,
        register: 7,
        offset,
    };
    let mut locations = vec![constant; 3];
    locations.extend([8, 8, 8, 16].map(slot));
    let mut section = Section {
        version: Version::Three,
        functions: vec![Function {
            address: 0x1000,
            stack_size: 24,
            record_count: 1,
        }],
        constants: vec![],
        records: vec![Record {
            id: 7,
            offset: 0x20,
            locations,
            live_outs: vec![],
        }],
    };
    assert_eq!(section.encode(), H);
    assert_eq!(section.length(), H.len());
    assert_eq!(Listed::of(&section).bytes, H_LISTING);
    section.version = Version::One;
    section.functions[0].record_count = 0;
    assert_eq!(section.encode(), H_1);
    assert_eq!(section.length(), H_1.len());
    assert_eq!(Listed::of(&section).bytes, h_1_listing());
}
