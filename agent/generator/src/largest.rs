//! Sections of the largest length, and ones that are a byte too long.

use crate::edges::{record, Visit};
use crate::layout::{Function, Section, Version, LARGEST};
use crate::{of_length_in, Case, Rng};

/// Hands over all of them; the seed decides the one that is random.
pub fn all(seed: u64, visit: Visit) {
    zeros(visit);
    visit(Case::known("largest, ones", vec![0xff; LARGEST], 2, 0));
    visit(Case::known(
        "over the largest, ones",
        vec![0xff; LARGEST + 1],
        1,
        0,
    ));
    sections(seed, &mut |section| whole(section, visit));
}

/// Hands over whole sections of exactly the largest length, with as many functions, constants or
/// records as there can be, and a random one; four of each version.
pub fn sections(seed: u64, visit: &mut dyn FnMut(&Section)) {
    for version in Version::ALL {
        visit(&functions(version));
        visit(&constants(version));
        visit(&records(version));
        visit(&of_length_in(&mut Rng::new(seed), version, LARGEST));
    }
}

/// Zeros after a first byte.
fn zeros(visit: Visit) {
    for (first, number, place) in [(0, 2, 0), (1, 9, 16), (2, 2, 0), (3, 9, 16)] {
        let mut bytes = vec![0; LARGEST];
        bytes[0] = first;
        visit(Case::known("largest, zeros", bytes.clone(), number, place));
        bytes.push(0);
        visit(Case::known("over the largest, zeros", bytes, 1, 0));
    }
}

fn function(record_count: u64) -> Function {
    Function {
        address: 0,
        stack_size: 0,
        record_count,
    }
}

/// As many functions as there can be.
fn functions(version: Version) -> Section {
    let count = match version {
        Version::One => 1_048_575,
        Version::Three => 699_050,
    };
    Section {
        version,
        functions: vec![function(0); count],
        ..Section::default()
    }
}

/// As many constants as there can be.
fn constants(version: Version) -> Section {
    Section {
        version,
        constants: vec![5; 2_097_150],
        ..Section::default()
    }
}

/// As many records as there can be beside a function. In version 1 that is shorter by a constant.
fn records(version: Version) -> Section {
    let (records, constants) = match version {
        Version::One => (0, vec![5]),
        Version::Three => (699_049, vec![]),
    };
    Section {
        version,
        functions: vec![function(records)],
        constants,
        records: vec![record(3, 0, 0); 699_049],
    }
}

/// A section of exactly the largest length: as it is, a byte too long, and a byte too short.
fn whole(section: &Section, visit: Visit) {
    let mut bytes = section.encode();
    assert_eq!(bytes.len(), LARGEST);
    visit(Case::known("largest", bytes.clone(), 0, 0));
    bytes.push(0);
    visit(Case::known("over the largest", bytes.clone(), 1, 0));
    bytes.truncate(LARGEST - 1);
    visit(Case::open("largest, cut", bytes));
}
