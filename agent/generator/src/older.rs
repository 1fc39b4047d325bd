//! Random version 1 sections that keep every rule. Version 1 has rules of its own: records belong to
//! no function, so that there may be records without functions and offsets of any size in functions
//! at any address, and sizes are one byte.

pub mod asked;
pub mod edges;

use crate::layout::{Function, Location, Record, Section, Version, CONSTANT, HEADER};
use crate::rng::Rng;
use crate::valid::{self, Shape};

/// A section of this shape. The number of records has nothing to do with that of functions.
pub fn shaped(rng: &mut Rng, shape: &Shape) -> Section {
    Section {
        version: Version::One,
        functions: (0..shape.functions).map(|_| function(rng)).collect(),
        constants: (0..shape.constants).map(|_| rng.number(64)).collect(),
        records: (0..shape.records).map(|_| record(rng, shape)).collect(),
    }
}

/// A random section of any shape.
pub fn section(rng: &mut Rng) -> Section {
    let shape = valid::shape(rng);
    shaped(rng, &shape)
}

fn function(rng: &mut Rng) -> Function {
    Function {
        address: valid::address(rng),
        stack_size: valid::stack_size(rng),
        record_count: 0,
    }
}

/// A record; its offset goes past the last address of many a function.
fn record(rng: &mut Rng, shape: &Shape) -> Record {
    let locations = rng.below(shape.locations + 1);
    let live_outs = rng.below(shape.live_outs + 1);
    Record {
        id: rng.number(64),
        offset: rng.number(32) as u32,
        locations: (0..locations)
            .map(|_| location(rng, shape.constants))
            .collect(),
        live_outs: (0..live_outs).map(|_| valid::live_out(rng)).collect(),
    }
}

/// A location of a section with so many constants, with any size of one byte.
fn location(rng: &mut Rng, constants: usize) -> Location {
    Location {
        size: rng.number(8) as u16,
        ..valid::location(rng, constants)
    }
}

/// A random section most of whose records have one of two offsets.
pub fn crowded(rng: &mut Rng) -> Section {
    let mut section = section(rng);
    let one = rng.number(32) as u32;
    let other = rng.pick(&[0, one.wrapping_add(1), u32::MAX]);
    for record in &mut section.records {
        record.offset = match rng.below(8) {
            0..=4 => one,
            5 | 6 => other,
            _ => record.offset,
        };
    }
    section
}

/// A section of exactly `length` bytes, which is a multiple of 8 and at least 16: functions, then
/// records of up to eight locations and four live-outs, and constants where a record no longer fits.
pub fn of_length(rng: &mut Rng, length: usize) -> Section {
    assert_eq!(length % 8, 0, "a section's length is a multiple of 8");
    let shape = Shape {
        functions: (length - HEADER) / 512,
        constants: 16,
        records: 0,
        locations: 8,
        live_outs: 4,
    };
    let mut left = length - HEADER;
    let tables = Version::One.function() * shape.functions + CONSTANT * shape.constants;
    let mut section = Section {
        version: Version::One,
        ..Section::default()
    };
    if left >= tables {
        section = shaped(rng, &shape);
        left -= tables;
        loop {
            let record = record(rng, &shape);
            let length = record.length(Version::One);
            if length > left {
                break;
            }
            left -= length;
            section.records.push(record);
        }
    }
    let more = (0..left / CONSTANT).map(|_| rng.word());
    section.constants.extend(more);
    section
}
