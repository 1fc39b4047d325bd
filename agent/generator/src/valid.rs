//! Random version 3 sections that keep every rule, with numbers at their edges wherever a rule leaves
//! them free.

use crate::layout::{Function, LiveOut, Location, Record, Section, CONSTANT, HEADER};
use crate::rng::Rng;

/// How many functions, constants and records there may be, and locations and live-outs in a record.
#[derive(Clone, Copy, Debug)]
pub struct Shape {
    pub functions: usize,
    pub constants: usize,
    pub records: usize,
    pub locations: usize,
    pub live_outs: usize,
}

/// A shape, mostly small; now and then with many of one part.
pub(crate) fn shape(rng: &mut Rng) -> Shape {
    let mut shape = Shape {
        functions: rng.pick(&[0, 1, 1, 2, 2, 3, 4, 6]),
        constants: rng.pick(&[0, 0, 1, 2, 3, 8]),
        records: rng.pick(&[0, 1, 1, 2, 3, 5]),
        locations: rng.pick(&[0, 1, 2, 3, 4, 6]),
        live_outs: rng.pick(&[0, 0, 1, 2, 3]),
    };
    match rng.below(40) {
        0 => shape.functions = 30,
        1 => shape.constants = 200,
        2 => shape.records = 30,
        3 => shape.locations = 60,
        4 => shape.live_outs = 90,
        _ => {}
    }
    shape
}

/// An address: anywhere, but often near 0, near 2^32 or near 2^64 - 1.
pub(crate) fn address(rng: &mut Rng) -> u64 {
    match rng.below(6) {
        0 => rng.number(64),
        1 => u64::MAX - rng.number(16),
        2 => u64::MAX - rng.number(33),
        3 => u64::from(u32::MAX) - 2 + rng.number(3),
        _ => rng.number(22),
    }
}

/// A stack size: 2^64 - 1 is the one that means not known.
pub(crate) fn stack_size(rng: &mut Rng) -> u64 {
    match rng.below(4) {
        0 => u64::MAX - rng.number(1),
        1 => rng.number(64),
        _ => 8 * rng.number(6),
    }
}

/// A location of a section with so many constants.
pub(crate) fn location(rng: &mut Rng, constants: usize) -> Location {
    let kinds: &[u8] = if constants > 0 {
        &[1, 2, 3, 4, 5, 5]
    } else {
        &[1, 2, 3, 4]
    };
    let kind = rng.pick(kinds);
    let offset = match kind {
        5 if rng.one_in(2) => constants - 1,
        5 => rng.below(constants),
        _ => rng.number(32) as usize,
    };
    Location {
        kind,
        size: rng.number(16) as u16,
        register: rng.number(16) as u16,
        offset: offset as u32,
    }
}

/// A record of a function at `address`, so that its own address is at most 2^64 - 1.
fn record(rng: &mut Rng, shape: &Shape, address: u64) -> Record {
    let room = (u64::MAX - address).min(u64::from(u32::MAX));
    let offset = if rng.one_in(4) {
        room
    } else {
        rng.number(32).min(room)
    };
    let locations = rng.below(shape.locations + 1);
    let live_outs = rng.below(shape.live_outs + 1);
    Record {
        id: rng.number(64),
        offset: offset as u32,
        locations: (0..locations)
            .map(|_| location(rng, shape.constants))
            .collect(),
        live_outs: (0..live_outs).map(|_| live_out(rng)).collect(),
    }
}

/// A live-out.
pub(crate) fn live_out(rng: &mut Rng) -> LiveOut {
    LiveOut {
        register: rng.number(16) as u16,
        size: rng.number(8) as u8,
    }
}

/// A section of this shape. Each record goes to any of the functions, so that those with none
/// stand in any place; without functions there are no records.
pub fn shaped(rng: &mut Rng, shape: &Shape) -> Section {
    let mut section = Section::default();
    for _ in 0..shape.functions {
        let (address, stack_size) = (address(rng), stack_size(rng));
        section.functions.push(Function {
            address,
            stack_size,
            record_count: 0,
        });
    }
    section.constants = (0..shape.constants).map(|_| rng.number(64)).collect();
    if shape.functions == 0 {
        return section;
    }
    for _ in 0..shape.records {
        section.functions[rng.below(shape.functions)].record_count += 1;
    }
    for function in &section.functions {
        for _ in 0..function.record_count {
            section.records.push(record(rng, shape, function.address));
        }
    }
    section
}

/// A random section of any shape.
pub fn section(rng: &mut Rng) -> Section {
    let shape = shape(rng);
    shaped(rng, &shape)
}

/// A random section whose functions lie close below one address, often the first or the last there
/// is, and most of whose records have that address.
pub fn crowded(rng: &mut Rng) -> Section {
    let mut section = section(rng);
    let centre = match rng.below(6) {
        0 | 1 => rng.below(3) as u64,
        2 | 3 => u64::MAX - rng.below(3) as u64,
        _ => address(rng),
    };
    let mut records = section.records.iter_mut();
    for function in &mut section.functions {
        let below = rng.pick(&[0, 0, 1, 2, 16, u64::from(u32::MAX)]);
        function.address = centre.saturating_sub(below);
        let gap = centre - function.address;
        let room = (u64::MAX - function.address).min(u64::from(u32::MAX));
        for record in records.by_ref().take(function.record_count as usize) {
            let offset = match rng.below(4) {
                0 => (gap + rng.below(3) as u64).saturating_sub(1).min(room),
                _ => gap,
            };
            record.offset = offset as u32;
        }
    }
    section
}

/// A section of exactly `length` bytes, which is a multiple of 8 and at least 16: records of up to
/// eight locations and four live-outs, one function to every eight records or so, and constants
/// where a record no longer fits.
pub fn of_length(rng: &mut Rng, length: usize) -> Section {
    assert_eq!(length % 8, 0, "a section's length is a multiple of 8");
    let shape = Shape {
        functions: 1,
        constants: 16,
        records: 0,
        locations: 8,
        live_outs: 4,
    };
    let mut section = Section::default();
    let mut left = length - HEADER;
    if left >= CONSTANT * shape.constants {
        section.constants = (0..shape.constants).map(|_| rng.number(64)).collect();
        left -= CONSTANT * shape.constants;
        fill(rng, &shape, &mut section, &mut left);
    }
    section
        .constants
        .extend((0..left / CONSTANT).map(|_| rng.word()));
    section
}

/// Adds functions and records until the next one would not fit in what is left.
fn fill(rng: &mut Rng, shape: &Shape, section: &mut Section, left: &mut usize) {
    let function = section.version.function();
    while *left >= function {
        let address = address(rng);
        section.functions.push(Function {
            address,
            stack_size: stack_size(rng),
            record_count: 0,
        });
        *left -= function;
        for _ in 0..rng.below(17) {
            let record = record(rng, shape, address);
            let length = record.length(section.version);
            if length > *left {
                return;
            }
            *left -= length;
            section.records.push(record);
            section
                .functions
                .last_mut()
                .expect("one was pushed")
                .record_count += 1;
        }
    }
}
