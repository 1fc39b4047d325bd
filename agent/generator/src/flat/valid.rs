//! Random flat sections that keep every rule, with numbers at their edges wherever a rule leaves
//! them free.

use super::layout::{Flat, Frame, FrameRegister, Location, Range, Record, REACH};
use crate::rng::Rng;
use crate::valid::{address, live_out};

/// How many entries each array has. Without frames there are no frame registers.
#[derive(Clone, Copy, Debug)]
pub struct Shape {
    pub constants: usize,
    pub frames: usize,
    pub registers: usize,
    pub records: usize,
    pub locations: usize,
    pub live_outs: usize,
}

/// A shape: mostly small, often with empty arrays, now and then with many of one part.
pub(crate) fn shape(rng: &mut Rng) -> Shape {
    let mut few = || rng.pick(&[0, 0, 1, 1, 2, 3, 4, 7]);
    let mut shape = Shape {
        constants: few(),
        frames: few(),
        registers: few(),
        records: few(),
        locations: few(),
        live_outs: few(),
    };
    match rng.below(60) {
        0 => shape.constants = 100,
        1 => shape.frames = 40,
        2 => shape.registers = 90,
        3 => shape.records = 60,
        4 => shape.locations = 120,
        5 => shape.live_outs = 200,
        _ => {}
    }
    shape
}

/// A shape with one array that is as long as an index and a count reach, or nearly so, or longer by
/// a few where its length is free.
pub(crate) fn wide_shape(rng: &mut Rng) -> Shape {
    let mut shape = shape(rng);
    shape.frames = shape.frames.max(1);
    shape.records = shape.records.max(1);
    let near = rng.below(4);
    match rng.below(4) {
        0 => shape.registers = REACH - near,
        1 => shape.records = REACH - 2 + near,
        2 => shape.locations = REACH - 2 + near,
        _ => shape.live_outs = REACH - 2 + near,
    }
    shape
}

/// A random section of any shape, one in 4,096 of them wide.
pub fn section(rng: &mut Rng) -> Flat {
    let shape = match rng.below(4_096) {
        0 => wide_shape(rng),
        _ => shape(rng),
    };
    shaped(rng, &shape)
}

/// A random section with one array as long as indexes reach.
pub fn wide(rng: &mut Rng) -> Flat {
    let shape = wide_shape(rng);
    shaped(rng, &shape)
}

/// A section of this shape.
pub fn shaped(rng: &mut Rng, shape: &Shape) -> Flat {
    let registers = if shape.frames == 0 {
        0
    } else {
        shape.registers
    };
    let mut frames: Vec<Frame> = (0..shape.frames)
        .map(|_| frame(rng, registers, shape.records))
        .collect();
    if shape.frames > 0 {
        let last = rng.below(shape.frames);
        frames[last].registers = reaching(rng, registers);
    }
    Flat {
        constants: (0..shape.constants).map(|_| rng.number(64)).collect(),
        frames,
        registers: (0..registers).map(|_| register(rng)).collect(),
        records: (0..shape.records)
            .map(|_| record(rng, shape.locations, shape.live_outs))
            .collect(),
        locations: (0..shape.locations).map(|_| location(rng)).collect(),
        live_outs: (0..shape.live_outs).map(|_| live_out(rng)).collect(),
    }
}

/// A range that ends exactly at `end`, which is at most [`REACH`].
pub(crate) fn reaching(rng: &mut Rng, end: usize) -> Range {
    let least = end.saturating_sub(65_535);
    let most = end.min(65_535);
    let index = match rng.below(4) {
        0 => least,
        1 => most,
        _ => least + rng.below(most - least + 1),
    };
    Range {
        index: index as u16,
        count: (end - index) as u16,
    }
}

/// A range inside an array of so many entries: often all of it, empty, or up to its end.
pub(crate) fn range(rng: &mut Rng, entries: usize) -> Range {
    let end = entries.min(REACH);
    match rng.below(6) {
        0 => Range::default(),
        1 | 2 => Range {
            index: 0,
            count: end.min(65_535) as u16,
        },
        3 | 4 => reaching(rng, end),
        _ => {
            let end = rng.below(end + 1);
            reaching(rng, end)
        }
    }
}

fn frame(rng: &mut Rng, registers: usize, records: usize) -> Frame {
    Frame {
        address: address(rng),
        size: rng.number(32) as u32,
        stack_size: rng.number(32) as u32,
        flags: rng.below(16) as u16,
        base_register: rng.number(16) as u16,
        registers: range(rng, registers),
        records: range(rng, records),
    }
}

fn register(rng: &mut Rng) -> FrameRegister {
    FrameRegister {
        register: rng.number(16) as u16,
        offset: rng.number(16) as i16,
        size: rng.number(8) as u8,
        flags: rng.below(2) as u8,
    }
}

fn record(rng: &mut Rng, locations: usize, live_outs: usize) -> Record {
    Record {
        id: rng.number(64),
        offset: rng.number(32) as u32,
        call_size: rng.number(8) as u8,
        flags: rng.below(2) as u8,
        locations: range(rng, locations),
        live_outs: range(rng, live_outs),
    }
}

/// A location of any kind, known or not.
fn location(rng: &mut Rng) -> Location {
    Location {
        kind: rng.number(8) as u8,
        register: rng.number(16) as u16,
        offset: rng.number(32) as i32,
    }
}

/// A random section in which many a record of many a frame is at the same address. Some of the sums
/// are over 2^64 - 1.
pub fn crowded(rng: &mut Rng) -> Flat {
    let mut flat = section(rng);
    let base = match rng.below(3) {
        0 => u64::MAX - 4,
        1 => 0,
        _ => address(rng),
    };
    for frame in &mut flat.frames {
        if !rng.one_in(8) {
            frame.address = base.wrapping_add(rng.below(4) as u64);
        }
    }
    for record in &mut flat.records {
        if !rng.one_in(8) {
            record.offset = rng.below(6) as u32;
        }
    }
    flat
}
