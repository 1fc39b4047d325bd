//! Sections to be tried.

use generator::layout::{Function, Location, Record, Section};

/// Row C: a section of nothing.
pub const C: [u8; 16] = [3, 0, 0, 0, 0, 0, 0, 0, 0, 0, 0, 0, 0, 0, 0, 0];

/// A location.
pub fn location(kind: u8, size: u16, register: u16, offset: i32) -> Location {
    Location {
        kind,
        size,
        register,
        offset: offset as u32,
    }
}

/// A slot at RSP plus an offset.
pub fn rsp(offset: i32) -> Location {
    location(3, 8, 7, offset)
}

/// A constant of kind 4.
pub fn constant(value: i32) -> Location {
    location(4, 8, 0, value)
}

/// A statepoint at an offset, without deopt locations.
pub fn statepoint(offset: u32, pairs: &[[Location; 2]]) -> Record {
    let mut locations = vec![constant(0), constant(0), constant(0)];
    locations.extend(pairs.iter().flatten().cloned());
    Record {
        id: 7,
        offset,
        locations,
        live_outs: vec![],
    }
}

/// A section with one function at 0x1000.
pub fn one_function(stack_size: u64, records: Vec<Record>) -> Section {
    let function = Function {
        address: 0x1000,
        stack_size,
        record_count: records.len() as u64,
    };
    Section {
        functions: vec![function],
        records,
        ..Section::default()
    }
}

/// A section of row H's form with other pairs.
pub fn of_pairs(stack_size: u64, pairs: &[[Location; 2]]) -> Vec<u8> {
    one_function(stack_size, vec![statepoint(0x20, pairs)]).encode()
}

/// Row H. The record is at 40, its locations from 56 on.
pub fn row_h() -> Vec<u8> {
    of_pairs(24, &[[rsp(8), rsp(8)], [rsp(8), rsp(16)]])
}

/// The same bytes with one of them set.
pub fn with(mut bytes: Vec<u8>, at: usize, byte: u8) -> Vec<u8> {
    bytes[at] = byte;
    bytes
}

/// The bytes of numbers of eight bytes.
pub fn words(numbers: &[u64]) -> Vec<u8> {
    numbers
        .iter()
        .flat_map(|number| number.to_le_bytes())
        .collect()
}
