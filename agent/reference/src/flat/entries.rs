//! The entries of a flat section as plain data.

use super::arrays::{Arrays, FRAME, FRAME_REGISTER, LIVE_OUT, LOCATION, RECORD};
use super::LiveOut;
use crate::bytes::{i32_at, u16_at, u32_at, u64_at};
use std::ops::Range;

/// An accepted flat section.
#[derive(Clone, Debug, PartialEq, Eq)]
pub struct Flat {
    /// The large constants.
    pub constants: Vec<u64>,
    /// The frames.
    pub frames: Vec<Frame>,
    /// The frame registers, as many as the frames name.
    pub frame_registers: Vec<FrameRegister>,
    /// The records.
    pub records: Vec<Record>,
    /// The locations.
    pub locations: Vec<Location>,
    /// The live-outs.
    pub live_outs: Vec<LiveOut>,
}

/// A frame: what a function's stack frames look like.
#[derive(Clone, Debug, PartialEq, Eq)]
pub struct Frame {
    /// The function's address.
    pub address: u64,
    /// The function's size.
    pub size: u32,
    /// The stack size.
    pub stack_size: u32,
    /// The flags; only the lowest four can be set.
    pub flags: u16,
    /// The DWARF number of the frame base register.
    pub base_register: u16,
    /// How many frame registers it has.
    pub num_registers: u16,
    /// The number of the first of them.
    pub register_index: u16,
    /// How many records it has.
    pub num_records: u16,
    /// The number of the first of them.
    pub record_index: u16,
}

impl Frame {
    /// Flag 0.
    pub fn has_frame(&self) -> bool {
        self.flags & 1 != 0
    }

    /// Flag 1.
    pub fn has_variable_size_alloca(&self) -> bool {
        self.flags & 2 != 0
    }

    /// Flag 2.
    pub fn has_stack_realignment(&self) -> bool {
        self.flags & 4 != 0
    }

    /// Flag 3.
    pub fn has_live_out_info(&self) -> bool {
        self.flags & 8 != 0
    }

    /// The numbers of its frame registers.
    pub fn registers(&self) -> Range<usize> {
        numbers(self.register_index, self.num_registers)
    }

    /// The numbers of its records.
    pub fn records(&self) -> Range<usize> {
        numbers(self.record_index, self.num_records)
    }
}

/// A frame register.
#[derive(Clone, Debug, PartialEq, Eq)]
pub struct FrameRegister {
    /// The register's DWARF number.
    pub register: u16,
    /// The signed offset.
    pub offset: i16,
    /// The size in bytes.
    pub size: u8,
    /// The flags; only the lowest can be set.
    pub flags: u8,
}

impl FrameRegister {
    /// Flag 0.
    pub fn is_spilled(&self) -> bool {
        self.flags & 1 != 0
    }
}

/// A record.
#[derive(Clone, Debug, PartialEq, Eq)]
pub struct Record {
    /// The record's patch point ID.
    pub id: u64,
    /// The instruction offset inside the function.
    pub offset: u32,
    /// The size of the call in bytes.
    pub call_size: u8,
    /// The flags; only the lowest can be set.
    pub flags: u8,
    /// How many locations it has.
    pub num_locations: u16,
    /// The number of the first of them.
    pub location_index: u16,
    /// How many live-outs it has.
    pub num_live_outs: u16,
    /// The number of the first of them.
    pub live_out_index: u16,
}

impl Record {
    /// Flag 0.
    pub fn has_live_out_info(&self) -> bool {
        self.flags & 1 != 0
    }

    /// The numbers of its locations.
    pub fn locations(&self) -> Range<usize> {
        numbers(self.location_index, self.num_locations)
    }

    /// The numbers of its live-outs.
    pub fn live_outs(&self) -> Range<usize> {
        numbers(self.live_out_index, self.num_live_outs)
    }
}

/// A location. It has no size.
#[derive(Clone, Debug, PartialEq, Eq)]
pub struct Location {
    /// The kind, whatever its number.
    pub kind: u8,
    /// The register's DWARF number.
    pub register: u16,
    /// The signed offset, the small constant or the number of a constant.
    pub offset: i32,
}

/// The `count` numbers from `index` on.
fn numbers(index: u16, count: u16) -> Range<usize> {
    let first = usize::from(index);
    first..first + usize::from(count)
}

/// All entries of all arrays.
pub(super) fn decode(arrays: &Arrays) -> Flat {
    let constants = arrays.constants.iter();
    Flat {
        constants: constants.map(|&entry| u64::from_le_bytes(entry)).collect(),
        frames: arrays.frames.iter().map(frame).collect(),
        frame_registers: arrays.frame_registers.iter().map(frame_register).collect(),
        records: arrays.records.iter().map(record).collect(),
        locations: arrays.locations.iter().map(location).collect(),
        live_outs: arrays.live_outs.iter().map(live_out).collect(),
    }
}

fn frame(entry: &[u8; FRAME]) -> Frame {
    Frame {
        address: u64_at(entry, 0),
        size: u32_at(entry, 8),
        stack_size: u32_at(entry, 12),
        flags: u16_at(entry, 16),
        base_register: u16_at(entry, 18),
        num_registers: u16_at(entry, 20),
        register_index: u16_at(entry, 22),
        num_records: u16_at(entry, 24),
        record_index: u16_at(entry, 26),
    }
}

fn frame_register(entry: &[u8; FRAME_REGISTER]) -> FrameRegister {
    FrameRegister {
        register: u16_at(entry, 0),
        offset: u16_at(entry, 2) as i16,
        size: entry[4],
        flags: entry[5],
    }
}

fn record(entry: &[u8; RECORD]) -> Record {
    Record {
        id: u64_at(entry, 0),
        offset: u32_at(entry, 8),
        call_size: entry[12],
        flags: entry[13],
        num_locations: u16_at(entry, 14),
        location_index: u16_at(entry, 16),
        num_live_outs: u16_at(entry, 18),
        live_out_index: u16_at(entry, 20),
    }
}

fn location(entry: &[u8; LOCATION]) -> Location {
    Location {
        kind: entry[0],
        register: u16_at(entry, 2),
        offset: i32_at(entry, 4),
    }
}

fn live_out(entry: &[u8; LIVE_OUT]) -> LiveOut {
    LiveOut {
        register: u16_at(entry, 0),
        size: entry[3],
    }
}
