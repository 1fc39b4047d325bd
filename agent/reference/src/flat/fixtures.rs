//! Flat sections, written out byte by byte, that the tests share.

use super::{Flat, Frame, FrameRegister, LiveOut, Location, Record};
use crate::fixtures::hex;

/// The least section: a header, its padding, and six empty arrays.
pub(super) fn empty() -> Vec<u8> {
    hex("02 00 00 00  20 00 00 00  20 00 00 00  20 00 00 00
         20 00 00 00  20 00 00 00  20 00 00 00  00 00 00 00")
}

/// The worked section, 236 bytes: a constant at 32, frames at 40 and 68, frame
/// registers at 96, 102 and 108, their padding at 114, records at 120, 142 and
/// 164, their padding at 186, locations at 188, 196, 204, 212 and 220, and
/// live-outs at 228 and 232.
pub(super) fn worked() -> Vec<u8> {
    hex("02  00 00 00  20 00 00 00  28 00 00 00  60 00 00 00
         78 00 00 00  BC 00 00 00  E4 00 00 00  00 00 00 00
         10 32 54 76 98 BA DC FE
         00 10 40 00 00 00 00 00  40 00 00 00  18 00 00 00
         09 00  06 00  02 00  00 00  02 00  00 00
         00 20 40 00 00 00 00 00  80 00 00 00  38 00 00 00
         06 00  03 00  02 00  01 00  02 00  01 00
         06 00  F0 FF  08  01
         03 00  E8 FF  08  01
         0C 00  10 00  04  00
         00 00 00 00 00 00
         07 00 00 00 00 00 00 00  10 00 00 00  05  01  03 00  00 00  02 00  00 00
         08 00 00 00 00 00 00 00  20 00 00 00  02  00  02 00  03 00  00 00  02 00
         FF FF FF FF FF FF FF FF  10 00 00 00  FF  01  01 00  04 00  01 00  01 00
         00 00
         01 00 03 00 00 00 00 00
         02 00 07 00 10 00 00 00
         03 00 06 00 F8 FF FF FF
         04 00 00 00 FF FF FF FF
         05 00 00 00 00 00 00 00
         03 00 00 08
         11 00 00 10")
}

/// What the worked section says.
pub(super) fn worked_data() -> Flat {
    Flat {
        constants: vec![0xFEDC_BA98_7654_3210],
        frames: vec![
            frame(0x40_1000, [0x40, 24], [9, 6], [0, 2], [0, 2]),
            frame(0x40_2000, [0x80, 56], [6, 3], [1, 2], [1, 2]),
        ],
        frame_registers: vec![
            frame_register(6, -16, 8, 1),
            frame_register(3, -24, 8, 1),
            frame_register(12, 16, 4, 0),
        ],
        records: vec![
            record(7, 0x10, [5, 1], [0, 3], [0, 2]),
            record(8, 0x20, [2, 0], [3, 2], [2, 0]),
            record(u64::MAX, 0x10, [255, 1], [4, 1], [1, 1]),
        ],
        locations: vec![
            location(1, 3, 0),
            location(2, 7, 16),
            location(3, 6, -8),
            location(4, 0, -1),
            location(5, 0, 0),
        ],
        live_outs: vec![live_out(3, 8), live_out(17, 16)],
    }
}

/// A frame: address, sizes of function and stack, flags and base register, and
/// index and count of its registers and of its records.
pub(super) fn frame(
    address: u64,
    [size, stack_size]: [u32; 2],
    [flags, base_register]: [u16; 2],
    [register_index, num_registers]: [u16; 2],
    [record_index, num_records]: [u16; 2],
) -> Frame {
    Frame {
        address,
        size,
        stack_size,
        flags,
        base_register,
        num_registers,
        register_index,
        num_records,
        record_index,
    }
}

pub(super) fn frame_register(register: u16, offset: i16, size: u8, flags: u8) -> FrameRegister {
    FrameRegister {
        register,
        offset,
        size,
        flags,
    }
}

/// A record: ID, offset, call size and flags, and index and count of its
/// locations and of its live-outs.
pub(super) fn record(
    id: u64,
    offset: u32,
    [call_size, flags]: [u8; 2],
    [location_index, num_locations]: [u16; 2],
    [live_out_index, num_live_outs]: [u16; 2],
) -> Record {
    Record {
        id,
        offset,
        call_size,
        flags,
        num_locations,
        location_index,
        num_live_outs,
        live_out_index,
    }
}

pub(super) fn location(kind: u8, register: u16, offset: i32) -> Location {
    Location {
        kind,
        register,
        offset,
    }
}

pub(super) fn live_out(register: u16, size: u8) -> LiveOut {
    LiveOut { register, size }
}
