//! The bytes of the worked rows, written out by hand.

/// Row C: `03` and fifteen zeros.
pub const C: [u8; 16] = [3, 0, 0, 0, 0, 0, 0, 0, 0, 0, 0, 0, 0, 0, 0, 0];

/// Row H: a function with one statepoint of two pairs.
#[rustfmt::skip]
pub const H: [u8; 152] = [
    // header: version 3, one function, no constants, one record
    3, 0, 0, 0, 1, 0, 0, 0, 0, 0, 0, 0, 1, 0, 0, 0,
    // function: address 0x1000, stack size 24, one record
    0, 0x10, 0, 0, 0, 0, 0, 0, 24, 0, 0, 0, 0, 0, 0, 0, 1, 0, 0, 0, 0, 0, 0, 0,
    // record: ID 7, offset 0x20, flags, seven locations
    7, 0, 0, 0, 0, 0, 0, 0, 0x20, 0, 0, 0, 0, 0, 7, 0,
    // three constants of 0
    4, 0, 8, 0, 0, 0, 0, 0, 0, 0, 0, 0,
    4, 0, 8, 0, 0, 0, 0, 0, 0, 0, 0, 0,
    4, 0, 8, 0, 0, 0, 0, 0, 0, 0, 0, 0,
    // RSP+8 and RSP+8, RSP+8 and RSP+16
    3, 0, 8, 0, 7, 0, 0, 0, 8, 0, 0, 0,
    3, 0, 8, 0, 7, 0, 0, 0, 8, 0, 0, 0,
    3, 0, 8, 0, 7, 0, 0, 0, 8, 0, 0, 0,
    3, 0, 8, 0, 7, 0, 0, 0, 16, 0, 0, 0,
    // padding, zeros, no live-outs, padding
    0, 0, 0, 0, 0, 0, 0, 0, 0, 0, 0, 0,
];

/// The listing of row H.
#[rustfmt::skip]
pub const H_LISTING: [u8; 109] = [
    // function: address 0x1000, stack size 24, one record
    1, 0, 0x10, 0, 0, 0, 0, 0, 0, 24, 0, 0, 0, 0, 0, 0, 0, 1, 0, 0, 0, 0, 0, 0, 0,
    // record: ID 7, offset 0x20
    3, 7, 0, 0, 0, 0, 0, 0, 0, 0x20, 0, 0, 0,
    // three constants of 0
    4, 4, 8, 0, 0, 0, 0, 0, 0, 0,
    4, 4, 8, 0, 0, 0, 0, 0, 0, 0,
    4, 4, 8, 0, 0, 0, 0, 0, 0, 0,
    // RSP+8 and RSP+8, RSP+8 and RSP+16
    4, 3, 8, 0, 7, 0, 8, 0, 0, 0,
    4, 3, 8, 0, 7, 0, 8, 0, 0, 0,
    4, 3, 8, 0, 7, 0, 8, 0, 0, 0,
    4, 3, 8, 0, 7, 0, 16, 0, 0, 0,
    // end
    6,
];

/// Row H as version 1 has it: the function without its record count, and locations of 8 bytes.
#[rustfmt::skip]
pub const H_1: [u8; 112] = [
    // header: version 1, one function, no constants, one record
    1, 0, 0, 0, 1, 0, 0, 0, 0, 0, 0, 0, 1, 0, 0, 0,
    // function: address 0x1000, stack size 24
    0, 0x10, 0, 0, 0, 0, 0, 0, 24, 0, 0, 0, 0, 0, 0, 0,
    // record: ID 7, offset 0x20, flags, seven locations
    7, 0, 0, 0, 0, 0, 0, 0, 0x20, 0, 0, 0, 0, 0, 7, 0,
    // three constants of 0: kind, size, register, offset
    4, 8, 0, 0, 0, 0, 0, 0,
    4, 8, 0, 0, 0, 0, 0, 0,
    4, 8, 0, 0, 0, 0, 0, 0,
    // RSP+8 and RSP+8, RSP+8 and RSP+16
    3, 8, 7, 0, 8, 0, 0, 0,
    3, 8, 7, 0, 8, 0, 0, 0,
    3, 8, 7, 0, 8, 0, 0, 0,
    3, 8, 7, 0, 16, 0, 0, 0,
    // zeros, no live-outs, padding
    0, 0, 0, 0, 0, 0, 0, 0,
];

/// The listing of row H as version 1 has it: item 7 first, and no record count.
pub fn h_1_listing() -> Vec<u8> {
    let mut listing = [&[7, 1], &H_LISTING[..]].concat();
    listing[2 + 17] = 0;
    listing
}

/// Row C with one byte changed.
pub fn c_with(place: usize, byte: u8) -> Vec<u8> {
    let mut bytes = C.to_vec();
    bytes[place] = byte;
    bytes
}

/// Row C and one zero byte.
pub fn c_and_zero() -> Vec<u8> {
    let mut bytes = C.to_vec();
    bytes.push(0);
    bytes
}
