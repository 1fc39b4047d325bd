//! Threads of version 1: offset and function number make a frame.

use super::*;
use crate::editions::AMD64;
use crate::fixtures::*;
use crate::section::encode_version_1;

/// Functions of stack sizes 24, 8 and 2^64 - 1; row H's statepoint at 0x20, one
/// with a null pair at 0x40, and two records at 0x60.
fn section() -> Vec<u8> {
    let functions = [24, 8, u64::MAX].map(|size| function(0x1000, size, 0));
    let records = [
        statepoint(0x20, &[(rsp(8), rsp(8)), (rsp(8), rsp(16))]),
        statepoint(0x40, &[(small(0), small(0))]),
        statepoint(0x60, &[]),
        statepoint(0x60, &[]),
    ];
    encode_version_1(&functions, &[], &records)
}

/// Two frames of row I's kind from 0x7000 on.
fn image() -> Vec<u8> {
    let slots = [1, 0x50000, 0x54E20, 2, 0, 0x1234_u64];
    slots.into_iter().flat_map(u64::to_le_bytes).collect()
}

/// The answer to frames of offset, frame pointer, stack pointer and function
/// number, and the image after it.
fn run(frames: &[[u64; 4]]) -> (Result<u64, Refusal>, Vec<u8>) {
    let mut image = image();
    let (list, mut registers) = lists(AMD64, frames);
    let answer = thread(
        &section(),
        &mut image,
        0x7000,
        &[0x50000],
        &[0x90000],
        AMD64,
        &list,
        &mut registers,
    );
    (answer, image)
}

/// A refused list leaves the image as it was.
fn refused(frames: &[[u64; 4]]) -> (u64, u64) {
    let (answer, after) = run(frames);
    assert_eq!(after, image());
    let refusal = answer.unwrap_err();
    (refusal.number, refusal.place)
}

const I: [u64; 4] = [0x20, 0, 0x7000, 0];

#[test]
fn offset_and_function_number_make_a_frame() {
    let mut moved = image();
    moved[8..16].copy_from_slice(&0x90000_u64.to_le_bytes());
    moved[16..24].copy_from_slice(&0x94E20_u64.to_le_bytes());
    assert_eq!(run(&[]), (Ok(0), image()));
    assert_eq!(run(&[I]), (Ok(2), moved.clone()));
    let list = [I, [0x40, 0, 0x7018, 1], [0x40, 9, 0x7020, 1]];
    assert_eq!(run(&list), (Ok(4), moved));
}

#[test]
fn the_extent_is_the_named_functions() {
    assert_eq!(run(&[I, [0x40, 0, 0x7018, 0]]).0, Ok(3));
    assert_eq!(refused(&[I, [0x40, 0, 0x7010, 1]]), (26, 1));
    assert_eq!(
        refused(&[[0x40, 0, 0x7000, 0], [0x40, 0, 0x7017, 1]]),
        (26, 1)
    );
    assert_eq!(refused(&[I, [0x40, 0, 0x7018, 2]]), (16, 1));
    assert_eq!(refused(&[[0x20, 0, 0x7000, 1]]), (19, 0), "19 of pair 0");
}

#[test]
fn a_refused_frame_has_its_position() {
    assert_eq!(refused(&[I, [0x20, 0, 0x7018, 3]]), (10, 1));
    assert_eq!(refused(&[I, [0x1020, 0, 0x7018, 0]]), (10, 1));
    assert_eq!(refused(&[I, [0x60, 0, 0x7018, 0]]), (15, 1));
    assert_eq!(refused(&[I, [0x60, 0, 0x7018, 3]]), (10, 1));
    assert_eq!(refused(&[I, I, [0x20, 0, 0x7018, 1 << 32]]), (10, 2));
    assert_eq!(refused(&[I, I]), (26, 1));
}
