//! Threads with pairs in registers: each frame's own 32, and 25 for lists whose
//! lengths disagree.

use super::*;
use crate::editions::{AARCH64, AMD64};
use crate::fixtures::*;
use crate::moves::{one_by_one, Move as One};

/// A frame of 8 bytes with three pairs: register 3 by itself, register 8 from
/// it, and the stack from register 3.
fn section(stack_pointer: u16) -> Vec<u8> {
    let pairs = [
        (register(3), register(3)),
        (register(3), register(8)),
        (register(3), location(3, 8, stack_pointer, 0)),
    ];
    one_function(8, &[], &[statepoint(0x20, &pairs)])
}

/// The registers of frames of which each is given by stack pointer, register 3
/// and register 8.
fn registers(of_stack: usize, frames: &[[u64; 3]]) -> Vec<u64> {
    let of = |&[stack_pointer, third, eighth]: &[u64; 3]| {
        let mut own = noise();
        (own[of_stack], own[3], own[8]) = (stack_pointer, third, eighth);
        own
    };
    frames.iter().flat_map(of).collect()
}

/// Slots of 0x50000 plus 0, 1 and 2.
fn image() -> Vec<u8> {
    let slots = [0x50000, 0x50001, 0x50002_u64];
    slots.into_iter().flat_map(u64::to_le_bytes).collect()
}

fn run(machine: u64, frames: usize, registers: &mut [u64]) -> (Result<u64, Refusal>, Vec<u8>) {
    let of_stack = if machine == AMD64 { 7 } else { 31 };
    let mut image = image();
    let list = [0x1020, 99].repeat(frames);
    let answer = thread(
        &section(of_stack),
        &mut image,
        0x7000,
        &[0x50000, 0x60000],
        &[0x90000, 0x10],
        machine,
        &list,
        registers,
    );
    (answer, image)
}

/// Each frame is moved by its own registers, and they alone are written.
#[test]
fn each_frame_has_its_own_registers() {
    for (machine, of_stack) in [(AMD64, 7), (AARCH64, 31)] {
        let mut own = registers(
            of_stack,
            &[
                [0x7010, 0x50000, 0x50008],
                [0x7000, 0x60000, 0x60100],
                [0x7008, 0, 0x1234],
            ],
        );
        let after = registers(
            of_stack,
            &[
                [0x7010, 0x90000, 0x90008],
                [0x7000, 0x10, 0x110],
                [0x7008, 0, 0x1234],
            ],
        );
        let (answer, image) = run(machine, 3, &mut own);
        assert_eq!(answer, Ok(9));
        assert_eq!(own, after);
        let slots = [0xFFFF_FFFF_FFFF_0010, 0x50001, 0x90002_u64];
        let expected: Vec<u8> = slots.into_iter().flat_map(u64::to_le_bytes).collect();
        assert_eq!(image, expected);
    }
}

/// All frames move with their registers, or nothing does.
#[test]
fn a_refused_thread_changes_no_register() {
    let fine = [0x7000, 0x50000, 1];
    for (last, number) in [
        ([0x7008, 7, 1], 21),
        ([0x7011, 0x50000, 1], 16),
        ([0x7004, 0x50000, 1], 26),
        ([0x7000, 0x50000, 1], 26),
    ] {
        let mut own = registers(7, &[fine, last]);
        let before = own.clone();
        let (answer, after) = run(AMD64, 2, &mut own);
        assert_eq!(answer, refusal(number, 1));
        assert_eq!((own, after), (before, image()));
    }
}

/// The image and the registers are those of the frames moved one by one.
#[test]
fn as_one_by_one() {
    let frames = [
        [0x7010, 0x50000, 0x50008],
        [0x7000, 0x60000, 5],
        [0x7008, 0, 6],
    ];
    let mut own = registers(7, &frames);
    let moves: Vec<One> = own
        .chunks(32)
        .map(|registers| One {
            machine: AMD64,
            frame: Frame {
                address: 0x1020,
                function: 0,
            },
            registers: registers.to_vec(),
        })
        .collect();
    let table = [[0x50000, 0x60000], [0x90000, 0x10]];
    let one = one_by_one(&section(7), &image(), 0x7000, &table[0], &table[1], &moves);
    let (answer, after) = run(AMD64, 3, &mut own);
    assert_eq!(answer, Ok(9));
    assert_eq!(one.answers, [Ok(3); 3]);
    assert_eq!((one.image, one.registers.concat()), (after, own));
}

/// 25: an odd list, over 4,096 frames, and registers that aren't 32 a frame.
#[test]
fn the_lengths_are_tested_before_any_frame() {
    let empty = one_function(0, &[], &[statepoint(0x20, &[(small(0), small(0))])]);
    let answer = |numbers: usize, registers: usize| {
        let list: Vec<u64> = (0..numbers).map(|nth| [0x1020, 7][nth % 2]).collect();
        let mut registers = vec![0x7000; registers];
        let (olds, news) = ([0x50000], [0x90000]);
        thread(
            &empty,
            &mut image(),
            0x7000,
            &olds,
            &news,
            AMD64,
            &list,
            &mut registers,
        )
    };
    for frames in [0, 1, 2, 3, 4_095, 4_096] {
        assert_eq!(answer(2 * frames, 32 * frames), Ok(frames as u64));
        assert_eq!(answer(2 * frames + 1, 32 * frames), refusal(25, 0), "odd");
        let one_more = answer(2 * frames + 1, 32 * frames + 32);
        assert_eq!(one_more, refusal(25, 0), "odd, and registers for one more");
        for off in [1, 16, 31, 32, 33, 64] {
            let registers = 32 * frames;
            assert_eq!(answer(2 * frames, registers + off), refusal(25, 0));
            if let Some(fewer) = registers.checked_sub(off) {
                assert_eq!(answer(2 * frames, fewer), refusal(25, 0));
            }
        }
    }
    assert_eq!(answer(2 * 4_097, 32 * 4_097), refusal(25, 0));
    assert_eq!(answer(2 * 4_097, 32 * 4_096), refusal(25, 0));
    // Three and four numbers a frame are no longer frames.
    assert_eq!(answer(3, 32), refusal(25, 0));
    assert_eq!(answer(4, 32), refusal(25, 0));
}

/// 10 at the last of the most frames there can be.
#[test]
fn the_last_of_4096_frames_has_its_position() {
    let mut list = [0x1020, 0].repeat(4_096);
    list[2 * 4_095] = 5;
    let empty = one_function(0, &[], &[statepoint(0x20, &[])]);
    let mut registers = vec![0x7000; 32 * 4_096];
    let answer = thread(
        &empty,
        &mut image(),
        0x7000,
        &[],
        &[],
        AMD64,
        &list,
        &mut registers,
    );
    assert_eq!(answer, refusal(10, 4_095));
}
