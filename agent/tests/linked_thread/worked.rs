//! Row I over linked sections, and what stands beside it, written out by hand.

use crate::calls::{Call, Outcome};
use crate::moves::Linked;
use crate::under::stored::Stored;
use crate::under::Under;

const H: &[u8] = include_bytes!("../../../samples/h-statepoint.section");
const H_1: &[u8] = include_bytes!("../../../samples/h-version-1.section");
const C: &[u8] = &[3, 0, 0, 0, 0, 0, 0, 0, 0, 0, 0, 0, 0, 0, 0, 0];

/// Row H with its function at 0x2000.
fn h_2() -> Vec<u8> {
    let mut bytes = H.to_vec();
    bytes[17] = 0x20;
    bytes
}

/// Row I's frame once for each address, one above the other, over these maps, with the image's words after the
/// call.
fn row(maps: &[&[u8]], addresses: &[u64], words: &[u64], machine: u64) -> (Outcome, Vec<u64>) {
    let section = maps.concat();
    let list: Vec<u64> = addresses.iter().flat_map(|own| [*own, 0]).collect();
    let mut registers = vec![0; 32 * addresses.len()];
    for (nth, own) in registers.chunks_mut(32).enumerate() {
        (own[7], own[31]) = (0x7000 + 24 * nth as u64, 0x7000 + 24 * nth as u64);
    }
    let image: Vec<u8> = words.iter().flat_map(|word| word.to_le_bytes()).collect();
    let stored = &Stored::one(256, 0, [true, true]);
    let frames = Linked(&list);
    let call = Call {
        section: &section,
        image: &image,
        first: 0x7000,
        olds: &[0x50000],
        news: &[0x90000],
        machine,
        frames: Under { stored, frames },
        registers,
    };
    let outcome = call.compare();
    let (after, _) = outcome.image.as_chunks();
    let after = after.iter().map(|word| u64::from_le_bytes(*word)).collect();
    (outcome, after)
}

const ONE: [u64; 3] = [7, 0x50000, 0x54e20];
const TWO: [u64; 6] = [7, 0x50000, 0x54e20, 8, 0x50000, 0x50000];

#[test]
fn frames_move_by_their_own_maps() {
    let (outcome, after) = row(&[C, H], &[0x1020], &ONE, 0);
    assert_eq!(outcome.answer(), (0, 0, 2));
    assert_eq!(after, [7, 0x90000, 0x94e20]);
    let maps = [H, C, &h_2()];
    let (outcome, after) = row(&maps, &[0x2020, 0x1020], &TWO, 0);
    assert_eq!(outcome.answer(), (0, 0, 4));
    assert_eq!(after, [7, 0x90000, 0x94e20, 8, 0x90000, 0x90000]);
    assert_eq!(row(&maps, &[], &ONE, 0).0.answer(), (0, 0, 0));
}

#[test]
fn refused_lists_move_nothing() {
    let h_2 = h_2();
    let answer = |maps: &[&[u8]], addresses: &[u64], machine| {
        let (outcome, after) = row(maps, addresses, &TWO, machine);
        assert_eq!(after, TWO);
        outcome.answer()
    };
    assert_eq!(answer(&[H, H], &[0x1020], 0), (15, 0, 0));
    assert_eq!(answer(&[H, &h_2, H], &[0x2020, 0x1020], 0), (15, 1, 0));
    assert_eq!(answer(&[H, &h_2], &[0x1020, 0x2021], 0), (10, 1, 0));
    assert_eq!(answer(&[H, H_1, H_1], &[0x1020], 0), (27, 152, 0));
    assert_eq!(answer(&[H, H_1], &[0x1020], 2), (27, 152, 0));
    assert_eq!(answer(&[C, H], &[0x1020], 2), (33, 0, 0));
    assert_eq!(answer(&[C, H], &[0x1020], 1), (33, 0, 0));
    assert_eq!(answer(&[C, H, &[0]], &[0x1020], 0), (1, 168, 0));
    // The third frame stands past the image.
    assert_eq!(answer(&[H, &h_2], &[0x1020, 0x2020, 0x1020], 0), (16, 2, 0));
}

/// The call needs about 336 KiB of stack, here on 2,001 maps with 4,096 frames.
#[test]
fn a_thread_with_little_stack() {
    const STACK: usize = 360 * 1024;
    const FRAMES: usize = 4_096;
    let section = [&C.repeat(2_000), H].concat();
    let list = [0x1020, 0].repeat(FRAMES);
    let mut registers = vec![0; 32 * FRAMES];
    for (nth, own) in registers.chunks_mut(32).enumerate() {
        own[7] = 0x7000 + 24 * nth as u64;
    }
    let words = |words: [u64; 3]| words.map(u64::to_le_bytes).concat().repeat(FRAMES);
    let (image, stored) = (words(ONE), Box::new(Stored::one(256, 0, [false, true])));
    let moved = move || {
        let (stored, frames) = (&*stored, Linked(&list));
        let call = Call {
            section: &section,
            image: &image,
            first: 0x7000,
            olds: &[0x50000],
            news: &[0x90000],
            machine: 0,
            frames: Under { stored, frames },
            registers,
        };
        call.by_library()
    };
    let little = std::thread::Builder::new().stack_size(STACK).spawn(moved);
    let outcome = little.expect("a thread").join().expect("no panic");
    assert_eq!(outcome.answer(), (0, 0, 2 * FRAMES as u64));
    assert!(outcome.image == words([7, 0x90000, 0x94e20]));
}
