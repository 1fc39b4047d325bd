//! Lists of moves: frames moved one after another, and what the papers say of
//! it.
//!
//! A frame's plain answer is the one that it gets by itself on the starting
//! image. Where no two frames of a list have extents that share a byte, each
//! move of the list is answered so, whatever the order; and the final image and
//! the final registers of each frame are those that the accepted frames' own
//! slots give, all worked out from the starting image and the starting
//! registers. [`one_by_one`] moves the frames, [`plainly`] says what the papers
//! say, and [`are_apart`] is the condition.

#[cfg(test)]
mod tests;

use crate::relocate::{extent, relocate, Frame};
use crate::Refusal;

/// A move: the frame, the number of its machine and its own registers.
#[derive(Clone, Debug, PartialEq, Eq)]
pub struct Move {
    /// The number of the machine.
    pub machine: u64,
    /// The frame.
    pub frame: Frame,
    /// The frame's registers, 32 where it isn't refused by 25.
    pub registers: Vec<u64>,
}

/// What a list of moves leaves.
#[derive(Clone, Debug, PartialEq, Eq)]
pub struct Outcome {
    /// The answer of each move.
    pub answers: Vec<Result<u64, Refusal>>,
    /// The image after the last.
    pub image: Vec<u8>,
    /// The registers of each frame after the last.
    pub registers: Vec<Vec<u64>>,
}

/// Moves the frames one after another, each on the image that the one before
/// has left.
pub fn one_by_one(
    section: &[u8],
    image: &[u8],
    first: u64,
    old_starts: &[u64],
    new_starts: &[u64],
    moves: &[Move],
) -> Outcome {
    let mut image = image.to_vec();
    let mut registers: Vec<Vec<u64>> = moves.iter().map(|own| own.registers.clone()).collect();
    let answers = moves.iter().zip(&mut registers).map(|(own, registers)| {
        let (machine, frame) = (own.machine, own.frame);
        relocate(
            section, &mut image, first, old_starts, new_starts, machine, frame, registers,
        )
    });
    Outcome {
        answers: answers.collect(),
        image,
        registers,
    }
}

/// What the papers say of a list: each answer is the plain one. In the final
/// image a byte that the plain move of a frame changes is as that move leaves
/// it, and every other byte is the starting image's; likewise each frame's
/// registers.
pub fn plainly(
    section: &[u8],
    image: &[u8],
    first: u64,
    old_starts: &[u64],
    new_starts: &[u64],
    moves: &[Move],
) -> Outcome {
    let mut plain = Outcome {
        answers: Vec::new(),
        image: image.to_vec(),
        registers: Vec::new(),
    };
    for own in moves {
        let alone = std::slice::from_ref(own);
        let alone = one_by_one(section, image, first, old_starts, new_starts, alone);
        plain.answers.extend(alone.answers);
        plain.registers.extend(alone.registers);
        let bytes = image.iter().zip(alone.image);
        for (byte, (before, after)) in plain.image.iter_mut().zip(bytes) {
            if after != *before {
                *byte = after;
            }
        }
    }
    plain
}

/// Whether no two frames have extents that share a byte. A frame without extent
/// is free of it, as is one whose extent is empty.
pub fn are_apart(section: &[u8], moves: &[Move]) -> bool {
    let extents = moves
        .iter()
        .filter_map(|own| extent(section, own.machine, own.frame, &own.registers));
    let mut extents: Vec<(u128, u128)> = extents.filter(|(start, end)| start < end).collect();
    extents.sort();
    extents.windows(2).all(|two| two[0].1 <= two[1].0)
}
