//! Flat sections of the largest length, and ones that are a byte too long.

use super::edges::of_counts;
use super::layout::{Flat, LARGEST, LEAST, VERSION};
use crate::edges::Visit;
use crate::Case;

/// Hands over all of them.
pub fn all(visit: Visit) {
    sections(&mut |flat, reserved| whole(flat, reserved, visit));
    let mut bytes = vec![0; LARGEST];
    bytes[0] = VERSION;
    visit(Case::known("largest, zeros", bytes.clone(), 38, 0));
    bytes.push(0);
    visit(Case::known("over the largest, zeros", bytes, 36, 0));
    visit(Case::known("largest, ones", vec![0xff; LARGEST], 37, 0));
}

/// Hands over whole sections of exactly the largest length, with as many constants, frames,
/// records, locations or live-outs as there can be, each with the place of its last reserved byte.
/// Where one array doesn't reach the length, a few entries of another fill it.
pub fn sections(visit: &mut dyn FnMut(&Flat, usize)) {
    visit(&of_counts([2_097_148, 0, 0, 0, 0, 0]), LEAST - 1);
    visit(&of_counts([4, 599_184, 0, 0, 0, 0]), LARGEST - 28 + 17);
    visit(&of_counts([0, 0, 0, 762_599, 0, 1]), LARGEST - 4 + 2);
    visit(&of_counts([0, 0, 0, 0, 2_097_148, 0]), LARGEST - 8 + 1);
    visit(&of_counts([0, 0, 0, 0, 0, 4_194_296]), LARGEST - 4 + 2);
}

/// A section of exactly the largest length: as it is, with its last reserved bit set, a byte too
/// long, and a byte too short.
fn whole(flat: &Flat, reserved: usize, visit: Visit) {
    let mut bytes = flat.encode();
    assert_eq!(bytes.len(), LARGEST);
    visit(Case::known("largest", bytes.clone(), 0, 0));
    bytes[reserved] = 0x80;
    visit(Case::known("largest, reserved bit", bytes.clone(), 40, 0));
    bytes.push(0);
    visit(Case::known("over the largest", bytes.clone(), 36, 0));
    bytes.truncate(LARGEST - 1);
    visit(Case::known("largest, cut", bytes, 38, 0));
}
