//! Pieces that can't be: each way gives 13.

use super::Split;
use crate::frames::MOST_IMAGE;
use crate::rng::Rng;

/// How a list of pieces is spoiled.
#[derive(Clone, Copy, Debug, PartialEq, Eq)]
pub enum Wrong {
    /// A length is one more or one less than the buffer has.
    Length,
    /// The buffer is longer or shorter than the pieces.
    Buffer,
    /// The lengths add up to the buffer's only modulo 2^64.
    Wrapped,
    /// A piece ends past the last address.
    Past,
    /// Two pieces share addresses: one of them, some, or all.
    Shared,
    /// There is one number too many, or too few.
    Odd,
    /// The image is over its limit.
    Large,
}

impl Wrong {
    /// All of them.
    pub const ALL: [Wrong; 7] = [
        Wrong::Length,
        Wrong::Buffer,
        Wrong::Wrapped,
        Wrong::Past,
        Wrong::Shared,
        Wrong::Odd,
        Wrong::Large,
    ];
}

impl Split {
    /// The pieces spoiled in this way, so that each list of frames is refused by 13. `image` is the
    /// scene's.
    pub fn spoil(mut self, rng: &mut Rng, image: &[u8], wrong: Wrong) -> Split {
        let (mut list, mut buffer) = (self.list(), self.buffer(image));
        if list.is_empty() {
            list.extend([0x7000, 0]);
        }
        match wrong {
            Wrong::Length => {
                let nth = 2 * rng.below(list.len() / 2) + 1;
                list[nth] = match list[nth] {
                    0 => 1,
                    length => length - 1 + 2 * rng.below(2) as u64,
                };
            }
            Wrong::Buffer if buffer.is_empty() || rng.one_in(2) => buffer.push(0),
            Wrong::Buffer => buffer.truncate(rng.below(buffer.len())),
            Wrong::Wrapped => {
                let half = 1 << 63;
                list.extend([rng.below(9) as u64, half, rng.below(9) as u64, half]);
            }
            Wrong::Past => past(rng, &mut list, &mut buffer),
            Wrong::Shared => shared(rng, &mut list, &mut buffer),
            Wrong::Odd if rng.one_in(2) => list.push(rng.number(64)),
            Wrong::Odd => drop(list.pop()),
            Wrong::Large => {
                let length = (MOST_IMAGE + 1 + rng.below(9)).saturating_sub(buffer.len());
                add(rng, &mut list, &mut buffer, 1 << 40, length);
            }
        }
        self.wrong = Some(wrong);
        self.spoiled = Some((list, buffer));
        self
    }
}

/// Adds a piece of other bytes anywhere.
fn add(rng: &mut Rng, list: &mut Vec<u64>, buffer: &mut Vec<u8>, first: u64, length: usize) {
    let nth = rng.below(list.len() / 2 + 1);
    list.splice(2 * nth..2 * nth, [first, length as u64]);
    buffer.resize(buffer.len() + length, 0);
}

/// A piece that ends one past the last address, or more.
fn past(rng: &mut Rng, list: &mut Vec<u64>, buffer: &mut Vec<u8>) {
    let length = 1 + rng.below(40);
    let any = rng.below(length);
    let back = rng.pick(&[0, length - 1, any]);
    add(rng, list, buffer, u64::MAX - back as u64, length);
}

/// A piece that has an address of another one: its first, its last, or one between. Where all are empty,
/// two that have the same.
fn shared(rng: &mut Rng, list: &mut Vec<u64>, buffer: &mut Vec<u8>) {
    let (pairs, _) = list.as_chunks::<2>();
    let filled: Vec<[u64; 2]> = pairs.iter().copied().filter(|own| own[1] > 0).collect();
    if filled.is_empty() {
        add(rng, list, buffer, 0x7000, 8);
        add(rng, list, buffer, 0x7007, 8);
        return;
    }
    let [first, length] = rng.pick(&filled);
    let own = 1 + rng.below(24) as u64;
    let first = match rng.below(4) {
        0 => (first + 1).saturating_sub(own),
        1 => first + length - 1,
        2 => first,
        _ => first + rng.below(length as usize) as u64,
    };
    add(rng, list, buffer, first, own as usize);
}
