//! Where the bytes of a stack image stand in memory: in one piece, or in several
//! as a program with segmented stacks has them.
//!
//! The image is one buffer that holds the pieces one after the other. A list
//! says of each its first address and its length, two numbers a piece. Each
//! address is in one piece at most; pieces may touch, stand in any order and be
//! empty. A frame's extent has to be inside one piece: two that touch are two.

use crate::relocate::MAX_IMAGE;
use crate::Refusal;
use std::ops::Range;

/// Where an image stands.
#[derive(Clone, Copy, Debug)]
pub(crate) enum Stack<'a> {
    /// In one piece as long as the image, from this address on.
    Whole(u64),
    /// In the pieces of a list.
    Split(&'a [u64]),
}

/// A piece of a stack, by its addresses and by its bytes in the image.
struct Piece {
    /// The address of its first byte.
    first: u128,
    /// The address after its last byte.
    end: u128,
    /// The place of its first byte in the image.
    place: u128,
}

impl Stack<'_> {
    /// The pieces of an image of this length, in the order of their bytes.
    fn pieces(&self, length: usize) -> Vec<Piece> {
        let whole;
        let (list, _) = match *self {
            Stack::Whole(first) => {
                whole = [[first, length as u64]];
                (&whole[..], &[][..])
            }
            Stack::Split(list) => list.as_chunks::<2>(),
        };
        let mut place = 0;
        let piece = |&[first, length]: &[u64; 2]| {
            let own = Piece {
                first: first.into(),
                end: u128::from(first) + u128::from(length),
                place,
            };
            place += u128::from(length);
            own
        };
        list.iter().map(piece).collect()
    }

    /// Refusal 13: an image over its limit, a list that is odd or whose lengths
    /// don't add up to the image's, a piece that ends past the last address, or
    /// two that share one.
    pub(crate) fn check(&self, image: &[u8]) -> Result<(), Refusal> {
        let pieces = self.pieces(image.len());
        let odd = matches!(self, Stack::Split(list) if !list.len().is_multiple_of(2));
        let lengths: u128 = pieces.iter().map(|own| own.end - own.first).sum();
        let fits = image.len() <= MAX_IMAGE && lengths == image.len() as u128;
        let past = pieces.iter().any(|own| own.end > u128::from(u64::MAX));
        if odd || !fits || past || any_shared(&pieces) {
            return Err(Refusal::at(13, 0));
        }
        Ok(())
    }

    /// The bytes of the image from one address up to another; none if they
    /// aren't inside one piece. No bytes at all are inside a piece and at its
    /// end.
    pub(crate) fn stretch(&self, image: &[u8], from: u128, to: u128) -> Option<Range<usize>> {
        let pieces = self.pieces(image.len());
        let holds = |own: &&Piece| own.first <= from && to <= own.end;
        let own = pieces.iter().find(holds)?;
        let place = |address: u128| usize::try_from(own.place + address - own.first).ok();
        Some(place(from)?..place(to)?)
    }
}

/// Whether two pieces share an address, which empty ones never do.
fn any_shared(pieces: &[Piece]) -> bool {
    let mut own: Vec<(u128, u128)> = pieces.iter().map(|own| (own.first, own.end)).collect();
    own.retain(|(first, end)| first < end);
    own.sort();
    own.windows(2).any(|two| two[1].0 < two[0].1)
}
