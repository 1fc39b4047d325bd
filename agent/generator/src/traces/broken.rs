//! Ways to break a trace, each with the place of its first bad item.

use super::items::{bytes, start};
use super::Item;
use crate::rng::Rng;

/// A way to break a trace.
#[derive(Clone, Copy, Debug, PartialEq, Eq)]
pub enum Break {
    /// It is cut, inside an item or before one.
    Cut,
    /// A frame, an answer or the end has another kind.
    FrameKind,
    AnswerKind,
    EndKind,
    /// A frame's machine is none.
    Machine,
    /// Something stands after the end.
    Longer,
    /// A frame, an answer or the end is missing.
    NoFrame,
    NoAnswer,
    NoEnd,
    /// A frame, an answer or the end stands there twice.
    TwoFrames,
    TwoAnswers,
    TwoEnds,
    /// A frame and its answer are exchanged.
    Exchanged,
    /// A frame of a wrong machine, and anything after it.
    Scrambled,
}

impl Break {
    /// All of them.
    pub const ALL: [Break; 14] = [
        Break::Cut,
        Break::FrameKind,
        Break::AnswerKind,
        Break::EndKind,
        Break::Machine,
        Break::Longer,
        Break::NoFrame,
        Break::NoAnswer,
        Break::NoEnd,
        Break::TwoFrames,
        Break::TwoAnswers,
        Break::TwoEnds,
        Break::Exchanged,
        Break::Scrambled,
    ];

    /// The kind of the items that it is done to.
    fn kind(self) -> u8 {
        match self {
            Break::AnswerKind | Break::NoAnswer | Break::TwoAnswers => 2,
            Break::EndKind | Break::NoEnd | Break::TwoEnds | Break::Longer | Break::Cut => 3,
            _ => 1,
        }
    }

    /// Breaks a trace of these items, and says where its first bad item is. `None` where it has no item
    /// of the kind.
    pub(super) fn apply(self, rng: &mut Rng, items: &[Item]) -> Option<(Vec<u8>, usize)> {
        let own: Vec<usize> = (0..items.len())
            .filter(|nth| items[*nth].kind() == self.kind())
            .collect();
        if own.is_empty() {
            return None;
        }
        let nth = rng.pick(&own);
        let at = start(items, nth);
        let mut whole = bytes(items);
        let mut items = items.to_vec();
        match self {
            Break::Cut => return Some(cut(rng, &items)),
            Break::FrameKind | Break::AnswerKind | Break::EndKind => {
                whole[at] = other_kind(rng, self.kind());
                // An end in a frame's place is right there, and what follows it is not.
                let place = if (self.kind(), whole[at]) == (1, 3) {
                    at + 1
                } else {
                    at
                };
                return Some((whole, place));
            }
            Break::Machine => {
                whole[at + 1] = 2 + rng.below(254) as u8;
                return Some((whole, at));
            }
            Break::Scrambled => {
                whole[at + 1] = rng.pick(&[2, 2, 3, 0x80, 0xff]);
                whole.truncate(at + 2 + rng.below(whole.len() - at - 1));
                whole[at + 2..].fill_with(|| rng.byte());
                return Some((whole, at));
            }
            Break::Longer => {
                let place = whole.len();
                let more = rng.pick(&[1, 1, 2, 10, 274]);
                whole.extend((0..more).map(|_| rng.pick(&[0, 1, 2, 3, 0xff])));
                return Some((whole, place));
            }
            Break::NoFrame | Break::NoAnswer | Break::NoEnd => drop(items.remove(nth)),
            Break::TwoFrames | Break::TwoAnswers | Break::TwoEnds => {
                let again = items[nth].clone();
                let length = again.bytes.len();
                items.insert(nth, again);
                return Some((bytes(&items), at + length));
            }
            Break::Exchanged => items.swap(nth, nth + 1),
        }
        Some((bytes(&items), at))
    }
}

/// A trace without its last bytes: often without a few of an item, or without whole ones. Where an item is
/// cut, it is the bad one, and where one is missing, that is at the length.
fn cut(rng: &mut Rng, items: &[Item]) -> (Vec<u8>, usize) {
    let nth = rng.below(items.len());
    let (at, length) = (start(items, nth), items[nth].bytes.len());
    let kept = match rng.below(4) {
        0 => 0,
        1 => length - 1,
        _ => rng.below(length),
    };
    let mut whole = bytes(items);
    whole.truncate(at + kept);
    (whole, at)
}

/// Another kind of item, or none.
fn other_kind(rng: &mut Rng, own: u8) -> u8 {
    loop {
        let kind = match rng.below(3) {
            0 => rng.byte(),
            _ => rng.pick(&[0, 1, 2, 3, 4]),
        };
        if kind != own {
            return kind;
        }
    }
}
