//! Stacks in several pieces: the image of a scene cut up, so that pieces touch, leave gaps and stand in any
//! order, with empty ones between; pieces that can't be; and what a list of frames is answered on them.

mod wrong;

use super::thread::Thread;
use super::{plain, shuffle, Scene, MOST_POINTERS};
use crate::rng::Rng;
use std::ops::Range;
pub use wrong::Wrong;

/// The bytes of a piece.
#[derive(Clone, Debug, PartialEq, Eq)]
enum Source {
    /// Those of the scene's image.
    Scene(Range<usize>),
    /// Some that no frame has.
    Other(Vec<u8>),
}

/// A piece of a stack.
#[derive(Clone, Debug, PartialEq, Eq)]
struct Piece {
    first: u64,
    source: Source,
}

impl Piece {
    fn length(&self) -> usize {
        match &self.source {
            Source::Scene(range) => range.len(),
            Source::Other(bytes) => bytes.len(),
        }
    }

    /// Whether the addresses are inside, or are none and stand inside or at the end.
    fn holds(&self, from: i128, to: i128) -> bool {
        let first = i128::from(self.first);
        first <= from && to <= first + self.length() as i128
    }
}

/// The image of a scene in pieces.
#[derive(Clone, Debug)]
pub struct Split {
    pieces: Vec<Piece>,
    /// How the pieces were spoiled, so that they are refused by 13.
    wrong: Option<Wrong>,
    /// What the list and the buffer are where the pieces were spoiled.
    spoiled: Option<(Vec<u64>, Vec<u8>)>,
}

impl Split {
    /// The image of a scene as one piece.
    pub fn one(scene: &Scene) -> Split {
        Split::of(vec![piece(scene, 0..scene.image.len())])
    }

    fn of(pieces: Vec<Piece>) -> Split {
        Split {
            pieces,
            wrong: None,
            spoiled: None,
        }
    }

    /// The image of a scene in random pieces: often cut at the ends of frames and inside them. Now and then
    /// some pieces are left out, empty ones and ones of other bytes are added, and they are in any order.
    pub fn any(rng: &mut Rng, scene: &Scene) -> Split {
        let mut cuts = cuts(rng, scene);
        cuts.extend([0, scene.image.len()]);
        cuts.sort();
        let ends = cuts.windows(2).map(|two| piece(scene, two[0]..two[1]));
        let mut pieces: Vec<Piece> = ends.collect();
        if rng.one_in(6) {
            pieces.remove(rng.below(pieces.len()));
        }
        for _ in 0..rng.pick(&[0, 0, 1, 3]) {
            let first = near(rng, scene);
            let empty = Source::Other(Vec::new());
            pieces.push(Piece {
                first,
                source: empty,
            });
        }
        if rng.one_in(3) {
            pieces.extend(apart(rng, scene));
        }
        if rng.one_in(2) {
            shuffle(rng, &mut pieces);
        }
        Split::of(pieces)
    }

    /// The list: first address and length of each piece.
    pub fn list(&self) -> Vec<u64> {
        let two = |own: &Piece| [own.first, own.length() as u64];
        let list = || self.pieces.iter().flat_map(two).collect();
        self.spoiled
            .as_ref()
            .map_or_else(list, |(list, _)| list.clone())
    }

    /// The buffer with the bytes of all pieces, those of the scene from this image of it.
    pub fn buffer(&self, image: &[u8]) -> Vec<u8> {
        let bytes = |own: &Piece| match &own.source {
            Source::Scene(range) => image[range.clone()].to_vec(),
            Source::Other(bytes) => bytes.clone(),
        };
        let buffer = || self.pieces.iter().flat_map(bytes).collect();
        self.spoiled
            .as_ref()
            .map_or_else(buffer, |(_, buffer)| buffer.clone())
    }

    /// How many pieces there are.
    pub fn count(&self) -> usize {
        self.pieces.len()
    }

    /// How the pieces were spoiled, if they were.
    pub fn wrong(&self) -> Option<Wrong> {
        self.wrong
    }

    /// What a list of frames of the scene is answered on these pieces, where nothing is wrong with the
    /// section, the machine and the table: number and place, both 0 where it is accepted. `None` where a
    /// frame outside the image stands in a piece that isn't the image's.
    pub fn answer(&self, thread: &Thread) -> Option<(u64, u64)> {
        self.answer_under(thread, MOST_POINTERS)
    }

    /// The answer where a frame may have so many pointers.
    pub fn answer_under(&self, thread: &Thread, most: usize) -> Option<(u64, u64)> {
        if self.wrong.is_some() {
            return Some((13, 0));
        }
        if !thread.fits() {
            return Some((25, 0));
        }
        for (position, stop) in thread.order.iter().enumerate() {
            let number = self.of_frame(&thread.scene, *stop, most)?;
            if number != 0 {
                return Some((number, position as u64));
            }
        }
        let shared = thread.first_shared();
        Some(shared.map_or((0, 0), |position| (26, position as u64)))
    }

    /// The number of a frame: 10, 15 and 12 as on the whole image, then 16 where it isn't inside one piece.
    fn of_frame(&self, scene: &Scene, stop: usize, most: usize) -> Option<u64> {
        let (number, _) = plain::own_refusal_under(scene, stop, most);
        if [10, 15, 12].contains(&number) {
            return Some(number);
        }
        let size = scene.stack_size(stop);
        let (from, to) = extent(scene, stop);
        if size == u64::MAX || !self.pieces.iter().any(|own| own.holds(from, to)) {
            return Some(16);
        }
        (number != 16).then_some(number)
    }

    /// Whether a frame stands across two pieces: inside the image, and inside none of them.
    pub fn is_across(&self, scene: &Scene, stop: usize) -> bool {
        let (from, to) = extent(scene, stop);
        let whole = piece(scene, 0..scene.image.len());
        let touching =
            |own: &Piece| (own.holds(from, from) || own.holds(to, to)) && own.length() > 0;
        let ends = self.pieces.iter().filter(|own| touching(own)).count();
        whole.holds(from, to) && ends > 1 && !self.pieces.iter().any(|own| own.holds(from, to))
    }
}

/// The piece of a scene's image that has these bytes.
fn piece(scene: &Scene, range: Range<usize>) -> Piece {
    Piece {
        first: scene.first + range.start as u64,
        source: Source::Scene(range),
    }
}

/// The addresses of a frame: its first byte, and the one after its last.
fn extent(scene: &Scene, stop: usize) -> (i128, i128) {
    let from = i128::from(scene.stack_pointer(stop));
    (from, from + i128::from(scene.stack_size(stop)))
}

/// Places at which the image is cut: at both ends of frames, now and then inside one, and anywhere.
fn cuts(rng: &mut Rng, scene: &Scene) -> Vec<usize> {
    let length = scene.image.len();
    let mut cuts = Vec::new();
    for stop in 0..scene.stops.len() {
        let (start, size) = (scene.start(stop), i128::from(scene.stack_size(stop)));
        let inside = start + 1 + rng.below(64) as i128;
        let places = [(start, 3), (start + size, 3), (inside, 24)];
        for (place, many) in places {
            if let Ok(place) = usize::try_from(place) {
                if place <= length && rng.one_in(many) {
                    cuts.push(place);
                }
            }
        }
    }
    if rng.one_in(6) {
        cuts.push(rng.below(length + 1));
    }
    cuts
}

/// The address of a byte of the image, of one beside it, or any.
fn near(rng: &mut Rng, scene: &Scene) -> u64 {
    let inside = scene.first + rng.below(scene.image.len() + 1) as u64;
    let last = scene.first + scene.image.len() as u64;
    match rng.below(6) {
        0 => scene.first,
        1 => last,
        2 => rng.pick(&[0, u64::MAX]),
        3 => rng.word(),
        _ => inside,
    }
}

/// A piece of other bytes that shares no address with the image and has no frame; it touches the image as
/// often as not.
fn apart(rng: &mut Rng, scene: &Scene) -> Option<Piece> {
    let bytes: Vec<u8> = (0..1 + rng.below(40)).map(|_| rng.byte()).collect();
    let (first, length) = (i128::from(scene.first), bytes.len() as i128);
    let end = first + scene.image.len() as i128;
    let from = match rng.below(4) {
        0 => first - length,
        1 => end,
        2 => i128::from(u64::MAX) - length,
        _ => i128::from(rng.word()),
    };
    let own = Piece {
        first: u64::try_from(from).ok()?,
        source: Source::Other(bytes),
    };
    let inside = from + length <= i128::from(u64::MAX);
    let away = from + length <= first || end <= from;
    let held = (0..scene.stops.len()).any(|stop| {
        let (from, to) = extent(scene, stop);
        own.holds(from, to)
    });
    (inside && away && !held).then_some(own)
}

#[cfg(test)]
mod tests;
