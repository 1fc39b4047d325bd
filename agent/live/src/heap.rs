//! The heap that the programs walk: its objects, its copy at other addresses, and the move table.
//!
//! An object is words of eight bytes: the next object or 0, the side object or 0, the number of
//! values, and the values.

use crate::image::Image;
use crate::memory::Memory;
use std::rc::Rc;

/// The length of a heap's mapping in bytes.
const LENGTH: usize = 8192;

/// The bytes of a word.
const WORD: u64 = 8;

/// The words of an object before its values.
const HEAD: usize = 3;

/// What fills the words of a heap that no object has: no program may read it.
const FILLER: u64 = 0xEEEE_EEEE_EEEE_EEEE;

/// The objects of the first heap, in the order of their addresses: the number of values, and the
/// numbers of the next and of the side object. The program starts at object 0 and ends at 7.
const OBJECTS: [(usize, Option<usize>, Option<usize>); 9] = [
    (3, Some(2), Some(1)),
    (4, None, None),
    (5, Some(4), Some(3)),
    (2, None, Some(1)),
    (6, Some(5), None),
    (2, Some(7), Some(6)),
    (3, None, None),
    (4, None, Some(8)),
    (5, None, Some(0)),
];

/// An object: its first address and its length in bytes.
#[derive(Clone, Copy, Debug, PartialEq, Eq)]
pub struct Object {
    /// The address of its first byte.
    pub start: u64,
    /// Its bytes.
    pub length: u64,
}

/// Where each object was and where it is now, ordered by old starts.
#[derive(Clone, Debug, Default)]
pub struct Table {
    /// The old starts, strictly rising.
    pub old: Vec<u64>,
    /// The new starts, entry by entry.
    pub new: Vec<u64>,
}

impl Table {
    /// The new start of the object with an old start; 0 stays 0.
    pub fn moved(&self, old: u64) -> Option<u64> {
        if old == 0 {
            return Some(0);
        }
        let entry = self.old.binary_search(&old).ok()?;
        Some(self.new[entry])
    }

    /// The table without its first object.
    pub fn without_first(&self) -> Table {
        Table {
            old: self.old[1..].to_vec(),
            new: self.new[1..].to_vec(),
        }
    }
}

/// A heap in a mapping of its own, with objects ordered by their addresses.
pub struct Heap {
    memory: Rc<dyn Memory>,
    start: u64,
    root: u64,
    objects: Vec<Object>,
}

impl Heap {
    /// The first heap. Its objects touch: one past the end of one is the start of the next, and
    /// before the start of one is inside the one before.
    pub fn first(memory: &Rc<dyn Memory>) -> Heap {
        let start = memory.map(LENGTH);
        let mut objects = Vec::new();
        let mut at = start + LENGTH as u64 / 2;
        for (values, _, _) in OBJECTS {
            let length = (HEAD + values) as u64 * WORD;
            objects.push(Object { start: at, length });
            at += length;
        }
        let mut words = filled(start);
        let mut value = 1_u64;
        for (object, (values, next, side)) in objects.iter().zip(OBJECTS) {
            let address = |number: Option<usize>| number.map_or(0, |n| objects[n].start);
            words.set(object.start, address(next));
            words.set(object.start + WORD, address(side));
            words.set(object.start + 2 * WORD, values as u64);
            for at in (object.start..).step_by(8).skip(HEAD).take(values) {
                value = value
                    .wrapping_mul(6_364_136_223_846_793_005)
                    .wrapping_add(1_442_695);
                words.set(at, value >> 20);
            }
        }
        Heap::written(memory, objects[0].start, objects, &words)
    }

    /// A copy at other addresses, and the table that leads there. The objects stand in the other
    /// order and apart, so that each moves by a distance of its own.
    pub fn copy(&self) -> (Heap, Table) {
        let start = self.memory.map(LENGTH);
        let mut at = start + LENGTH as u64 / 4;
        let mut objects = Vec::new();
        for (number, object) in self.objects.iter().rev().enumerate() {
            objects.push(Object {
                start: at,
                ..*object
            });
            at += object.length + WORD * (1 + number as u64 % 3);
        }
        let table = Table {
            old: self.objects.iter().map(|object| object.start).collect(),
            new: objects.iter().rev().map(|object| object.start).collect(),
        };
        let moved = |old| table.moved(old).expect("objects hold starts of objects");
        let old = self.words();
        let mut words = filled(start);
        for object in &self.objects {
            let to = moved(object.start);
            for at in (0..object.length).step_by(8) {
                let word = old.word(object.start + at);
                words.set(to + at, if at < 2 * WORD { moved(word) } else { word });
            }
        }
        let root = moved(self.root);
        (Heap::written(&self.memory, root, objects, &words), table)
    }

    /// The heap with these words, of which nothing is in memory yet but its mapping.
    fn written(memory: &Rc<dyn Memory>, root: u64, objects: Vec<Object>, words: &Image) -> Heap {
        // SAFETY: the mapping was made for this heap and is as long as the words; no reference
        // points into it.
        unsafe { memory.write(words.first, &words.bytes) };
        Heap {
            memory: Rc::clone(memory),
            start: words.first,
            root,
            objects,
        }
    }

    /// All words of the mapping.
    fn words(&self) -> Image {
        let mut words = filled(self.start);
        // SAFETY: the mapping is this heap's own and can be read until `retire` takes the heap.
        unsafe { self.memory.read(self.start, &mut words.bytes) };
        words
    }

    /// Makes the heap unreadable for good.
    pub fn retire(self) {
        // SAFETY: the mapping is this heap's own; nothing but words is taken from it, never a
        // reference, and as the heap is given away here, no word is taken any more.
        unsafe { self.memory.retire(self.start, LENGTH) };
    }

    /// The objects, ordered by their addresses.
    pub fn objects(&self) -> &[Object] {
        &self.objects
    }

    /// The address of the object that the program starts at.
    pub fn root(&self) -> u64 {
        self.root
    }
}

/// The words of a mapping that no object has yet.
fn filled(start: u64) -> Image {
    let words = [FILLER; LENGTH / WORD as usize];
    Image {
        first: start,
        bytes: words.into_iter().flat_map(u64::to_le_bytes).collect(),
    }
}

#[cfg(test)]
mod tests {
    use super::*;
    use crate::system::Own;

    fn first() -> Heap {
        let memory: Rc<dyn Memory> = Rc::new(Own);
        Heap::first(&memory)
    }

    /// Each object moves by a distance of its own, its pointers are moved and its values are not.
    #[test]
    fn a_copy_is_the_same_at_other_addresses() {
        let first = first();
        let (second, table) = first.copy();
        let (first_words, second_words) = (first.words(), second.words());
        assert!(table.old.is_sorted_by(|one, next| one < next));
        assert!(second.objects.is_sorted_by_key(|object| object.start));
        let distances = table
            .old
            .iter()
            .zip(&table.new)
            .map(|(old, new)| new.wrapping_sub(*old));
        let distinct: std::collections::BTreeSet<u64> = distances.collect();
        assert_eq!(distinct.len(), OBJECTS.len());
        for (number, object) in first.objects.iter().enumerate() {
            let copied = second.objects[OBJECTS.len() - 1 - number];
            assert_eq!(
                (Some(copied.start), copied.length),
                (table.moved(object.start), object.length)
            );
            for at in (0..object.length).step_by(8) {
                let (old, new) = (
                    first_words.word(object.start + at),
                    second_words.word(copied.start + at),
                );
                let expected = if at < 16 { table.moved(old) } else { Some(old) };
                assert_eq!(Some(new), expected, "object {number}, byte {at}");
            }
        }
    }

    /// The objects of the first heap touch, so that a pointer out of one is a pointer into another.
    #[test]
    fn the_first_objects_touch() {
        let objects = first().objects;
        for two in objects.windows(2) {
            assert_eq!(two[0].start + two[0].length, two[1].start);
        }
    }
}
