//! The items of a trace, and its bytes. The shape is written here once more, by itself.

use crate::frames::Stop;

/// Bytes of each item, its kind included.
pub const FRAME: usize = 1 + 1 + 8 + 8 + 8 * 32;
pub const ANSWER: usize = 1 + 1 + 8;
pub const END: usize = 1;

/// An item of a trace.
#[derive(Clone, Debug, PartialEq, Eq)]
pub struct Item {
    pub bytes: Vec<u8>,
}

impl Item {
    /// The item of a frame on a machine.
    pub fn frame(machine: u64, stop: &Stop) -> Item {
        let mut bytes = vec![1, machine as u8];
        let numbers = [stop.address, stop.named];
        for number in numbers.into_iter().chain(stop.registers) {
            bytes.extend_from_slice(&number.to_le_bytes());
        }
        Item { bytes }
    }

    /// The item of an answer: number, and place or count.
    pub fn answer(number: u8, value: u64) -> Item {
        let mut bytes = vec![2, number];
        bytes.extend_from_slice(&value.to_le_bytes());
        Item { bytes }
    }

    /// The end.
    pub fn end() -> Item {
        Item { bytes: vec![3] }
    }

    /// The kind.
    pub fn kind(&self) -> u8 {
        self.bytes[0]
    }
}

/// The bytes of a row of items.
pub(super) fn bytes(items: &[Item]) -> Vec<u8> {
    items.iter().flat_map(|item| item.bytes.clone()).collect()
}

/// Where an item of a row begins, or the row ends.
pub(super) fn start(items: &[Item], nth: usize) -> usize {
    items[..nth].iter().map(|item| item.bytes.len()).sum()
}
