//! The thread call over a linked section, worked out by hand.

use super::tests::{row_c_1, row_h_at};
use super::thread;
use crate::editions::{Settings, Store, AARCH64, AMD64};
use crate::fixtures::*;
use crate::restore::Restore;
use crate::section::encode;
use crate::Refusal;

/// Edition 1 takes version 3, 256 pointers and AMD64; 2 version 1 alone; 3 is of
/// AArch64; 4 takes one pointer; 5 is retired.
fn store() -> Store {
    let mut store = Store::empty();
    let own = Settings {
        largest_count: 256,
        machine: AMD64,
        version_1: true,
        version_3: true,
    };
    let older = Settings {
        version_3: false,
        ..own
    };
    let arm = Settings {
        machine: AARCH64,
        ..own
    };
    let one = Settings {
        largest_count: 1,
        ..own
    };
    for settings in [own, older, arm, one, own] {
        store.make(settings).unwrap();
    }
    store.retire(5).unwrap();
    store
}

/// A thread over a linked section.
struct Call {
    edition: u64,
    section: Vec<u8>,
    image: Vec<u8>,
    first: u64,
    table: [Vec<u64>; 2],
    list: Vec<u64>,
    registers: Vec<u64>,
}

/// Frames at these addresses with these stack pointers, over these maps. The
/// image is that of row I as often as there are frames, from 0x7000 on.
fn call(maps: &[Vec<u8>], frames: &[(u64, u64)]) -> Call {
    let frames: Vec<[u64; 4]> = frames.iter().map(|&(at, rsp)| [at, 0, rsp, 9]).collect();
    let (list, registers) = lists(AMD64, &frames);
    Call {
        edition: 1,
        section: maps.concat(),
        image: Move::row_i().image.repeat(frames.len()),
        first: 0x7000,
        table: [vec![0x50000], vec![0x90000]],
        list,
        registers,
    }
}

impl Call {
    /// Moves the thread; a refused one must leave image and registers as they
    /// were.
    fn run(&mut self) -> Result<u64, Refusal> {
        let before = (self.image.clone(), self.registers.clone());
        let restore = Restore {
            store: &store(),
            edition: self.edition,
            section: &self.section,
            first: self.first,
            old_starts: &self.table[0],
            new_starts: &self.table[1],
        };
        let (image, registers) = (&mut self.image, &mut self.registers);
        let answer = thread(&restore, image, AMD64, &self.list, registers);
        let same = (&self.image, &self.registers) == (&before.0, &before.1);
        assert!(answer.is_ok() || same);
        answer
    }

    fn slots(&self) -> Vec<u64> {
        let (slots, _) = self.image.as_chunks();
        slots.iter().map(|slot| u64::from_le_bytes(*slot)).collect()
    }
}

const KEPT: u64 = 0xEEEE_EEEE_EEEE_EEEE;

#[test]
fn each_frame_is_moved_by_its_own_map() {
    let mut row = call(&[row_c(), row_h()], &[(0x1020, 0x7000)]);
    assert_eq!(row.run(), Ok(2));
    assert_eq!(row.slots(), [KEPT, 0x90000, 0x94E20]);
    let maps = [row_h(), row_c(), row_h_at(0x2000)];
    let mut two = call(&maps, &[(0x2020, 0x7000), (0x1020, 0x7018)]);
    assert_eq!(two.run(), Ok(4));
    let moved = [KEPT, 0x90000, 0x94E20, KEPT, 0x90000, 0x94E20];
    assert_eq!(two.slots(), moved);
    assert_eq!(call(&maps, &[]).run(), Ok(0));
}

#[test]
fn all_move_or_none_does() {
    let maps = [row_h(), row_h_at(0x2000)];
    let mut two = call(&maps, &[(0x1020, 0x7000), (0x2020, 0x7018)]);
    // The second frame's base is no old start.
    two.image[24 + 8] = 8;
    assert_eq!(two.run(), refusal(21, 1));
    // The second frame is past the image.
    let mut past = call(&maps, &[(0x1020, 0x7000), (0x2020, 0x7019)]);
    assert_eq!(past.run(), refusal(16, 1));
    // The second frame has the first one's last byte.
    let mut shared = call(&maps, &[(0x1020, 0x7018), (0x2020, 0x7001)]);
    shared.image[9..25].copy_from_slice(&[0; 16]);
    assert_eq!(shared.run(), refusal(26, 1));
}

#[test]
fn records_are_counted_over_all_maps() {
    let twice = [row_h(), row_c(), row_h()];
    assert_eq!(call(&twice, &[(0x1020, 0x7000)]).run(), refusal(15, 0));
    assert_eq!(call(&twice, &[(0x1021, 0x7000)]).run(), refusal(10, 0));
    let more = [row_h(), row_h_at(0x2000), row_h()];
    let frames = [(0x2020, 0x7000), (0x1020, 0x7018)];
    assert_eq!(call(&more, &frames).run(), refusal(15, 1));
    let frames = [(0x2020, 0x7000), (0x2021, 0x7018)];
    assert_eq!(call(&more, &frames).run(), refusal(10, 1));
}

/// The record of a map, at its function's offset 0x20.
fn map(address: u64, stack_size: u64, pool: &[u64], pairs: &[(u8, i32)]) -> Vec<u8> {
    let locations: Vec<_> = pairs
        .iter()
        .map(|&(kind, offset)| location(kind, 8, 7, offset))
        .collect();
    let pairs: Vec<_> = locations
        .chunks(2)
        .map(|pair| (pair[0].clone(), pair[1].clone()))
        .collect();
    encode(
        &[function(address, stack_size, 1)],
        pool,
        &[statepoint(0x20, &pairs)],
    )
}

/// Two maps whose records are alike: the entry 0 of one pool is 0, that of the
/// other isn't; and one function's frames have no bytes.
#[test]
fn constants_and_stack_sizes_are_the_own_maps() {
    let null = [(5, 0), (5, 0)];
    let pools = [map(0x1000, 24, &[1], &null), map(0x2000, 24, &[0], &null)];
    assert_eq!(call(&pools, &[(0x2020, 0x7000)]).run(), Ok(1));
    assert_eq!(call(&pools, &[(0x1020, 0x7000)]).run(), refusal(18, 0));
    let pair = [(3, 8), (3, 8)];
    let sizes = [map(0x1000, 0, &[], &pair), map(0x2000, 24, &[], &pair)];
    assert_eq!(call(&sizes, &[(0x2020, 0x7000)]).run(), Ok(1));
    assert_eq!(call(&sizes, &[(0x1020, 0x7000)]).run(), refusal(19, 0));
    let unknown = [map(0x1000, u64::MAX, &[], &[]), row_h_at(0x2000)];
    assert_eq!(call(&unknown, &[(0x2020, 0x7000)]).run(), Ok(2));
    assert_eq!(call(&unknown, &[(0x1020, 0x7000)]).run(), refusal(16, 0));
}

/// A call with every fault, which are taken away one by one in their order.
#[test]
fn the_order_of_refusals() {
    let maps = [row_h(), row_c_1(), row_h_at(0x2000), vec![0]];
    let mut row = call(&maps, &[(0x1020, 0x7000), (0x2020, 0x7010)]);
    (row.edition, row.first) = (5, u64::MAX);
    row.table[1].push(0);
    row.list.push(0);
    assert_eq!(row.run(), refusal(31, 0));
    row.edition = 2;
    assert_eq!(row.run(), refusal(1, 320));
    row.section.pop();
    assert_eq!(row.run(), refusal(27, 152));
    row.section[152] = 3;
    assert_eq!(row.run(), refusal(33, 0));
    row.edition = 3;
    assert_eq!(row.run(), refusal(33, 0));
    row.edition = 4;
    assert_eq!(row.run(), refusal(13, 0));
    row.first = 0x7000;
    assert_eq!(row.run(), refusal(14, 0));
    row.table[1].pop();
    assert_eq!(row.run(), refusal(25, 0));
    row.list.pop();
    assert_eq!(row.run(), refusal(17, 0));
    row.edition = 1;
    // The slots of the second frame are not those of row I.
    assert_eq!(row.run(), refusal(21, 1));
    row.image.fill(0);
    assert_eq!(row.run(), refusal(26, 1));
    row.registers[32 + 7] = 0x7018;
    assert_eq!(row.run(), Ok(4));
}
