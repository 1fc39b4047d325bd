//! Pairs of several pointers: sizes, counts, 17 after 18, places and overlaps.

use super::*;
use crate::fixtures::*;
use crate::section::encode_version_1;

/// A location of this size at RSP plus `offset`.
fn sized(size: u16, offset: i32) -> Location {
    location(3, size, 7, offset)
}

/// A pair of so many pointers at these offsets from RSP.
fn wide(pointers: u16, base: i32, derived: i32) -> (Location, Location) {
    (sized(8 * pointers, base), sized(8 * pointers, derived))
}

/// The answer for these pairs in a stack frame of so many slots that hold 0.
fn answer(slots: usize, pairs: &[(Location, Location)]) -> Result<u64, Refusal> {
    Move::of_pairs(slots, pairs).run()
}

fn null() -> (Location, Location) {
    (small(0), small(0))
}

#[test]
fn a_pair_of_size_8n_is_n_pointers_in_rising_order() {
    let mut row = Move::of_pairs(6, &[wide(3, 0, 24)]);
    row.old_starts = vec![0x10, 0x20];
    row.new_starts = vec![0x100, 0x2000];
    for (slot, content) in [0x10, 0x20, 0, 0x11, 0x22, 0x33].into_iter().enumerate() {
        row.set(8 * slot, content);
    }
    assert_eq!(row.run(), Ok(3));
    let after = [0, 8, 16, 24, 32, 40].map(|at| row.slot(at));
    assert_eq!(after, [0x10, 0x20, 0, 0x101, 0x2002, 0x33]);
}

#[test]
fn sizes_of_8_to_2048_by_eights_are_right_and_no_others() {
    for size in (0..=4_200).chain(65_520..=65_535) {
        let pointers = u64::from(size / 8);
        let right = size % 8 == 0 && (1..=256).contains(&pointers);
        let expected = if right { Ok(pointers) } else { refusal(18, 0) };
        assert_eq!(
            answer(600, &[(sized(size, 0), sized(size, 0))]),
            expected,
            "{size}"
        );
    }
}

#[test]
fn both_sizes_of_a_pair_are_equal() {
    let sizes = [0, 7, 8, 9, 16, 24, 2_040, 2_048, 2_056];
    for (base, derived) in sizes
        .into_iter()
        .flat_map(|base| sizes.map(|other| (base, other)))
    {
        let pair = (sized(base, 0), sized(derived, 0));
        let right = base == derived && [8, 16, 24, 2_040, 2_048].contains(&base);
        assert_eq!(
            answer(256, &[pair]).is_ok(),
            right,
            "{base} beside {derived}"
        );
        if !right {
            let pairs = [wide(1, 0, 0), (sized(base, 0), sized(derived, 0))];
            assert_eq!(answer(256, &pairs), refusal(18, 1));
        }
    }
}

#[test]
fn a_null_pair_is_one_pointer_of_any_sizes() {
    for (base, derived) in [(0, 0), (16, 16), (16, 24), (2_056, 3), (65_535, 8)] {
        let pair = (location(4, base, 9, 0), location(4, derived, 9, 0));
        assert_eq!(answer(2, &[pair, wide(2, 0, 0)]), Ok(3));
    }
}

/// Totals of 255 to 257 pointers, spread over pairs in several ways.
#[test]
fn refusal_17_counts_pointers() {
    let nulls = |count: usize| vec![null(); count];
    let ones = |count: usize| vec![wide(1, 0, 0); count];
    let spreads: [(usize, Vec<_>); 9] = [
        (255, vec![wide(255, 0, 0)]),
        (256, vec![wide(256, 0, 0)]),
        (257, [vec![wide(256, 0, 0)], nulls(1)].concat()),
        (257, [nulls(1), vec![wide(256, 0, 0)]].concat()),
        (256, vec![wide(128, 0, 0), wide(128, 8, 8)]),
        (
            257,
            vec![wide(128, 0, 0), wide(128, 1_024, 1_024), wide(1, 0, 0)],
        ),
        (256, [nulls(100), vec![wide(56, 0, 0)], ones(100)].concat()),
        (257, [ones(100), vec![wide(57, 0, 0)], nulls(100)].concat()),
        (512, vec![wide(256, 0, 0); 2]),
    ];
    for (pointers, pairs) in spreads {
        let expected = match pointers {
            0..=256 => Ok(pointers as u64),
            _ => refusal(17, 0),
        };
        assert_eq!(answer(256, &pairs), expected, "{} pairs", pairs.len());
    }
}

#[test]
fn in_version_3_refusal_17_comes_after_18_and_before_19_and_20() {
    let many = vec![null(); 257];
    assert_eq!(answer(8, &many), refusal(17, 0));
    let wrong = (small(1), rsp(0));
    assert_eq!(
        answer(8, &[many.clone(), vec![wrong.clone()]].concat()),
        refusal(18, 257)
    );
    assert_eq!(answer(8, &vec![wrong; 257]), refusal(18, 0));
    let beside = |pair| answer(8, &[vec![pair], many.clone()].concat());
    assert_eq!(beside(wide(1, 60, 0)), refusal(17, 0), "19 too");
    assert_eq!(beside(wide(1, 0, 4)), refusal(17, 0), "20 too");
    assert_eq!(beside(wide(256, 0, 0)), refusal(17, 0), "19 too");
    let mut row = Move::of_pairs(8, &[vec![wide(1, 0, 0)], many].concat());
    row.set(0, 7);
    assert_eq!(row.run(), refusal(17, 0), "21 too");
}

#[test]
fn a_fault_in_the_last_pointer_alone_names_the_pair() {
    let first = wide(1, 0, 0);
    assert_eq!(
        answer(8, &[first.clone(), wide(4, 0, 33)]),
        refusal(19, 1),
        "one byte"
    );
    assert_eq!(
        answer(8, &[first.clone(), wide(4, 40, 0)]),
        refusal(19, 1),
        "one slot"
    );
    assert_eq!(
        answer(8, &[first.clone(), wide(4, 32, 32)]),
        Ok(5),
        "to the last byte"
    );
    assert_eq!(answer(8, &[first.clone(), wide(4, -8, 0)]), refusal(19, 1));
    let mut row = Move::of_pairs(8, &[first, wide(4, 8, 32)]);
    row.set(32, 3);
    assert_eq!(row.run(), refusal(21, 1), "its last base");
    row.set(32, 0);
    assert_eq!(row.run(), Ok(5));
}

#[test]
fn locations_that_share_whole_slots_do_not_collide() {
    assert_eq!(answer(8, &[wide(2, 0, 0), wide(2, 8, 8)]), Ok(4));
    assert_eq!(
        answer(8, &[wide(2, 0, 0), wide(2, 4, 4)]),
        refusal(20, 1),
        "4 apart"
    );
    for apart in 1..32 {
        let own = answer(8, &[wide(4, 0, apart)]);
        let expected = match apart % 8 {
            0 => Ok(4),
            _ => refusal(20, 0),
        };
        assert_eq!(own, expected, "{apart} apart");
    }
}

/// The pair's own stretches overlap: all is read before any is written.
#[test]
fn overlapping_stretches_are_read_before_any_is_written() {
    for (base, derived) in [(0, 8), (8, 0)] {
        let mut row = Move::of_pairs(4, &[wide(3, base, derived)]);
        row.old_starts = vec![1, 2, 3, 4];
        row.new_starts = vec![10, 200, 3_000, 40_000];
        for slot in 0..4 {
            row.set(8 * slot, slot as u64 + 1);
        }
        assert_eq!(row.run(), Ok(3));
        let after = [0, 8, 16, 24].map(|at| row.slot(at));
        let expected = match base {
            0 => [1, 2 + 9, 3 + 198, 4 + 2_997],
            _ => [1 + 198, 2 + 2_997, 3 + 39_996, 4],
        };
        assert_eq!(after, expected);
    }
}

/// Any pointer of one pair with any of another.
#[test]
fn pairs_that_share_a_derived_slot_need_equal_old_bases() {
    let pairs = [wide(2, 0, 16), (rsp(32), rsp(24))];
    let mut row = Move::of_pairs(5, &pairs);
    row.set(8, 0x50000);
    row.set(32, 0x50000);
    row.set(24, 0x50010);
    assert_eq!(row.clone().run(), Ok(3));
    row.set(32, 0);
    assert_eq!(row.clone().run(), refusal(20, 1));
    row.section = Move::of_pairs(5, &[pairs[1].clone(), pairs[0].clone()]).section;
    assert_eq!(row.run(), refusal(20, 1));
}

#[test]
fn the_lowest_pair_that_collides_is_named() {
    let pairs = [
        wide(2, 0, 0),
        wide(2, 16, 16),
        wide(2, 28, 40),
        wide(3, 1, 1),
    ];
    assert_eq!(answer(8, &pairs[..2]), Ok(4));
    assert_eq!(answer(8, &pairs), refusal(20, 2));
}

/// The same pairs in version 1: sizes of 0 and 8 alone, 17 over pairs and
/// before 18, and the count is the pairs.
#[test]
fn version_1_stays_as_it_was() {
    let row = |pairs: &[(Location, Location)]| {
        let mut row = Move::of_pairs(8, &[]);
        let functions = [function(0x1000, 64, 0)];
        row.section = encode_version_1(&functions, &[], &[statepoint(0x20, pairs)]);
        row.frame.address = 0x20;
        row.run()
    };
    for size in [16, 24, 64, 248] {
        let pair = (sized(size, 0), sized(size, 0));
        assert_eq!(row(&[pair]), refusal(18, 0), "{size}");
    }
    assert_eq!(row(&[(sized(0, 0), sized(8, 0)), wide(1, 0, 0)]), Ok(2));
    let wrong = (small(1), rsp(0));
    assert_eq!(row(&vec![wrong.clone(); 257]), refusal(17, 0));
    assert_eq!(row(&vec![wrong; 256]), refusal(18, 0));
    assert_eq!(row(&vec![wide(2, 0, 0); 257]), refusal(17, 0));
    assert_eq!(row(&vec![null(); 256]), Ok(256));
}
