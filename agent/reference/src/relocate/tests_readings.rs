//! The open points of frames and of lists of moves, each as it is read here.

use super::*;
use crate::fixtures::*;
use crate::section::encode;

#[test]
fn the_byte_2_64_minus_1_is_in_no_image() {
    let mut row = Move::row_i();
    row.first = u64::MAX - 24;
    row.set_stack_pointer(row.first);
    assert_eq!(row.run(), Ok(2), "first address + length is 2^64 - 1");
    row.first += 1;
    row.set_stack_pointer(row.first);
    assert_eq!(row.run(), refusal(13, 0));
    row.image.clear();
    row.first = u64::MAX;
    assert_eq!(row.run(), refusal(16, 0), "an empty image may begin there");
}

#[test]
fn new_starts_may_repeat_fall_and_equal_old_starts() {
    let mut row = Move::of_pairs(3, &[(rsp(0), rsp(0)), (rsp(8), rsp(8)), (rsp(16), rsp(16))]);
    row.old_starts = vec![0x10, 0x20, 0x30];
    row.new_starts = vec![0x20, 0x10, 0x10];
    for (at, start) in [(0, 0x10), (8, 0x20), (16, 0x30)] {
        row.set(at, start);
    }
    assert_eq!(row.run(), Ok(3));
    assert_eq!(
        [0, 8, 16].map(|at| row.slot(at)),
        [0x20, 0x10, 0x10],
        "applied once"
    );
}

#[test]
fn a_table_of_65536_entries_passes_and_one_more_does_not() {
    let mut row = Move::row_i();
    row.old_starts = (0x50000 - 65_535..=0x50000).collect();
    row.new_starts = vec![0x90000; 65_536];
    assert_eq!(row.run(), Ok(2));
    row.old_starts.push(0x50001);
    row.new_starts.push(1);
    assert_eq!(row.run(), refusal(14, 0));
}

#[test]
fn an_empty_table_passes() {
    let mut row = Move::row_i();
    row.old_starts.clear();
    row.new_starts.clear();
    assert_eq!(row.run(), refusal(21, 0));
    row.set(8, 0);
    assert_eq!(row.run(), Ok(2));
}

#[test]
fn an_empty_extent_starts_inside_the_image_or_at_its_end() {
    let mut row = Move::row_i();
    row.section = one_function(0, &[], &[statepoint(0x20, &[])]);
    for (rsp, expected) in [
        (0x6FFF, refusal(16, 0)),
        (0x7000, Ok(0)),
        (0x700C, Ok(0)),
        (0x7018, Ok(0)),
        (0x7019, refusal(16, 0)),
    ] {
        row.set_stack_pointer(rsp);
        assert_eq!(row.run(), expected, "{rsp:x}");
    }
    row.image.clear();
    row.set_stack_pointer(0x7000);
    assert_eq!(
        row.run(),
        Ok(0),
        "an empty image with RSP at its first address"
    );
}

#[test]
fn null_pairs_count_for_17_and_in_the_answer() {
    let null = (small(0), small(0));
    assert_eq!(Move::of_pairs(1, &vec![null.clone(); 256]).run(), Ok(256));
    assert_eq!(Move::of_pairs(1, &vec![null; 257]).run(), refusal(17, 0));
}

/// The answer for one pair with a pool of 0, 1 and 0.
fn pooled(base: Location, derived: Location) -> Result<u64, Refusal> {
    let mut row = Move::row_i();
    row.section = one_function(24, &[0, 1, 0], &[statepoint(0x20, &[(base, derived)])]);
    row.run()
}

#[test]
fn a_null_pair_may_mix_kinds_4_and_5_of_any_size_and_register() {
    let (small, pool) = (location(4, 0, 99, 0), location(5, 77, 3, 2));
    assert_eq!(pooled(small.clone(), pool.clone()), Ok(1));
    assert_eq!(pooled(pool.clone(), small.clone()), Ok(1));
    assert_eq!(pooled(pool.clone(), location(5, 8, 0, 0)), Ok(1));
    assert_eq!(
        pooled(pool.clone(), location(5, 8, 0, 1)),
        refusal(18, 0),
        "pool entry 1 is 1"
    );
    assert_eq!(
        pooled(small, rsp(8)),
        refusal(18, 0),
        "one constant 0 beside a slot"
    );
    assert_eq!(pooled(rsp(8), pool), refusal(18, 0));
}

#[test]
fn kind_5_among_the_first_three_is_12_whatever_the_pool_holds() {
    for at in 0..3 {
        let mut locations = vec![small(0), small(0), small(0)];
        locations[at] = location(5, 8, 0, 0);
        let mut row = Move::row_i();
        row.section = one_function(24, &[0], &[record(0x20, locations, vec![])]);
        assert_eq!(row.run(), refusal(12, 0));
    }
}

#[test]
fn a_slot_below_0_or_above_2_64_minus_1_is_19_for_rsp_too() {
    let mut row = Move::of_pairs(3, &[(rsp(-16), rsp(-16))]);
    row.first = 0;
    row.set_stack_pointer(0);
    assert_eq!(row.run(), refusal(19, 0));
    let mut row = Move::of_pairs(3, &[(rsp(40), rsp(40))]);
    row.first = u64::MAX - 31;
    row.set_stack_pointer(row.first);
    assert_eq!(row.run(), refusal(19, 0));
}

#[test]
fn any_two_of_the_four_slots_of_two_pairs_may_overlap() {
    let answer = |pairs: &[(Location, Location)]| Move::of_pairs(8, pairs).run();
    assert_eq!(
        answer(&[(rsp(0), rsp(4))]),
        refusal(20, 0),
        "a pair's own two"
    );
    assert_eq!(
        answer(&[(rsp(0), rsp(16)), (rsp(4), rsp(32))]),
        refusal(20, 1),
        "base, base"
    );
    assert_eq!(
        answer(&[(rsp(0), rsp(16)), (rsp(20), rsp(32))]),
        refusal(20, 1),
        "derived, base"
    );
    assert_eq!(
        answer(&[(rsp(0), rsp(16)), (rsp(32), rsp(4))]),
        refusal(20, 1),
        "base, derived"
    );
    assert_eq!(
        answer(&[(rsp(0), rsp(16)), (rsp(32), rsp(23))]),
        refusal(20, 1),
        "derived, derived"
    );
    assert_eq!(answer(&[(rsp(0), rsp(16)), (rsp(32), rsp(24))]), Ok(2));
}

#[test]
fn equal_slots_are_never_an_overlap() {
    let pairs = [
        (rsp(0), rsp(0)),
        (rsp(0), rsp(8)),
        (rsp(8), rsp(16)),
        (rsp(0), rsp(8)),
    ];
    assert_eq!(Move::of_pairs(3, &pairs).run(), Ok(4));
}

#[test]
fn pairs_that_share_a_derived_slot_compare_old_bases_not_slots() {
    let mut row = Move::of_pairs(3, &[(rsp(0), rsp(16)), (rsp(8), rsp(16))]);
    row.set(0, 0x50000);
    row.set(8, 0x50000);
    row.set(16, 0x50004);
    assert_eq!(row.clone().run(), Ok(2), "two slots with the same number");
    row.set(8, 0);
    assert_eq!(row.run(), refusal(20, 1));
}

#[test]
fn old_bases_are_compared_before_21_looks_them_up() {
    let mut row = Move::of_pairs(3, &[(rsp(0), rsp(16)), (rsp(8), rsp(16))]);
    row.set(0, 5);
    row.set(8, 6);
    assert_eq!(row.run(), refusal(20, 1));
    row.set(8, 5);
    assert_eq!(row.run(), refusal(21, 0));
}

#[test]
fn base_0_leaves_derived_as_it_is() {
    let mut row = Move::of_pairs(2, &[(rsp(0), rsp(8))]);
    row.set(8, 0x1234_5678_9ABC_DEF0);
    assert_eq!(row.run(), Ok(1));
    assert_eq!((row.slot(0), row.slot(8)), (0, 0x1234_5678_9ABC_DEF0));
}

#[test]
fn a_base_that_another_pair_derives_is_read_from_the_old_image() {
    for pairs in [
        [(rsp(0), rsp(8)), (rsp(8), rsp(16))],
        [(rsp(8), rsp(16)), (rsp(0), rsp(8))],
    ] {
        let mut row = Move::of_pairs(3, &pairs);
        row.old_starts = vec![0x100, 0x200];
        row.new_starts = vec![0x1000, 0x5000];
        row.set(0, 0x100);
        row.set(8, 0x200);
        row.set(16, 0x208);
        assert_eq!(row.run(), Ok(2));
        assert_eq!([0, 8, 16].map(|at| row.slot(at)), [0x100, 0x1100, 0x5008]);
    }
}

#[test]
fn no_statepoint_in_a_function_of_unknown_size_is_12() {
    let mut row = Move::row_i();
    row.section = one_function(u64::MAX, &[], &[record(0x20, vec![], vec![])]);
    assert_eq!(row.run(), refusal(12, 0));
    row.section = one_function(u64::MAX, &[], &[statepoint(0x20, &[])]);
    assert_eq!(row.run(), refusal(16, 0));
}

#[test]
fn a_bad_table_hides_10_and_15() {
    let mut row = Move::row_i();
    row.new_starts = vec![0];
    row.frame.address = 5;
    assert_eq!(row.run(), refusal(14, 0));
    row.frame.address = 0x1020;
    row.section = one_function(24, &[], &[statepoint(0x20, &[]), statepoint(0x20, &[])]);
    assert_eq!(row.run(), refusal(14, 0));
    row.new_starts = vec![1];
    assert_eq!(row.run(), refusal(15, 0));
}

#[test]
fn the_same_frame_moved_twice_is_refused_by_21() {
    let mut row = Move::row_i();
    assert_eq!(row.run(), Ok(2));
    assert_eq!(row.run(), refusal(21, 0));
}

#[test]
fn an_extent_not_inside_the_image_is_still_an_extent() {
    let mut row = Move::row_i();
    row.set_stack_pointer(u64::MAX);
    assert_eq!(row.run(), refusal(16, 0));
    let start = u128::from(u64::MAX);
    assert_eq!(row.extent(), Some((start, start + 24)));
}

#[test]
fn a_frame_without_exactly_one_record_or_a_known_size_has_no_extent() {
    let mut row = Move::row_i();
    assert_eq!(row.extent(), Some((0x7000, 0x7018)));
    row.frame.address = 0;
    assert_eq!(row.extent(), None);
    let of = |section: &[u8]| {
        let mut row = Move::row_i();
        row.section = section.to_vec();
        row.extent()
    };
    assert_eq!(of(&row_h()[1..]), None);
    let record = record(0x20, vec![], vec![]);
    let twice = [record.clone(), record.clone()];
    assert_eq!(of(&one_function(8, &[], &twice)), None);
    let alone = std::slice::from_ref(&record);
    assert_eq!(of(&one_function(u64::MAX, &[], alone)), None);
    assert_eq!(
        of(&one_function(0, &[], alone)),
        Some((0x7000, 0x7000)),
        "an empty one"
    );
}

/// Two statepoints at 0x1020 and 0x1040 with two deopt locations each.
fn two_statepoints(exchanged: bool) -> Vec<u8> {
    let deopt = [small(0), small(0), small(2), small(3), rsp(16)];
    let (one, two) = ([rsp(0), rsp(0)], [rsp(0), rsp(8)]);
    let pairs = if exchanged { [two, one] } else { [one, two] };
    let locations = [deopt.as_slice(), &pairs.concat()].concat();
    let records = [0x20, 0x40].map(|offset| record(offset, locations.clone(), vec![]));
    encode(&[function(0x1000, 24, 2)], &[], &records)
}

#[test]
fn every_statepoint_may_be_reordered_and_frames_moved_in_any_order() {
    let mut images = vec![];
    for (exchanged, order) in [(false, [0, 1, 2]), (true, [2, 1, 0]), (false, [1, 2, 0])] {
        let mut row = Move {
            section: two_statepoints(exchanged),
            image: vec![9; 72],
            ..Move::row_i()
        };
        for (at, content) in [(0, 0x50000), (8, 0x50004), (24, 0x50000), (32, 0), (48, 1)] {
            row.set(at, content);
        }
        for number in order {
            let address = [0x1020, 0x1040, 0x1020][number];
            row.frame.address = address;
            row.set_stack_pointer(0x7000 + 24 * number as u64);
            assert_eq!(row.run(), [Ok(2), Ok(2), refusal(21, 0)][number]);
        }
        assert_eq!(
            [0, 8, 24, 32, 48].map(|at| row.slot(at)),
            [0x90000, 0x90004, 0x90000, 0x40000, 1]
        );
        images.push(row.image);
    }
    assert!(images.iter().all(|image| *image == images[0]));
}
