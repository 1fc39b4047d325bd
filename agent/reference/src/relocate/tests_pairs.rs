//! Refusals 18 to 21, their order and places, and what is written.

use super::*;
use crate::fixtures::*;

/// The answer for these pairs in a stack frame of eight slots that hold 0.
fn answer(pairs: &[(Location, Location)]) -> Result<u64, Refusal> {
    Move::of_pairs(8, pairs).run()
}

#[test]
fn refusal_18_is_for_a_pair_of_wrong_form() {
    let wrong = [
        location(1, 8, 7, 8),
        location(2, 8, 7, 8),
        location(3, 4, 7, 8),
        location(3, 4, 6, 8),
        location(2, 8, 6, 8),
        location(3, 9, 7, 8),
        location(3, 0, 7, 8),
        location(3, 8, 5, 8),
        location(3, 8, 8, 8),
        small(1),
        small(-1),
    ];
    for location in wrong {
        assert_eq!(
            answer(&[(rsp(8), rsp(8)), (location.clone(), rsp(8))]),
            refusal(18, 1)
        );
        assert_eq!(
            answer(&[(rsp(8), rsp(8)), (rsp(8), location.clone())]),
            refusal(18, 1)
        );
        assert_eq!(answer(&[(location.clone(), location)]), refusal(18, 0));
    }
}

#[test]
fn both_registers_name_slots() {
    let mut row = Move::of_pairs(3, &[(rsp(0), rbp(-8)), (rbp(-16), rsp(0))]);
    row.set_frame_pointer(0x7010);
    row.set(0, 0x50000);
    row.set(8, 0x50010);
    assert_eq!(row.run(), Ok(2));
    assert_eq!(
        (row.slot(0), row.slot(8), row.slot(16)),
        (0x90000, 0x90010, 0)
    );
}

#[test]
fn refusal_19_is_for_a_slot_not_wholly_inside_the_extent() {
    for offset in [-1, -8, 57, 64, i32::MIN, i32::MAX] {
        assert_eq!(
            answer(&[(rsp(0), rsp(0)), (rsp(offset), rsp(0))]),
            refusal(19, 1)
        );
        assert_eq!(
            answer(&[(rsp(0), rsp(0)), (rsp(0), rsp(offset))]),
            refusal(19, 1)
        );
    }
    assert_eq!(answer(&[(rsp(0), rsp(56))]), Ok(1));
}

#[test]
fn a_slot_inside_the_image_but_not_the_extent_is_19() {
    let mut row = Move::of_pairs(1, &[(rsp(0), rsp(8))]);
    row.image.resize(32, 0);
    assert_eq!(row.run(), refusal(19, 0));
    let mut row = Move::of_pairs(1, &[(rsp(-8), rsp(0))]);
    row.image.resize(32, 0);
    row.set_stack_pointer(0x7008);
    assert_eq!(row.run(), refusal(19, 0));
}

#[test]
fn refusal_20_is_at_the_lowest_pair_that_collides() {
    let pairs = [
        (rsp(0), rsp(8)),
        (rsp(16), rsp(24)),
        (rsp(4), rsp(32)),
        (rsp(1), rsp(2)),
    ];
    assert_eq!(answer(&pairs), refusal(20, 2));
    assert_eq!(answer(&pairs[..2]), Ok(2));
    assert_eq!(
        answer(&[(rsp(0), rsp(8)), (rsp(7), rsp(24))]),
        refusal(20, 1)
    );
    assert_eq!(
        answer(&[(rsp(1), rsp(9)), (rsp(17), rsp(25))]),
        Ok(2),
        "slots need no alignment"
    );
}

#[test]
fn refusal_21_is_at_the_lowest_pair_whose_base_is_no_old_start() {
    let pairs = [
        (rsp(0), rsp(0)),
        (rsp(8), rsp(8)),
        (rsp(16), rsp(16)),
        (rsp(24), rsp(24)),
    ];
    let mut row = Move::of_pairs(4, &pairs);
    row.set(0, 0x50000);
    row.set(16, 0x4FFFF);
    row.set(24, 0x50001);
    assert_eq!(row.run(), refusal(21, 2));
    row.set(16, 0x50000);
    assert_eq!(row.run(), refusal(21, 3));
    row.set(24, 0);
    assert_eq!(row.run(), Ok(4));
    assert_eq!(
        [0, 8, 16, 24].map(|at| row.slot(at)),
        [0x90000, 0, 0x90000, 0]
    );
}

#[test]
fn each_refusal_is_judged_over_all_pairs_before_the_next() {
    let fine = (rsp(0), rsp(0));
    let (form, outside, own) = ((small(1), rsp(0)), (rsp(60), rsp(0)), (rsp(0), rsp(4)));
    let five = |first: &(Location, Location), last: &(Location, Location)| {
        let mut pairs = vec![fine.clone(); 6];
        pairs[0] = first.clone();
        pairs[5] = last.clone();
        pairs
    };
    assert_eq!(answer(&five(&outside, &form)), refusal(18, 5));
    assert_eq!(answer(&five(&own, &outside)), refusal(19, 5));
    let mut row = Move::of_pairs(8, &five(&fine, &own));
    row.set(0, 1);
    assert_eq!(row.run(), refusal(20, 5));
    let mut row = Move::of_pairs(8, &five(&fine, &fine));
    row.set(0, 1);
    assert_eq!(row.run(), refusal(21, 0));
}

#[test]
fn a_base_slot_not_listed_as_derived_keeps_its_bytes() {
    let mut row = Move::of_pairs(2, &[(rsp(0), rsp(8))]);
    row.set(0, 0x50000);
    row.set(8, 0x50008);
    assert_eq!(row.run(), Ok(1));
    assert_eq!((row.slot(0), row.slot(8)), (0x50000, 0x90008));
}

#[test]
fn only_derived_slots_of_the_extent_are_written() {
    let mut row = Move::of_pairs(2, &[(rsp(0), rsp(3))]);
    row.image = (0..64).collect();
    row.first = 0x6FF0;
    row.section = one_function(24, &[], &[statepoint(0x20, &[(rsp(1), rsp(10))])]);
    row.set(17, 0x50000);
    let before = row.image.clone();
    let derived = row.slot(26);
    assert_eq!(row.run(), Ok(1));
    assert_eq!(row.slot(26), derived + 0x40000);
    assert_eq!(row.image[..26], before[..26]);
    assert_eq!(row.image[34..], before[34..]);
}

#[test]
fn bytes_outside_the_listed_slots_affect_nothing() {
    let run = |fill: u8| {
        let mut row = Move::of_pairs(4, &[(rsp(0), rsp(0)), (rsp(0), rsp(16))]);
        row.image.fill(fill);
        row.set(0, 0x50000);
        row.set(16, 7);
        (
            row.run(),
            row.slot(0),
            row.slot(16),
            row.slot(8),
            row.slot(24),
        )
    };
    let (answer, base, derived, ..) = run(0);
    assert_eq!(
        run(0x55),
        (
            answer,
            base,
            derived,
            0x5555_5555_5555_5555,
            0x5555_5555_5555_5555
        )
    );
}

/// A random pair of slots, mostly aligned, with now and then a null pair.
fn random_pair(random: &mut Random) -> (Location, Location) {
    let mut slot = || match random.below(40) {
        0 => rsp(random.below(60) as i32),
        _ => rsp(8 * random.below(8) as i32),
    };
    let pair = (slot(), slot());
    match random.below(12) {
        0 => (small(0), small(0)),
        1 | 2 => (pair.0.clone(), pair.0),
        _ => pair,
    }
}

#[test]
fn another_order_of_pairs_gives_the_same_number_count_and_image() {
    let mut random = Random(4);
    let mut accepted = 0;
    for _ in 0..20_000 {
        let mut pairs: Vec<_> = (0..random.below(5))
            .map(|_| random_pair(&mut random))
            .collect();
        let mut row = Move::of_pairs(8, &pairs);
        for at in 0..8 {
            row.set(
                8 * at,
                [0, 0x50000, 0x50000, 0x50000, 0x50001][random.below(5) as usize],
            );
        }
        for last in (1..pairs.len()).rev() {
            pairs.swap(last, random.below(last as u64 + 1) as usize);
        }
        let mut other = Move {
            section: Move::of_pairs(8, &pairs).section,
            ..row.clone()
        };
        let (one, two) = (row.run(), other.run());
        assert_eq!(
            one.map_err(|refusal| refusal.number),
            two.map_err(|refusal| refusal.number)
        );
        assert_eq!(row.image, other.image);
        accepted += u32::from(one.is_ok_and(|count| count > 1));
    }
    assert!(accepted > 1_000);
}
