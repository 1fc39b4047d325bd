//! Pairs of memory and registers in any mix: what is shared, what collides, the
//! order of refusals and their places.

use super::*;
use crate::fixtures::*;

/// The stack, each slot of which holds 0, and registers that hold 0, but for
/// the stack pointer; 0x50000 is moved to 0x90000 and 0x60000 to 0x10.
fn frame(pairs: &[(Location, Location)]) -> Move {
    let mut row = Move::of_pairs(8, pairs);
    row.registers.fill(0);
    row.set_stack_pointer(0x7000);
    row.old_starts = vec![0x50000, 0x60000];
    row.new_starts = vec![0x90000, 0x10];
    row
}

/// A pair of registers.
fn pair(base: u16, derived: u16) -> (Location, Location) {
    (register(base), register(derived))
}

#[test]
fn base_and_derived_are_memory_and_register_in_any_mix() {
    let mut row = frame(&[(rsp(0), register(3)), (register(12), rsp(8)), pair(12, 14)]);
    row.set(0, 0x50000);
    row.set(8, 0x60018);
    row.registers[3] = 0x4FFF0;
    row.registers[12] = 0x60000;
    row.registers[14] = 5;
    assert_eq!(row.run(), Ok(3));
    assert_eq!((row.slot(0), row.slot(8)), (0x50000, 0x28));
    assert_eq!(
        [3, 12, 14].map(|number: usize| row.registers[number]),
        [0x8FFF0, 0x60000, 0xFFFF_FFFF_FFFA_0015],
        "modulo 2^64, and the base register keeps its number"
    );
}

/// Two pairs that derive one register: their old bases have to be equal, and
/// are compared as numbers, wherever they stand.
#[test]
fn a_derived_register_that_two_pairs_share() {
    let both = [(rsp(0), register(3)), (register(12), register(3))];
    let with = |memory, number| {
        let mut row = frame(&both);
        row.set(0, memory);
        row.registers[12] = number;
        row.registers[3] = 0x50004;
        (row.run(), row.registers[3])
    };
    assert_eq!(with(0x50000, 0x50000), (Ok(2), 0x90004));
    assert_eq!(with(0, 0), (Ok(2), 0x50004));
    assert_eq!(with(0x50000, 0x60000), (refusal(20, 1), 0x50004));
    assert_eq!(with(0x50000, 0), (refusal(20, 1), 0x50004));
    assert_eq!(with(5, 6), (refusal(20, 1), 0x50004), "before 21");
    assert_eq!(with(5, 5), (refusal(21, 0), 0x50004));
}

#[test]
fn the_later_of_two_pairs_collides() {
    let pairs = [
        pair(1, 1),
        pair(2, 3),
        (rsp(0), rsp(0)),
        pair(1, 3),
        pair(0, 3),
    ];
    let mut row = frame(&pairs);
    row.registers[2] = 0x50000;
    assert_eq!(row.run(), refusal(20, 3));
    row.registers[1] = 0x50000;
    assert_eq!(row.run(), refusal(20, 4));
    row.registers[0] = 0x50000;
    assert_eq!(row.run(), Ok(5));
    assert_eq!(row.registers[..4], [0x50000, 0x90000, 0x50000, 0x40000]);
}

/// A register that is one pair's base and another's derived is read as it was
/// before the call, by both, in either order.
#[test]
fn a_register_that_is_base_and_derived() {
    for pairs in [[pair(0, 1), pair(1, 2)], [pair(1, 2), pair(0, 1)]] {
        let mut row = frame(&pairs);
        row.registers[..3].copy_from_slice(&[0x50000, 0x60000, 0x60008]);
        assert_eq!(row.run(), Ok(2));
        assert_eq!(row.registers[..3], [0x50000, 0xA0000, 0x18]);
    }
    // And so across memory: each is the other's base.
    for pairs in [
        [(register(1), rsp(0)), (rsp(0), register(1))],
        [(rsp(0), register(1)), (register(1), rsp(0))],
    ] {
        let mut row = frame(&pairs);
        row.set(0, 0x50000);
        row.registers[1] = 0x60000;
        assert_eq!(row.run(), Ok(2));
        assert_eq!(row.registers[1], 0xA0000, "0x60000 + 0x90000 - 0x50000");
        assert_eq!(
            row.slot(0),
            0xFFFF_FFFF_FFFF_0010,
            "0x50000 + 0x10 - 0x60000"
        );
    }
}

/// The distance from a base that is also listed with itself stays the same.
#[test]
fn a_register_keeps_its_distance_from_a_base_that_moves_too() {
    let mut row = frame(&[pair(3, 3), (register(3), rsp(8)), pair(3, 4)]);
    row.registers[3] = 0x60000;
    row.registers[4] = 0x5FF00;
    row.set(8, 0x60123);
    assert_eq!(row.run(), Ok(3));
    let base = row.registers[3];
    assert_eq!(base, 0x10);
    assert_eq!(row.slot(8) - base, 0x123);
    assert_eq!(base.wrapping_sub(row.registers[4]), 0x100);
}

/// A register never overlaps memory, whatever their numbers, nor another
/// register.
#[test]
fn registers_overlap_nothing() {
    let pairs = [
        (rsp(0), rsp(0)),
        pair(0, 0),
        pair(1, 1),
        pair(2, 2),
        (register(3), rsp(8)),
        (rsp(16), register(4)),
    ];
    assert_eq!(frame(&pairs).run(), Ok(6));
    let mut row = frame(&pairs);
    // The extent begins at address 0: slot 0 and register 0 have one number.
    row.first = 0;
    row.set_stack_pointer(0);
    row.set(0, 0x50000);
    row.registers[0] = 0x60000;
    assert_eq!(row.run(), Ok(6));
    assert_eq!((row.slot(0), row.registers[0]), (0x90000, 0x10));
    let equal = [(rsp(0), register(8)), (register(0), rsp(8))];
    let mut row = frame(&equal);
    row.first = 0;
    row.set_stack_pointer(0);
    row.set(0, 0x50000);
    row.registers[0] = 0x60000;
    assert_eq!(row.run(), Ok(2), "derived slots 8 and 8 with other bases");
    assert_eq!(
        (row.slot(8), row.registers[8]),
        (0xFFFF_FFFF_FFFA_0010, 0x40000)
    );
}

/// 19 doesn't concern the register of a pair, but still the other slot.
#[test]
fn the_slot_beside_a_register_is_inside_the_extent() {
    for offset in [-1, -8, 57, 64, i32::MIN, i32::MAX] {
        for mixed in [(register(3), rsp(offset)), (rsp(offset), register(3))] {
            assert_eq!(frame(&[pair(0, 0), mixed]).run(), refusal(19, 1));
        }
    }
    assert_eq!(
        frame(&[(register(3), rsp(56)), (rsp(0), register(3))]).run(),
        Ok(2)
    );
    // What a register holds is no address.
    let mut row = frame(&[pair(3, 4)]);
    row.registers[3] = 0x50000;
    row.registers[4] = u64::MAX;
    assert_eq!(row.run(), Ok(1));
    assert_eq!(row.registers[4], 0x3FFFF);
}

#[test]
fn refusal_21_is_for_a_base_in_a_register_too() {
    let mut row = frame(&[(rsp(0), rsp(0)), pair(3, 3), pair(4, 5)]);
    row.registers[3] = 0x50008;
    row.registers[4] = 7;
    assert_eq!(row.run(), refusal(21, 1));
    row.registers[3] = 0x50000;
    assert_eq!(row.run(), refusal(21, 2));
    row.registers[4] = 0;
    assert_eq!(row.run(), Ok(3));
    assert_eq!(row.registers[3..6], [0x90000, 0, 0]);
}

/// Each over all pairs before the next, whichever sort of slot has the fault.
#[test]
fn each_refusal_is_judged_over_all_pairs_before_the_next() {
    let outside = (register(3), rsp(60));
    let collides = (register(4), register(5));
    let pairs = [
        collides.clone(),
        outside.clone(),
        (rsp(0), register(5)),
        pair(7, 7),
    ];
    let mut row = frame(&pairs);
    row.registers[4] = 5;
    assert_eq!(row.run(), refusal(18, 3));
    row.section = frame(&pairs[..3]).section;
    assert_eq!(row.run(), refusal(19, 1));
    row.section = frame(&[collides.clone(), (rsp(0), register(5))]).section;
    assert_eq!(row.run(), refusal(20, 1));
    row.section = frame(&[collides, (rsp(0), register(6 + 2))]).section;
    assert_eq!(row.run(), refusal(21, 0));
}

/// A refused move writes no register, a null pair none, and base 0 leaves what
/// is derived as it is.
#[test]
fn registers_change_only_as_derived_slots() {
    let null = (small(0), small(0));
    let mut row = frame(&[null, pair(1, 2), (rsp(0), register(3))]);
    row.registers[1] = 0x50000;
    row.registers[2] = 0x50000;
    row.registers[3] = 77;
    let before = row.registers.clone();
    let mut after = before.clone();
    after[2] = 0x90000;
    assert_eq!(row.run(), Ok(3));
    assert_eq!(row.registers, after);
    row.registers = before;
    row.set(0, 9);
    assert_eq!(row.run(), refusal(21, 2));
}

/// Another order of pairs leaves number, count, image and registers as they
/// are.
#[test]
fn another_order_of_pairs() {
    let mut random = Random(7);
    let mut counts = [0; 22];
    for _ in 0..20_000 {
        let mut slot = || match random.below(2) {
            0 => rsp(8 * random.below(3) as i32),
            _ => register(random.below(3) as u16),
        };
        let mut pairs: Vec<_> = (0..4).map(|_| (slot(), slot())).collect();
        let mut row = frame(&pairs);
        for at in 0..3 {
            let mut content = || [0, 0x50000, 0x50000, 0x60000, 5][random.below(5) as usize];
            let (memory, own) = (content(), content());
            row.set(8 * at, memory);
            row.registers[at] = own;
        }
        for last in (1..pairs.len()).rev() {
            pairs.swap(last, random.below(last as u64 + 1) as usize);
        }
        let mut other = row.clone();
        other.section = frame(&pairs).section;
        let (one, two) = (row.run(), other.run());
        assert_eq!(
            one.map_err(|refusal| refusal.number),
            two.map_err(|refusal| refusal.number)
        );
        assert_eq!(
            (&row.image, &row.registers),
            (&other.image, &other.registers)
        );
        counts[one.map_or_else(|refusal| refusal.number as usize, |_| 0)] += 1;
    }
    let due = [0, 20, 21].map(|number| counts[number]);
    assert!(due.iter().all(|count| *count > 1_000), "{counts:?}");
}
