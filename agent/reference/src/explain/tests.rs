//! The reason of one slot, by hand.

use super::*;
use crate::editions::{AARCH64, AMD64};
use crate::fixtures::*;
use crate::section::Location;

/// The reason of a slot of a frame.
fn ask(row: &Move, slot: Slot) -> Reason {
    explain(
        &row.section,
        &row.image,
        row.first,
        &row.old_starts,
        &row.new_starts,
        row.machine,
        row.frame,
        &row.registers,
        slot,
    )
}

fn at(row: &Move, address: u64) -> Reason {
    ask(row, Slot::Address(address))
}

fn of(row: &Move, number: u64) -> Reason {
    ask(row, Slot::Register(number))
}

fn moved(pair: u64, old_base: u64, new_base: u64) -> Reason {
    Reason::Moved {
        pair,
        old_base,
        new_base,
    }
}

/// Row I with other pairs in a stack frame of eight slots that hold 0, as do the
/// registers but for the stack pointer; 0x60000 is moved to 0x10.
fn frame(pairs: &[(Location, Location)]) -> Move {
    let mut row = Move::of_pairs(8, pairs);
    row.registers.fill(0);
    row.set_stack_pointer(0x7000);
    row.old_starts = vec![0x50000, 0x60000];
    row.new_starts = vec![0x90000, 0x10];
    row
}

/// Row I: slot 8 is its own base, slot 16 is derived from it, and slot 0 isn't
/// listed.
#[test]
fn row_i() {
    let row = Move::row_i();
    assert_eq!(at(&row, 0x7000), Reason::Unlisted);
    assert_eq!(at(&row, 0x7008), moved(0, 0x50000, 0x90000));
    assert_eq!(at(&row, 0x7010), moved(1, 0x50000, 0x90000));
    for number in 0..40 {
        assert_eq!(of(&row, number), Reason::Unlisted);
    }
}

#[test]
fn each_reason_has_its_numbers() {
    assert_eq!(Reason::Unlisted.numbers(), [0; 6]);
    assert_eq!(Reason::OnlyBase.numbers(), [1, 0, 0, 0, 0, 0]);
    assert_eq!(Reason::NullBase.numbers(), [2, 0, 0, 0, 0, 0]);
    assert_eq!(moved(7, 8, 9).numbers(), [3, 0, 0, 7, 8, 9]);
    let refused = Reason::Refused(Refusal {
        number: 21,
        place: 5,
    });
    assert_eq!(refused.numbers(), [4, 21, 5, 0, 0, 0]);
}

/// The refusal that the move would give, whatever slot is asked for.
#[test]
fn a_refusal_comes_first() {
    type Change = fn(&mut Move);
    let changes: [(Change, u64, u64); 12] = [
        (|row| row.section[151] = 9, 3, 151),
        (|row| row.machine = 2, 33, 0),
        (|row| row.first = u64::MAX, 13, 0),
        (|row| row.new_starts.clear(), 14, 0),
        (|row| row.registers.truncate(31), 25, 0),
        (|row| row.frame.address = 5, 10, 0),
        (|row| row.section[88] = 1, 12, 0),
        (|row| row.set_stack_pointer(0x7001), 16, 0),
        (|row| row.section[132] = 5, 18, 1),
        (|row| row.section[136] = 17, 19, 1),
        (|row| row.section[136] = 12, 20, 1),
        (|row| row.set(8, 0x50008), 21, 0),
    ];
    let slots = [
        Slot::Address(0x7000),
        Slot::Address(0x7008),
        Slot::Address(0),
        Slot::Register(3),
        Slot::Register(99),
    ];
    for (change, number, place) in changes {
        let mut row = Move::row_i();
        change(&mut row);
        let refusal = row.clone().run().unwrap_err();
        assert_eq!((refusal.number, refusal.place), (number, place));
        for slot in slots {
            assert_eq!(ask(&row, slot), Reason::Refused(refusal));
        }
    }
}

/// Moved before null base before only base before unlisted.
#[test]
fn every_reason_in_one_frame() {
    let mut row = frame(&[
        (rsp(0), rsp(8)),
        (rsp(16), rsp(24)),
        (register(1), register(2)),
        (register(3), register(4)),
        (rsp(8), rsp(32)),
    ]);
    row.set(0, 0x60000);
    row.registers[1] = 0x50000;
    assert_eq!(at(&row, 0x7000), Reason::OnlyBase);
    assert_eq!(at(&row, 0x7008), moved(0, 0x60000, 0x10));
    assert_eq!(at(&row, 0x7010), Reason::OnlyBase, "whose content is 0");
    assert_eq!(at(&row, 0x7018), Reason::NullBase);
    assert_eq!(
        at(&row, 0x7020),
        Reason::NullBase,
        "the base's content is 0"
    );
    assert_eq!(at(&row, 0x7028), Reason::Unlisted);
    assert_eq!(of(&row, 0), Reason::Unlisted);
    assert_eq!(of(&row, 1), Reason::OnlyBase);
    assert_eq!(of(&row, 2), moved(2, 0x50000, 0x90000));
    assert_eq!(of(&row, 3), Reason::OnlyBase);
    assert_eq!(of(&row, 4), Reason::NullBase);
}

/// A slot that is a base and derived too: what derives it counts, in either
/// order of the pairs.
#[test]
fn a_slot_that_is_base_and_derived() {
    let null = [(rsp(0), rsp(8)), (rsp(8), register(1))];
    let moving = [(register(2), register(3)), (register(3), rsp(16))];
    for [one, two, three, four] in [[0, 1, 2, 3], [3, 2, 1, 0]] {
        let pairs = [null.clone(), moving.clone()].concat();
        let pairs = [one, two, three, four].map(|nth| pairs[nth].clone());
        let mut row = frame(&pairs);
        row.registers[2] = 0x50000;
        row.registers[3] = 0x60000;
        assert_eq!(at(&row, 0x7008), Reason::NullBase);
        let place = [one, two, three, four].iter().position(|nth| *nth == 2);
        let pair = place.unwrap() as u64;
        assert_eq!(of(&row, 3), moved(pair, 0x50000, 0x90000));
    }
}

/// The lowest of the pairs that derive a slot, whose old bases are equal.
#[test]
fn the_lowest_pair_is_named() {
    let null = (small(0), small(0));
    let mut row = frame(&[
        null.clone(),
        (rsp(0), rsp(8)),
        (register(1), rsp(16)),
        null,
        (rsp(24), rsp(16)),
        (rsp(0), rsp(16)),
    ]);
    for slot in [0, 24] {
        row.set(slot, 0x50000);
    }
    row.registers[1] = 0x50000;
    assert_eq!(at(&row, 0x7010), moved(2, 0x50000, 0x90000));
    assert_eq!(at(&row, 0x7008), moved(1, 0x50000, 0x90000));
}

/// Each pointer's first byte is listed, and nothing inside a slot; the pair is
/// numbered among pairs.
#[test]
fn every_pointer_of_a_pair_is_listed_by_its_first_byte() {
    let wide = |offset| location(3, 24, 7, offset);
    let mut row = frame(&[(small(0), small(0)), (wide(0), wide(24))]);
    row.set(0, 0x50000);
    row.set(16, 0x60000);
    let expected = [
        Reason::OnlyBase,
        Reason::OnlyBase,
        Reason::OnlyBase,
        moved(1, 0x50000, 0x90000),
        Reason::NullBase,
        moved(1, 0x60000, 0x10),
    ];
    for byte in 0..64 {
        let reason = match expected.get(byte / 8) {
            Some(reason) if byte % 8 == 0 => *reason,
            _ => Reason::Unlisted,
        };
        assert_eq!(at(&row, 0x7000 + byte as u64), reason, "{byte}");
    }
    for outside in [0, 0x6FFF, 0x7040, u64::MAX] {
        assert_eq!(at(&row, outside), Reason::Unlisted);
    }
}

/// A register and an address of the same number are different slots.
#[test]
fn registers_and_addresses_are_told_apart() {
    let mut row = frame(&[(rsp(8), rsp(8)), (register(3), register(3))]);
    row.first = 0;
    row.set_stack_pointer(0);
    row.set(8, 0x60000);
    row.registers[3] = 0x50000;
    assert_eq!(at(&row, 8), moved(0, 0x60000, 0x10));
    assert_eq!(of(&row, 8), Reason::Unlisted);
    assert_eq!(of(&row, 3), moved(1, 0x50000, 0x90000));
    assert_eq!(at(&row, 3), Reason::Unlisted);
}

/// The machine's pointers are never listed, nor numbers that are no register,
/// nor ones that only a narrower number would take for one.
#[test]
fn pointers_and_other_numbers_are_unlisted() {
    for (machine, pointers) in [(AMD64, [6, 7]), (AARCH64, [29, 31])] {
        let mut row = frame(&[(register(3), register(3))]).on(machine);
        row.registers[3] = 0x50000;
        assert_eq!(of(&row, 3), moved(0, 0x50000, 0x90000));
        for number in pointers {
            assert_eq!(of(&row, number), Reason::Unlisted);
        }
        for number in [32, 35, 256 + 3, (1 << 16) + 3, (1 << 32) + 3, u64::MAX] {
            assert_eq!(of(&row, number), Reason::Unlisted);
        }
    }
}

/// Null pairs and deopt locations list nothing.
#[test]
fn null_pairs_and_deopt_locations_list_nothing() {
    let head = [small(0), small(0), small(3)];
    let deopt = [rsp(0), register(1), rsp(8)];
    let null = [location(4, 8, 2, 0), location(4, 8, 7, 0)];
    let locations = [&head[..], &deopt, &null, &[rsp(16), rsp(16)]].concat();
    let mut row = frame(&[]);
    row.section = one_function(64, &[], &[record(0x20, locations, vec![])]);
    row.set(16, 0x50000);
    for slot in [Slot::Address(0x7000), Slot::Address(0x7008)] {
        assert_eq!(ask(&row, slot), Reason::Unlisted);
    }
    for number in [1, 2] {
        assert_eq!(of(&row, number), Reason::Unlisted);
    }
    assert_eq!(at(&row, 0x7010), moved(1, 0x50000, 0x90000));
}
