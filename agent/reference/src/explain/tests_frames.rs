//! The reasons of all pointers of a frame, by hand, and what they say of the
//! move.

use super::*;
use crate::fixtures::*;
use crate::section::Location;

fn ask(row: &Move) -> Result<Vec<Explained>, Refusal> {
    explain_frame(
        &row.section,
        &row.image,
        row.first,
        &row.old_starts,
        &row.new_starts,
        row.machine,
        row.frame,
        &row.registers,
    )
}

fn moved(pair: u64) -> Reason {
    Reason::Moved {
        pair,
        old_base: 0x50000,
        new_base: 0x90000,
    }
}

fn slot(slot: Slot, content: u64, reason: Reason) -> ExplainedSlot {
    ExplainedSlot {
        slot,
        content,
        reason,
    }
}

#[test]
fn row_i() {
    let eight = slot(Slot::Address(0x7008), 0x50000, moved(0));
    let sixteen = slot(Slot::Address(0x7010), 0x54E20, moved(1));
    let expected = [
        Explained {
            pair: 0,
            slots: Some([eight, eight]),
        },
        Explained {
            pair: 1,
            slots: Some([eight, sixteen]),
        },
    ];
    assert_eq!(ask(&Move::row_i()).unwrap(), expected);
}

/// One for each pointer, in the record's order; a null pair is one without
/// slots.
#[test]
fn pointers_registers_and_null_pairs() {
    let wide = |offset| location(3, 16, 7, offset);
    let pairs = [
        (wide(0), wide(8)),
        (small(0), small(0)),
        (register(1), register(2)),
    ];
    let mut row = Move::of_pairs(3, &pairs);
    row.registers.fill(0);
    row.set_stack_pointer(0x7000);
    row.set(0, 0x50000);
    row.set(16, 0x77);
    row.registers[2] = 5;
    let explained = ask(&row).unwrap();
    let first = slot(Slot::Address(0x7000), 0x50000, Reason::OnlyBase);
    let second = slot(Slot::Address(0x7008), 0, moved(0));
    let third = slot(Slot::Address(0x7010), 0x77, Reason::NullBase);
    let one = slot(Slot::Register(1), 0, Reason::OnlyBase);
    let two = slot(Slot::Register(2), 5, Reason::NullBase);
    let expected = [
        (0, Some([first, second])),
        (0, Some([second, third])),
        (1, None),
        (2, Some([one, two])),
    ];
    let expected = expected.map(|(pair, slots)| Explained { pair, slots });
    assert_eq!(explained, expected);
    assert_eq!(row.run(), Ok(4), "as many as the move counts");
}

#[test]
fn a_refused_frame_is_refused_as_the_move_is() {
    let mut row = Move::row_i();
    row.set(8, 5);
    assert_eq!(ask(&row), refusal(21, 0));
    row.registers.pop();
    assert_eq!(ask(&row), refusal(25, 0));
    row.machine = 9;
    assert_eq!(ask(&row), refusal(33, 0));
}

/// A frame without pairs has no pointers.
#[test]
fn no_pairs() {
    assert_eq!(ask(&Move::of_pairs(1, &[])), Ok(vec![]));
}

/// What a frame's slots hold after its move, by the reasons alone.
fn by_reasons(row: &Move, explained: &[Explained]) -> (Vec<u8>, Vec<u64>) {
    let (mut image, mut registers) = (row.image.clone(), row.registers.clone());
    for own in explained.iter().filter_map(|one| one.slots).flatten() {
        let content = match own.reason {
            Reason::Moved {
                old_base, new_base, ..
            } => own.content.wrapping_add(new_base).wrapping_sub(old_base),
            _ => continue,
        };
        match own.slot {
            Slot::Register(number) => registers[number as usize] = content,
            Slot::Address(address) => {
                let at = (address - row.first) as usize;
                image[at..at + 8].copy_from_slice(&content.to_le_bytes());
            }
        }
    }
    (image, registers)
}

/// Random frames: the reasons say what the move does, slot for slot, and each is
/// that of the slot alone.
#[test]
fn the_reasons_are_what_the_move_does() {
    let mut random = Random(11);
    let mut accepted = 0;
    for _ in 0..5_000 {
        let mut any = || match random.below(2) {
            0 => rsp(8 * random.below(4) as i32),
            _ => register(random.below(4) as u16),
        };
        let pairs: Vec<(Location, Location)> = (0..3).map(|_| (any(), any())).collect();
        let mut row = Move::of_pairs(4, &pairs);
        for at in 0..4 {
            let mut content = || [0, 0x50000, 0x50000, 5][random.below(4) as usize];
            let (memory, own) = (content(), content());
            row.set(8 * at, memory);
            row.registers[at] = own;
        }
        let explained = ask(&row);
        let before = row.clone();
        match row.run() {
            Err(refusal) => assert_eq!(explained, Err(refusal)),
            Ok(count) => {
                let explained = explained.unwrap();
                assert_eq!(explained.len() as u64, count);
                let after = by_reasons(&before, &explained);
                assert_eq!(after, (row.image, row.registers));
                accepted += 1;
            }
        }
    }
    assert!(accepted > 500, "{accepted}");
}
