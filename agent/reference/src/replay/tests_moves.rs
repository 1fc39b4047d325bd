//! Replays by hand: the first answer that differs, the image that is left, and
//! what is compared.

use super::*;
use crate::editions::{Settings, Store, AMD64};
use crate::fixtures::{noise, refusal, row_h, Move};
use crate::relocate::Frame;

/// Edition 1 is 256, AMD64 and version 3; edition 2 is retired.
fn store() -> Store {
    let mut store = Store::empty();
    let settings = Settings {
        largest_count: 256,
        machine: AMD64,
        version_1: false,
        version_3: true,
    };
    store.make(settings).unwrap();
    store.make(settings).unwrap();
    store.retire(2).unwrap();
    store
}

/// Two frames of row I's kind from 0x7000 on, the second with a base of 0.
fn image() -> Vec<u8> {
    let slots = [1, 0x50000, 0x54E20, 2, 0, 0x1234_u64];
    slots.into_iter().flat_map(u64::to_le_bytes).collect()
}

/// Row I's frame at a stack pointer, with a recorded answer.
fn step(stack_pointer: u64, number: u8, value: u64) -> Step {
    let mut registers = [0; 32];
    registers.copy_from_slice(&noise());
    registers[7] = stack_pointer;
    registers[31] = stack_pointer;
    Step {
        machine: 0,
        frame: Frame {
            address: 0x1020,
            function: 0,
        },
        registers,
        answer: Recorded { number, value },
    }
}

/// The answer of a replay of row H under an edition, and the image after it.
fn run(edition: u64, section: &[u8], trace: &[u8]) -> (Result<Option<u64>, Refusal>, Vec<u8>) {
    let (store, mut image) = (store(), image());
    let restore = Restore {
        store: &store,
        edition,
        section,
        first: 0x7000,
        old_starts: &[0x50000],
        new_starts: &[0x90000],
    };
    (replay(&restore, &mut image, trace), image)
}

/// The image after both frames have moved.
fn moved() -> Vec<u8> {
    let slots = [1, 0x90000, 0x94E20, 2, 0, 0x1234_u64];
    slots.into_iter().flat_map(u64::to_le_bytes).collect()
}

#[test]
fn the_recorded_answers_are_the_answers() {
    let trace = write(&[step(0x7000, 0, 2), step(0x7018, 0, 2)]);
    assert_eq!(run(1, &row_h(), &trace), (Ok(None), moved()));
    assert_eq!(run(1, &row_h(), &[3]), (Ok(None), image()), "no frames");
}

/// The first that differs, by its number, its count or its place, counted among
/// answers from 0; and all frames are moved all the same.
#[test]
fn the_first_answer_that_differs() {
    let right = [(0x7000, 0, 2), (0x7018, 0, 2), (0x7000, 21, 0)];
    let with = |changes: &[(usize, u8, u64)]| {
        let mut steps = right.map(|(at, number, value)| step(at, number, value));
        for (nth, number, value) in changes {
            steps[*nth].answer = Recorded {
                number: *number,
                value: *value,
            };
        }
        run(1, &row_h(), &write(&steps))
    };
    assert_eq!(with(&[]), (Ok(None), moved()), "the same frame twice is 21");
    assert_eq!(with(&[(0, 0, 3)]), (Ok(Some(0)), moved()), "the count");
    assert_eq!(with(&[(1, 0, 1 << 32)]), (Ok(Some(1)), moved()));
    assert_eq!(with(&[(2, 21, 1)]), (Ok(Some(2)), moved()), "the place");
    assert_eq!(with(&[(2, 20, 0)]), (Ok(Some(2)), moved()), "the number");
    assert_eq!(with(&[(2, 200, 0)]), (Ok(Some(2)), moved()));
    assert_eq!(with(&[(2, 0, 0)]), (Ok(Some(2)), moved()));
    assert_eq!(with(&[(1, 21, 0), (2, 0, 2)]), (Ok(Some(1)), moved()));
}

/// Frames after the first difference are moved too: here the one that changes
/// the image comes last.
#[test]
fn a_difference_does_not_stop_the_moves() {
    let steps = [step(0x7018, 0, 3), step(0x7018, 9, 9), step(0x7000, 0, 2)];
    assert_eq!(run(1, &row_h(), &write(&steps)), (Ok(Some(0)), moved()));
    let steps = [step(0x7018, 0, 3), step(0x7000, 0, 7)];
    assert_eq!(run(1, &row_h(), &write(&steps)), (Ok(Some(0)), moved()));
}

/// Each frame is judged on the image that the one before left: it is no list of
/// frames that are apart.
#[test]
fn frames_are_moved_one_by_one() {
    let twice = [step(0x7000, 0, 2), step(0x7000, 0, 2)];
    assert_eq!(run(1, &row_h(), &write(&twice)).0, Ok(Some(1)));
    let twice = [step(0x7000, 0, 2), step(0x7000, 21, 0)];
    assert_eq!(run(1, &row_h(), &write(&twice)), (Ok(None), moved()));
}

/// 35 comes before 31 and before the section's own refusal, and the image is as
/// lent, though whole frames stand before the bad item.
#[test]
fn a_broken_trace_is_35_before_all_else() {
    let mut trace = write(&[step(0x7000, 0, 2), step(0x7018, 0, 2)]);
    trace.pop();
    let length = trace.len() as u64;
    for edition in [1, 2, 0] {
        for section in [&row_h()[..], &[]] {
            let broken = run(edition, section, &trace);
            assert_eq!(broken, (refusal(35, length), image()));
        }
    }
}

/// Every other refusal is an answer to compare, 31 and the section's own too.
#[test]
fn other_refusals_are_answers() {
    let all = |number, value| {
        let steps = [step(0x7000, number, value), step(0x7018, number, value)];
        write(&steps)
    };
    assert_eq!(run(2, &row_h(), &all(31, 0)), (Ok(None), image()));
    assert_eq!(run(0, &row_h(), &all(31, 0)).0, Ok(None));
    assert_eq!(run(2, &row_h(), &all(0, 2)), (Ok(Some(0)), image()));
    assert_eq!(run(1, &row_h()[..151], &all(4, 40)).0, Ok(None));
    assert_eq!(run(1, &row_h()[..151], &all(4, 41)).0, Ok(Some(0)));
    let mut other = step(0x7000, 33, 0);
    other.machine = 1;
    let both = [step(0x7000, 0, 2), other, step(0x7018, 0, 2)];
    assert_eq!(run(1, &row_h(), &write(&both)), (Ok(None), moved()));
}

/// Registers come fresh from each frame item: what a move does to them is not
/// seen by the next.
#[test]
fn registers_are_dropped() {
    let section = {
        let pairs = [(crate::fixtures::register(3), crate::fixtures::register(3))];
        Move::of_pairs(3, &pairs).section
    };
    let mut one = step(0x7000, 0, 1);
    one.registers[3] = 0x50000;
    let trace = write(&[one.clone(), one.clone(), one]);
    assert_eq!(run(1, &section, &trace), (Ok(None), image()));
}

#[test]
fn an_answer_is_recorded_as_number_and_place_or_count() {
    assert_eq!(
        Recorded::of(Ok(300)),
        Recorded {
            number: 0,
            value: 300
        }
    );
    assert_eq!(
        Recorded::of(refusal(21, 5)),
        Recorded {
            number: 21,
            value: 5
        }
    );
}
