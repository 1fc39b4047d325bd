//! Replays of row I by hand: what is compared, what comes before what, and what the image is after it.

use crate::calls::{Outcome, Replay};
use crate::stores::Stored;
use generator::editions::Settings;
use generator::frames::named::Named;
use generator::Rng;

const H: &[u8] = include_bytes!("../../../samples/h-statepoint.section");
const H_1: &[u8] = include_bytes!("../../../samples/h-version-1.section");

/// Edition 1 is 256, AMD64 and version 3; edition 2 is retired; edition 3 allows one pointer.
fn stored(edition: u64) -> Stored {
    let settings = Settings {
        largest_count: 256,
        machine: 0,
        version_1: false,
        version_3: true,
    };
    let one = Settings {
        largest_count: 1,
        ..settings
    };
    let named = Named {
        greatest: 3,
        live: vec![(1, settings), (3, one)],
        edition,
    };
    Stored::of(&mut Rng::new(1), &named)
}

/// The bytes of a frame item: kind, machine, address, function, and 32 registers of which both machines' stack
/// pointers are this one.
fn frame(machine: u8, address: u64, stack_pointer: u64) -> Vec<u8> {
    let mut registers = [0xdddd_dddd_dddd_dddd_u64; 32];
    (registers[7], registers[31]) = (stack_pointer, stack_pointer);
    let mut bytes = vec![1, machine];
    bytes.extend(address.to_le_bytes());
    bytes.extend(77_u64.to_le_bytes());
    registers
        .iter()
        .for_each(|own| bytes.extend(own.to_le_bytes()));
    bytes
}

/// The bytes of an answer item.
fn answer(number: u8, value: u64) -> Vec<u8> {
    let mut bytes = vec![2, number];
    bytes.extend(value.to_le_bytes());
    bytes
}

/// Row I's frame at a stack pointer with its recorded answer.
fn step(stack_pointer: u64, number: u8, value: u64) -> Vec<u8> {
    [frame(0, 0x1020, stack_pointer), answer(number, value)].concat()
}

/// The first frame of row I, and a second one with a base of 0.
fn image(first: [u64; 2]) -> Vec<u8> {
    let slots = [1, first[0], first[1], 2, 0, 0x1234];
    slots.map(u64::to_le_bytes).concat()
}

fn before() -> Vec<u8> {
    image([0x50000, 0x54e20])
}

fn after() -> Vec<u8> {
    image([0x90000, 0x94e20])
}

fn on(section: &[u8], edition: u64, items: &[Vec<u8>]) -> Outcome {
    let replay = Replay {
        stored: &stored(edition),
        section,
        image: &before(),
        first: 0x7000,
        olds: &[0x50000],
        news: &[0x90000],
        trace: &items.concat(),
    };
    replay.compare()
}

/// The replay of these items and an end.
fn told(items: &[Vec<u8>]) -> ([u64; 6], Vec<u8>) {
    let outcome = on(H, 1, &[items, &[vec![3]]].concat());
    (outcome.numbers, outcome.image)
}

const SAME: [u64; 6] = [0; 6];

#[test]
fn the_recorded_answers_are_the_answers() {
    assert_eq!(told(&[]), (SAME, before()));
    let both = [step(0x7000, 0, 2), step(0x7018, 0, 2)];
    assert_eq!(told(&both), (SAME, after()));
}

/// The first answer that differs, by its number, its count or its place, and what the frame gets now; and all
/// frames are moved all the same.
#[test]
fn the_first_answer_that_differs() {
    let three = |answers: [(u8, u64); 3]| {
        let steps = [0x7000, 0x7018, 0x7000].into_iter().zip(answers);
        let steps: Vec<Vec<u8>> = steps
            .map(|(at, (number, value))| step(at, number, value))
            .collect();
        let (numbers, image) = told(&steps);
        assert_eq!(image, after());
        numbers
    };
    let right = [(0, 2), (0, 2), (21, 0)];
    assert_eq!(three(right), SAME, "the same frame again is 21");
    let [first, second, third] = right;
    assert_eq!(three([(0, 3), second, third]), [0, 0, 1, 0, 0, 2]);
    assert_eq!(three([(2, 2), second, third]), [0, 0, 1, 0, 0, 2]);
    assert_eq!(three([first, (0, 1 << 32), third]), [0, 0, 1, 1, 0, 2]);
    assert_eq!(three([first, second, (21, 1)]), [0, 0, 1, 2, 21, 0]);
    assert_eq!(three([first, second, (20, 0)]), [0, 0, 1, 2, 21, 0]);
    assert_eq!(three([first, second, (200, 0)]), [0, 0, 1, 2, 21, 0]);
    assert_eq!(three([first, second, (21, 1 << 63)]), [0, 0, 1, 2, 21, 0]);
    assert_eq!(three([first, (21, 0), (0, 2)]), [0, 0, 1, 1, 0, 2]);
}

/// A difference stops nothing: the frame that changes the image comes after it.
#[test]
fn a_difference_does_not_stop_the_moves() {
    let items = [step(0x7018, 9, 9), step(0x7018, 9, 9), step(0x7000, 9, 9)];
    assert_eq!(told(&items), ([0, 0, 1, 0, 0, 2], after()));
}

/// 31, the section's own refusal and 33 are answers to compare.
#[test]
fn other_refusals_are_answers() {
    let all = |number, value| {
        [
            step(0x7000, number, value),
            step(0x7018, number, value),
            vec![3],
        ]
    };
    for edition in [2, 0, 4, 1 << 32] {
        let outcome = on(H, edition, &all(31, 0));
        assert_eq!((outcome.numbers, outcome.image), (SAME, before()));
        let differs = on(&[], edition, &all(0, 2));
        assert_eq!(differs.numbers, [0, 0, 1, 0, 31, 0], "31 before 1");
    }
    assert_eq!(on(&H[..151], 1, &all(4, 40)).numbers, SAME);
    assert_eq!(on(&H[..151], 1, &all(4, 41)).numbers, [0, 0, 1, 0, 4, 40]);
    assert_eq!(on(H_1, 1, &all(33, 0)).numbers, SAME, "the version");
    assert_eq!(on(H, 3, &all(17, 0)).numbers, SAME, "the edition's count");
    let other = [frame(1, 0x1020, 0x7000), answer(33, 0)].concat();
    let both = [step(0x7000, 0, 2), other, step(0x7018, 0, 2)];
    assert_eq!(told(&both), (SAME, after()), "the machine");
}

/// 35 comes before 31 and the section's own refusal, and leaves the image as it is, though whole frames stand
/// before the bad item.
#[test]
fn a_broken_trace_is_35_before_all_else() {
    let whole = [step(0x7000, 0, 2), step(0x7018, 0, 2)];
    for edition in [1, 2, 0] {
        for section in [H, &[]] {
            let missing = on(section, edition, &whole);
            assert_eq!(missing.numbers, [35, 568, 0, 0, 0, 0], "the end");
            assert_eq!(missing.image, before());
            let more = [&whole[..], &[vec![3, 0]]].concat();
            assert_eq!(on(section, edition, &more).numbers[..2], [35, 569]);
        }
    }
    let numbers = |items: &[Vec<u8>]| on(H, 1, items).numbers[..2].to_vec();
    let (own, said, end) = (frame(0, 0x1020, 0x7000), answer(0, 2), vec![3]);
    assert_eq!(numbers(&[]), [35, 0]);
    assert_eq!(numbers(&[said.clone(), end.clone()]), [35, 0]);
    assert_eq!(numbers(&[own.clone(), end.clone()]), [35, 274]);
    assert_eq!(numbers(std::slice::from_ref(&own)), [35, 274]);
    assert_eq!(
        numbers(&[own.clone(), own.clone(), said.clone(), end.clone()]),
        [35, 274]
    );
    assert_eq!(
        numbers(&[own.clone(), said.clone(), said.clone(), end.clone()]),
        [35, 284]
    );
    assert_eq!(numbers(&[end.clone(), own, said, end]), [35, 1]);
    let third = [frame(2, 0x1020, 0x7000), vec![9; 40]];
    assert_eq!(
        numbers(&third),
        [35, 0],
        "no such machine, and more is wrong behind it"
    );
}

/// The registers of a frame are its item's own: what a move does to them is not seen by the next. The pairs of the
/// section are RBX with itself, and RSP + 16 with RBX as base.
#[test]
fn registers_come_fresh_from_each_frame() {
    let registers: &[u8] = include_bytes!("../../../samples/r-registers.section");
    let mut own = frame(0, 0x1020, 0x7000);
    own[18 + 8 * 3..][..8].copy_from_slice(&0x50000_u64.to_le_bytes());
    let step = [own, answer(0, 2)].concat();
    let outcome = on(registers, 1, &[step.clone(), step.clone(), step, vec![3]]);
    assert_eq!(outcome.numbers, SAME);
    // The slot is moved by 0x40000 three times.
    assert_eq!(outcome.image, image([0x50000, 0x54e20 + 3 * 0x40000]));
}
