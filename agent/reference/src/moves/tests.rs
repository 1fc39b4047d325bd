//! Lists of moves by hand, in every order, with registers.

use super::*;
use crate::editions::{AARCH64, AMD64};
use crate::fixtures::{noise, one_function, refusal, register, rsp, statepoint};

/// A frame of two slots: the second from register 3, register 3 by itself, and
/// register 4 from the first slot.
fn section() -> Vec<u8> {
    let pairs = [
        (register(3), rsp(8)),
        (register(3), register(3)),
        (rsp(0), register(4)),
    ];
    one_function(16, &[], &[statepoint(0x20, &pairs)])
}

/// A frame at this stack pointer with these contents of registers 3 and 4.
fn frame(stack_pointer: u64, contents: [u64; 2]) -> Move {
    let mut registers = noise();
    registers[7] = stack_pointer;
    registers[3..5].copy_from_slice(&contents);
    Move {
        machine: AMD64,
        frame: Frame {
            address: 0x1020,
            function: 0,
        },
        registers,
    }
}

fn image() -> Vec<u8> {
    let slots = [0x50000, 1, 0, 2, 0x50000, 3, 7, 4_u64];
    slots.into_iter().flat_map(u64::to_le_bytes).collect()
}

/// Three frames that are accepted, one refused by 21, one by 25, and one on the
/// other machine that begins at the image's end.
fn moves() -> Vec<Move> {
    let mut short = frame(0x7000, [0, 0]);
    short.registers.pop();
    let mut other = frame(0, [0, 0]);
    other.machine = AARCH64;
    other.registers[31] = 0x7040;
    vec![
        frame(0x7000, [0x50000, 0x50003]),
        frame(0x7010, [0, 9]),
        frame(0x7020, [0x50000, 0x4FFFF]),
        frame(0x7030, [0x50000, 1]),
        short,
        other,
    ]
}

/// The answers of these frames, and their registers 3 and 4 after the list.
fn expected() -> [(Result<u64, crate::Refusal>, [u64; 2]); 6] {
    [
        (Ok(3), [0x90000, 0x90003]),
        (Ok(3), [0, 9]),
        (Ok(3), [0x90000, 0x8FFFF]),
        (refusal(21, 2), [0x50000, 1]),
        (refusal(25, 0), [0, 0]),
        (refusal(16, 0), [0, 0]),
    ]
}

fn orders(count: usize) -> Vec<Vec<usize>> {
    if count == 0 {
        return vec![vec![]];
    }
    let shorter = orders(count - 1).into_iter();
    shorter
        .flat_map(|order| {
            (0..count).map(move |at| {
                let mut order = order.clone();
                order.insert(at, count - 1);
                order
            })
        })
        .collect()
}

/// All 720 orders of six frames: every answer is the plain one, and image and
/// registers come out the same.
#[test]
fn every_order() {
    let slots = [0x50000, 0x40001, 0, 2, 0x50000, 0x40003, 7, 4_u64];
    let after: Vec<u8> = slots.into_iter().flat_map(u64::to_le_bytes).collect();
    let all = orders(6);
    assert_eq!(all.len(), 720);
    for order in all {
        let list: Vec<Move> = order.iter().map(|nth| moves()[*nth].clone()).collect();
        assert!(are_apart(&section(), &list));
        let (olds, news) = ([0x50000], [0x90000]);
        let outcome = one_by_one(&section(), &image(), 0x7000, &olds, &news, &list);
        let plain = plainly(&section(), &image(), 0x7000, &olds, &news, &list);
        assert_eq!(outcome, plain, "{order:?}");
        assert_eq!(outcome.image, after);
        for (nth, own) in order.iter().enumerate() {
            let (answer, registers) = expected()[*own];
            assert_eq!(outcome.answers[nth], answer);
            assert_eq!(outcome.registers[nth][3..5], registers);
            assert_eq!(outcome.registers[nth][5..], list[nth].registers[5..]);
        }
    }
}

/// Without the condition the second of two equal frames is refused by 21.
#[test]
fn frames_that_share_bytes_are_no_such_list() {
    let pairs = [(rsp(8), rsp(8)), (rsp(8), register(3))];
    let section = one_function(16, &[], &[statepoint(0x20, &pairs)]);
    let mut image = image();
    image[8..16].copy_from_slice(&0x50000_u64.to_le_bytes());
    let list = [frame(0x7000, [5, 0]), frame(0x7000, [6, 0])];
    assert!(!are_apart(&section, &list));
    let outcome = one_by_one(&section, &image, 0x7000, &[0x50000], &[0x90000], &list);
    assert_eq!(outcome.answers, [Ok(2), refusal(21, 0)]);
    assert_eq!(outcome.registers[0][3], 0x40005);
    assert_eq!(outcome.registers[1][3], 6, "a refused frame's are as lent");
    let plain = plainly(&section, &image, 0x7000, &[0x50000], &[0x90000], &list);
    assert_eq!(plain.answers, [Ok(2), Ok(2)]);
}

/// A frame without extent is free of the condition, and so is one of none.
#[test]
fn what_is_apart() {
    let mut short = frame(0x7000, [0, 0]);
    short.registers.push(0);
    let mut nowhere = frame(0x7000, [0, 0]);
    nowhere.frame.address = 5;
    let one = frame(0x7000, [0, 0]);
    let list = [one.clone(), short, nowhere, frame(0x7010, [0, 0])];
    assert!(are_apart(&section(), &list));
    assert!(are_apart(&section(), &[]));
    assert!(!are_apart(
        &section(),
        &[one.clone(), frame(0x700F, [0, 0])]
    ));
    let empty = one_function(0, &[], &[statepoint(0x20, &[])]);
    assert!(are_apart(&empty, &[one.clone(), one]));
}
