//! The shape of a trace: what is written is read, and 35 for every way to break
//! it, by hand and at every byte.

use super::*;
use crate::fixtures::{hex, noise, refusal};
use crate::relocate::Frame;

/// A step of which each field holds something else.
fn step(nth: u64) -> Step {
    let mut registers = [0; 32];
    registers.copy_from_slice(&noise());
    registers[0] = nth;
    Step {
        machine: (nth % 2) as u8,
        frame: Frame {
            address: 0x1020 + nth,
            function: 0x0102_0304_0506_0708,
        },
        registers,
        answer: Recorded {
            number: 200,
            value: 0xFFEE_DDCC_BBAA_9988,
        },
    }
}

/// The lengths of a frame item and of an answer item.
const FRAME: usize = 1 + 1 + 8 + 8 + 256;
const ANSWER: usize = 1 + 1 + 8;

fn trace(steps: u64) -> Vec<u8> {
    let steps: Vec<Step> = (0..steps).map(step).collect();
    write(&steps)
}

#[test]
fn a_trace_byte_by_byte() {
    let bytes = trace(2);
    assert_eq!(bytes.len(), 2 * (FRAME + ANSWER) + 1);
    assert_eq!((FRAME, ANSWER), (274, 10));
    assert_eq!(
        bytes[..26],
        hex("01 00  20 10 00 00 00 00 00 00  08 07 06 05 04 03 02 01
             00 00 00 00 00 00 00 00")
    );
    assert_eq!(bytes[26..34], hex("01 00 AD 0B 00 00 00 00"));
    assert_eq!(
        bytes[FRAME..FRAME + ANSWER],
        hex("02 C8  88 99 AA BB CC DD EE FF")
    );
    assert_eq!(bytes[FRAME + ANSWER..][..3], hex("01 01 21"));
    assert_eq!(bytes.last(), Some(&3));
}

#[test]
fn what_is_written_is_read() {
    for count in [0, 1, 2, 5] {
        let steps: Vec<Step> = (0..count).map(step).collect();
        assert_eq!(parse(&write(&steps)), Ok(steps));
    }
}

#[test]
fn a_trace_of_none_is_an_end() {
    assert_eq!(trace(0), [3]);
    assert_eq!(parse(&[3]), Ok(vec![]));
    assert_eq!(parse(&[]), refusal(35, 0), "a missing end, at the length");
}

/// A cut item is at its own first byte, and a missing one at the length.
#[test]
fn cut_at_every_byte() {
    let bytes = trace(2);
    let starts = [0, FRAME, FRAME + ANSWER, 2 * FRAME + ANSWER];
    for length in 0..bytes.len() {
        let place = match starts.iter().rfind(|start| **start <= length) {
            // The end is missing, after two whole steps.
            _ if length == 2 * (FRAME + ANSWER) => length,
            Some(start) => *start,
            None => 0,
        };
        assert_eq!(parse(&bytes[..length]), refusal(35, place as u64));
    }
}

/// Every other kind in the place of each item is bad there.
#[test]
fn every_kind_in_every_place() {
    let bytes = trace(2);
    let items = [
        (0, 1),
        (FRAME, 2),
        (FRAME + ANSWER, 1),
        (2 * FRAME + ANSWER, 2),
        (2 * (FRAME + ANSWER), 3),
    ];
    for (at, own) in items {
        for kind in 0..=255 {
            let mut broken = bytes.clone();
            broken[at] = kind;
            let place = match (own, kind) {
                (own, kind) if own == kind => continue,
                // An end in a frame's place: what follows it is bad.
                (1, 3) => at + 1,
                // A frame in the end's place is cut.
                _ => at,
            };
            assert_eq!(parse(&broken), refusal(35, place as u64), "{kind} at {at}");
        }
    }
}

#[test]
fn items_left_out_doubled_or_exchanged() {
    let (one, end) = (trace(1), vec![3]);
    let frame = one[..FRAME].to_vec();
    let answer = one[FRAME..FRAME + ANSWER].to_vec();
    let broken = |items: &[&Vec<u8>], place: usize| {
        let items: Vec<u8> = items.iter().copied().flatten().copied().collect();
        assert_eq!(parse(&items), refusal(35, place as u64));
    };
    broken(&[&answer, &end], 0);
    broken(&[&answer, &frame, &end], 0);
    broken(&[&frame, &end], FRAME);
    broken(&[&frame], FRAME);
    broken(&[&frame, &frame, &answer, &end], FRAME);
    broken(&[&frame, &answer, &answer, &end], FRAME + ANSWER);
    broken(&[&frame, &answer], FRAME + ANSWER);
    broken(&[&frame, &answer, &end, &end], FRAME + ANSWER + 1);
    broken(&[&end, &frame, &answer, &end], 1);
    broken(&[&end, &vec![0]], 1);
}

/// A machine byte above 1 is bad at the frame's own place, even where a later
/// item is bad too; and so is a frame that is cut and has one.
#[test]
fn a_machine_that_is_none() {
    for machine in 2..=255 {
        let mut bytes = trace(2);
        bytes[FRAME + ANSWER + 1] = machine;
        assert_eq!(parse(&bytes), refusal(35, (FRAME + ANSWER) as u64));
        bytes.truncate(2 * FRAME + ANSWER + 3);
        assert_eq!(parse(&bytes), refusal(35, (FRAME + ANSWER) as u64));
        bytes.truncate(FRAME + ANSWER + 2);
        assert_eq!(parse(&bytes), refusal(35, (FRAME + ANSWER) as u64));
        bytes[0] = 7;
        assert_eq!(parse(&bytes), refusal(35, 0), "the first bad item");
    }
}

/// The answer's number and value may be anything.
#[test]
fn any_answer_is_no_fault_of_the_trace() {
    let mut bytes = trace(1);
    for byte in 0..=255 {
        bytes[FRAME + 1] = byte;
        bytes[FRAME + 9] = byte;
        assert!(parse(&bytes).is_ok());
    }
}
