//! Questions against the second implementation, and the slow sections.

use super::asked::{all, every_question};
use super::layout::{Frame, FrameRegister, Location, Range, Record, LARGEST};
use super::questions::{answer, question, Answer, Question};
use super::slow::{section, Kind, LEAST_SLOW};
use super::{case_of, valid};
use crate::Rng;
use reference::flat;
use reference::Refusal;

fn range(numbers: std::ops::Range<usize>) -> Range {
    Range {
        index: numbers.start as u16,
        count: numbers.len() as u16,
    }
}

fn frame(read: flat::Frame) -> Answer {
    Answer::Frame(Frame {
        registers: range(read.registers()),
        records: range(read.records()),
        address: read.address,
        size: read.size,
        stack_size: read.stack_size,
        flags: read.flags,
        base_register: read.base_register,
    })
}

fn register(read: flat::FrameRegister) -> Answer {
    Answer::FrameRegister(FrameRegister {
        register: read.register,
        offset: read.offset,
        size: read.size,
        flags: read.flags,
    })
}

fn record(read: flat::Record) -> Answer {
    Answer::Record(Record {
        locations: range(read.locations()),
        live_outs: range(read.live_outs()),
        id: read.id,
        offset: read.offset,
        call_size: read.call_size,
        flags: read.flags,
    })
}

fn location(read: flat::Location) -> Answer {
    Answer::Location(Location {
        kind: read.kind,
        register: read.register,
        offset: read.offset,
    })
}

/// What the second implementation answers.
fn asked(bytes: &[u8], question: Question) -> Answer {
    let answer = match question {
        Question::Lookup(address) => flat::lookup(bytes, address).map(|found| Answer::Found {
            frame: found.frame,
            record: found.record,
        }),
        Question::Frame(number) => flat::frame(bytes, number).map(frame),
        Question::FrameRegister(number) => flat::frame_register(bytes, number).map(register),
        Question::Record(number) => flat::record(bytes, number).map(record),
        Question::Location(number) => flat::location(bytes, number).map(location),
        Question::LiveOut(number) => flat::live_out(bytes, number).map(|out| Answer::LiveOut {
            register: out.register,
            size: out.size,
        }),
    };
    answer.unwrap_or_else(|refusal: Refusal| Answer::Refused {
        number: refusal.number,
        place: refusal.place,
    })
}

#[test]
fn questions_are_answered_as_the_data_say() {
    let mut rng = Rng::new(7);
    let (mut found, mut later, mut given) = (0, 0, 0);
    let (mut none, mut no_record, mut no_entry) = (0, 0, 0);
    for nth in 0..15_000 {
        let flat = match nth % 2 {
            0 => valid::section(&mut rng),
            _ => valid::crowded(&mut rng),
        };
        let bytes = flat.encode();
        for _ in 0..4 {
            let question = question(&mut rng, &flat);
            let expected = answer(&flat, question);
            assert_eq!(
                asked(&bytes, question),
                expected,
                "{question:?} of {flat:?}"
            );
            match expected {
                Answer::Found { frame: 0, .. } => found += 1,
                Answer::Found { .. } => later += 1,
                Answer::Refused { number: 41, .. } => none += 1,
                Answer::Refused { number: 10, .. } => no_record += 1,
                Answer::Refused { number: 11, .. } => no_entry += 1,
                _ => given += 1,
            }
        }
    }
    let counts = [found, later, given, none, no_record, no_entry];
    println!("first frame, later frame, by number, 41, 10, 11: {counts:?}");
    assert!(counts.iter().all(|count| *count >= 1_000), "{counts:?}");
}

#[test]
fn every_question_is_answered_as_the_data_say() {
    let mut found = 0;
    for flat in all() {
        let bytes = flat.encode();
        for question in every_question(&flat) {
            let expected = answer(&flat, question);
            found += u64::from(matches!(expected, Answer::Found { .. }));
            assert_eq!(
                asked(&bytes, question),
                expected,
                "{question:?} of {flat:?}"
            );
        }
    }
    assert!(found >= 100, "{found}");
}

#[test]
fn the_sections_own_refusal_comes_first() {
    let mut rng = Rng::new(8);
    let mut refused = 0;
    for _ in 0..4_000 {
        let flat = valid::section(&mut rng);
        let case = case_of(&mut rng, &flat);
        let question = question(&mut rng, &flat);
        if let Err(Refusal { number, place }) = flat::check(&case.bytes) {
            let expected = Answer::Refused { number, place };
            assert_eq!(asked(&case.bytes, question), expected);
            refused += 1;
        }
    }
    assert!(refused >= 1_000);
}

#[test]
fn slow_sections_are_answered_as_they_say() {
    for kind in Kind::ALL {
        for length in (LEAST_SLOW..LEAST_SLOW + 300).chain([5_000, 20_000]) {
            for found in [false, true] {
                let slow = section(kind, length, found);
                let bytes = slow.flat.encode();
                assert!(bytes.len() <= length && length - bytes.len() <= 31);
                let expected = match slow.answer {
                    Some((frame, record)) => Answer::Found { frame, record },
                    None => Answer::Refused {
                        number: 41,
                        place: 0,
                    },
                };
                let question = Question::Lookup(slow.address);
                assert_eq!(asked(&bytes, question), expected, "{kind:?}, {length}");
                assert_eq!(answer(&slow.flat, question), expected);
                assert_eq!(slow.answer.is_some(), found);
            }
        }
    }
}

#[test]
fn the_largest_slow_sections_are_whole_and_take_many_steps() {
    for kind in Kind::ALL {
        let slow = section(kind, LARGEST, true);
        let bytes = slow.flat.encode();
        assert!(bytes.len() <= LARGEST && LARGEST - bytes.len() <= 31);
        assert_eq!(flat::check(&bytes), Ok(()));
        assert!(slow.steps() > 30_000_000_000, "{}", slow.steps());
    }
}
