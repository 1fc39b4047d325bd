//! One question on a flat section, by the library and by the second implementation.

use crate::common::differ;
use generator::flat::layout::{Flat, Frame, FrameRegister, Location, Range, Record};
use generator::flat::questions::{answer, Answer, Question};
use generator::Case;
use reference::flat as second;
use treskibben::{flat, Refusal};

fn range(index: u16, count: u16) -> Range {
    Range { index, count }
}

/// What the library answers.
pub fn by_library(section: &[u8], question: Question) -> Answer {
    let answer = match question {
        Question::Lookup(address) => flat::find(section, address).map(|it| Answer::Found {
            frame: it.frame,
            record: it.record,
        }),
        Question::Frame(number) => flat::frame(section, number).map(|it| {
            Answer::Frame(Frame {
                address: it.address,
                size: it.function_size,
                stack_size: it.stack_size,
                flags: it.flags,
                base_register: it.base_register,
                registers: range(it.register_index, it.num_registers),
                records: range(it.record_index, it.num_records),
            })
        }),
        Question::FrameRegister(number) => flat::frame_register(section, number).map(|it| {
            Answer::FrameRegister(FrameRegister {
                register: it.register,
                offset: it.offset,
                size: it.size,
                flags: it.flags,
            })
        }),
        Question::Record(number) => flat::record(section, number).map(|it| {
            Answer::Record(Record {
                id: it.id,
                offset: it.offset,
                call_size: it.call_size,
                flags: it.flags,
                locations: range(it.location_index, it.num_locations),
                live_outs: range(it.live_out_index, it.num_live_outs),
            })
        }),
        Question::Location(number) => flat::location(section, number).map(|it| {
            Answer::Location(Location {
                kind: it.kind,
                register: it.register,
                offset: it.offset,
            })
        }),
        Question::LiveOut(number) => flat::live_out(section, number).map(|it| Answer::LiveOut {
            register: it.register,
            size: it.size,
        }),
    };
    answer.unwrap_or_else(|refusal: Refusal| Answer::Refused {
        number: refusal.number(),
        place: refusal.place(),
    })
}

/// What the second implementation answers.
fn by_second(section: &[u8], question: Question) -> Answer {
    let answer = match question {
        Question::Lookup(address) => second::lookup(section, address).map(|it| Answer::Found {
            frame: it.frame,
            record: it.record,
        }),
        Question::Frame(number) => second::frame(section, number).map(|it| {
            Answer::Frame(Frame {
                address: it.address,
                size: it.size,
                stack_size: it.stack_size,
                flags: it.flags,
                base_register: it.base_register,
                registers: range(it.register_index, it.num_registers),
                records: range(it.record_index, it.num_records),
            })
        }),
        Question::FrameRegister(number) => second::frame_register(section, number).map(|it| {
            Answer::FrameRegister(FrameRegister {
                register: it.register,
                offset: it.offset,
                size: it.size,
                flags: it.flags,
            })
        }),
        Question::Record(number) => second::record(section, number).map(|it| {
            Answer::Record(Record {
                id: it.id,
                offset: it.offset,
                call_size: it.call_size,
                flags: it.flags,
                locations: range(it.location_index, it.num_locations),
                live_outs: range(it.live_out_index, it.num_live_outs),
            })
        }),
        Question::Location(number) => second::location(section, number).map(|it| {
            Answer::Location(Location {
                kind: it.kind,
                register: it.register,
                offset: it.offset,
            })
        }),
        Question::LiveOut(number) => second::live_out(section, number).map(|it| Answer::LiveOut {
            register: it.register,
            size: it.size,
        }),
    };
    answer.unwrap_or_else(|refusal| Answer::Refused {
        number: refusal.number,
        place: refusal.place,
    })
}

/// What is known beforehand: the refusal of a case, or what the section answers that it is made of.
fn known(case: &Case, flat: Option<&Flat>, question: Question) -> Option<Answer> {
    match case.answer? {
        (0, _) => flat.map(|flat| answer(flat, question)),
        (number, place) => Some(Answer::Refused {
            number,
            place: place as u64,
        }),
    }
}

/// Compares both answers, and with the one that is known beforehand, in every field. Gives its number.
pub fn compare(case: &Case, flat: Option<&Flat>, question: Question) -> usize {
    let library = by_library(&case.bytes, question);
    let second = by_second(&case.bytes, question);
    let known = known(case, flat, question);
    if library != second || known.as_ref().is_some_and(|known| library != *known) {
        let answers = format!(
            "{question:?}: by the library {library:?}, by the second implementation {second:?}, \
             known beforehand {known:?}"
        );
        differ(case.name, &case.bytes, &answers);
    }
    match library {
        Answer::Refused { number, .. } => number as usize,
        _ => 0,
    }
}
