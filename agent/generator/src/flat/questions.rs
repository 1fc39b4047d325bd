//! Questions on a flat section, mostly at the edges of its parts, and what a whole section answers
//! them.

use super::layout::{Flat, Frame, FrameRegister, Location, Record};
use crate::rng::Rng;

/// A question on a flat section.
#[derive(Clone, Copy, Debug, PartialEq, Eq)]
pub enum Question {
    /// By address.
    Lookup(u64),
    /// By number in the whole array.
    Frame(u64),
    FrameRegister(u64),
    Record(u64),
    Location(u64),
    LiveOut(u64),
}

/// What a question is answered.
#[derive(Clone, Debug, PartialEq, Eq)]
pub enum Answer {
    Refused { number: u64, place: u64 },
    Found { frame: u64, record: u64 },
    Frame(Frame),
    FrameRegister(FrameRegister),
    Record(Record),
    Location(Location),
    LiveOut { register: u16, size: u8 },
}

fn refused(number: u64) -> Answer {
    Answer::Refused { number, place: 0 }
}

/// The entry of a number, whatever the number.
fn entry<T>(entries: &[T], number: u64) -> Option<&T> {
    entries.get(usize::try_from(number).ok()?)
}

/// What a whole section answers.
pub fn answer(flat: &Flat, question: Question) -> Answer {
    match question {
        Question::Lookup(address) => lookup(flat, address),
        Question::Frame(number) => match entry(&flat.frames, number) {
            Some(frame) => Answer::Frame(frame.clone()),
            None => refused(10),
        },
        Question::FrameRegister(number) => match entry(&flat.registers, number) {
            Some(register) => Answer::FrameRegister(register.clone()),
            None => refused(11),
        },
        Question::Record(number) => match entry(&flat.records, number) {
            Some(record) => Answer::Record(record.clone()),
            None => refused(10),
        },
        Question::Location(number) => match entry(&flat.locations, number) {
            Some(location) => Answer::Location(location.clone()),
            None => refused(11),
        },
        Question::LiveOut(number) => match entry(&flat.live_outs, number) {
            Some(out) => Answer::LiveOut {
                register: out.register,
                size: out.size,
            },
            None => refused(11),
        },
    }
}

/// The least frame that has a record as far behind its function's address as the address asked for,
/// and the least such record.
fn lookup(flat: &Flat, address: u64) -> Answer {
    for (frame, has) in flat.frames.iter().enumerate() {
        let Some(distance) = address.checked_sub(has.address) else {
            continue;
        };
        let own = &flat.records[has.records.numbers()];
        let found = own.iter().position(|r| u64::from(r.offset) == distance);
        if let Some(nth) = found {
            return Answer::Found {
                frame: frame as u64,
                record: (usize::from(has.records.index) + nth) as u64,
            };
        }
    }
    refused(41)
}

/// A random question.
pub fn question(rng: &mut Rng, flat: &Flat) -> Question {
    match rng.below(10) {
        0 => Question::Frame(number(rng, flat.frames.len())),
        1 => Question::FrameRegister(number(rng, flat.registers.len())),
        2 => Question::Record(number(rng, flat.records.len())),
        3 => Question::Location(number(rng, flat.locations.len())),
        4 => Question::LiveOut(number(rng, flat.live_outs.len())),
        _ => Question::Lookup(address(rng, flat)),
    }
}

/// A number of `count` entries, mostly the first, the last or one past them, or one that a narrower
/// number would take for one of them.
fn number(rng: &mut Rng, count: usize) -> u64 {
    let near = match rng.below(4) {
        0 => 0,
        1 => count as u64,
        2 => (count as u64).saturating_sub(1),
        _ => rng.below(count + 1) as u64,
    };
    let past = match rng.below(16) {
        0 => 1 << 16,
        1 => 1 << 32,
        2 => 1 << 63,
        3 => rng.word(),
        _ => 0,
    };
    near.wrapping_add(past)
}

/// An address: that of some record with some frame, its own or not, modulo 2^64, or one beside it.
fn address(rng: &mut Rng, flat: &Flat) -> u64 {
    let (mut frame, mut offset) = (0, 0);
    if !flat.frames.is_empty() {
        let has = &flat.frames[rng.below(flat.frames.len())];
        frame = has.address;
        let own = has.records.numbers();
        if !own.is_empty() {
            offset = flat.records[own.start + rng.below(own.len())].offset;
        }
    }
    if !flat.records.is_empty() && rng.one_in(4) {
        offset = flat.records[rng.below(flat.records.len())].offset;
    }
    let sum = frame.wrapping_add(offset.into());
    match rng.below(12) {
        0 => sum.wrapping_add(1),
        1 => sum.wrapping_sub(1),
        2 => frame,
        3 => rng.number(64),
        4 => sum ^ 1 << 32,
        _ => sum,
    }
}
