//! Questions on a section, mostly at the edges of its parts, and what a whole section answers them.

use crate::layout::{Record, Section, Version};
use crate::rng::Rng;
use std::iter::repeat_n;

/// A question on a section.
#[derive(Clone, Copy, Debug, PartialEq, Eq)]
pub enum Question {
    /// By address.
    Find(u64),
    /// By function number and offset.
    FindIn(u64, u64),
    /// By record number.
    Record(u64),
    /// By record and location number.
    Location(u64, u64),
    /// By record and live-out number.
    LiveOut(u64, u64),
}

/// What a question is answered.
#[derive(Clone, Copy, Debug, PartialEq, Eq)]
pub enum Answer {
    Refused {
        number: u64,
        place: u64,
    },
    Found {
        record: u64,
        function: u64,
        sharing: u64,
    },
    /// Where the record's bytes stand in the section.
    Record {
        first: usize,
        length: usize,
    },
    Location {
        kind: u8,
        size: u16,
        register: u16,
        offset: i32,
        constant: u64,
        /// The content place: 0 none, 1 a register, 2 memory.
        content: u8,
    },
    LiveOut {
        register: u16,
        size: u8,
    },
}

/// The refusal of a record that isn't there, and that of a location or live-out.
const NO_RECORD: Answer = Answer::Refused {
    number: 10,
    place: 0,
};
const NO_ENTRY: Answer = Answer::Refused {
    number: 11,
    place: 0,
};

/// The refusal of a question that the other version has.
const OTHER_VERSION: Answer = Answer::Refused {
    number: 27,
    place: 0,
};

/// The function and the address of each record. Those of version 1 have none.
pub fn addresses(section: &Section) -> impl Iterator<Item = (usize, u64)> + '_ {
    let functions = section.functions.iter().enumerate();
    let owners = functions
        .flat_map(|(nth, function)| repeat_n((nth, function), function.record_count as usize));
    owners
        .zip(&section.records)
        .map(|((nth, function), record)| (nth, function.address + u64::from(record.offset)))
}

/// The entry of a number, whatever the number.
fn entry<T>(entries: &[T], number: u64) -> Option<&T> {
    entries.get(usize::try_from(number).ok()?)
}

/// What a whole section answers.
pub fn answer(section: &Section, question: Question) -> Answer {
    match question {
        Question::Find(address) => find(section, address),
        Question::FindIn(function, offset) => find_in(section, function, offset),
        Question::Record(record) => stretch(section, record),
        Question::Location(record, number) => location(section, record, number),
        Question::LiveOut(record, number) => live_out(section, record, number),
    }
}

fn find(section: &Section, address: u64) -> Answer {
    if section.version == Version::One {
        return OTHER_VERSION;
    }
    let mut there = addresses(section)
        .enumerate()
        .filter(|(_, (_, own))| *own == address);
    match there.next() {
        None => NO_RECORD,
        Some((record, (function, _))) => Answer::Found {
            record: record as u64,
            function: function as u64,
            sharing: 1 + there.count() as u64,
        },
    }
}

fn find_in(section: &Section, function: u64, offset: u64) -> Answer {
    if section.version == Version::Three {
        return OTHER_VERSION;
    }
    let records = section.records.iter().enumerate();
    let mut there = records.filter(|(_, record)| u64::from(record.offset) == offset);
    match (entry(&section.functions, function), there.next()) {
        (Some(_), Some((record, _))) => Answer::Found {
            record: record as u64,
            function,
            sharing: 1 + there.count() as u64,
        },
        _ => NO_RECORD,
    }
}

fn stretch(section: &Section, number: u64) -> Answer {
    let Some(record) = entry(&section.records, number) else {
        return NO_RECORD;
    };
    let length = |record: &Record| record.length(section.version);
    let before = section.records[..number as usize].iter().map(length);
    Answer::Record {
        first: section.records_at() + before.sum::<usize>(),
        length: length(record),
    }
}

fn location(section: &Section, record: u64, number: u64) -> Answer {
    let Some(record) = entry(&section.records, record) else {
        return NO_RECORD;
    };
    let Some(location) = entry(&record.locations, number) else {
        return NO_ENTRY;
    };
    let constant = match location.kind {
        4 => i64::from(location.offset as i32) as u64,
        5 => section.constants[location.offset as usize],
        _ => 0,
    };
    let content = match location.kind {
        1 => 1,
        3 => 2,
        _ => 0,
    };
    Answer::Location {
        kind: location.kind,
        size: location.size,
        register: location.register,
        offset: location.offset as i32,
        constant,
        content,
    }
}

fn live_out(section: &Section, record: u64, number: u64) -> Answer {
    let Some(record) = entry(&section.records, record) else {
        return NO_RECORD;
    };
    match entry(&record.live_outs, number) {
        None => NO_ENTRY,
        Some(out) => Answer::LiveOut {
            register: out.register,
            size: out.size,
        },
    }
}

/// A question on a section, or on what a damage has left of it.
pub fn question(rng: &mut Rng, section: &Section) -> Question {
    let record = number(rng, section.records.len());
    let record_there = entry(&section.records, record);
    // Mostly the question that the version has.
    let first = (section.version == Version::One) != rng.one_in(8);
    match rng.below(8) {
        0..=2 if first => {
            let function = number(rng, section.functions.len());
            Question::FindIn(function, offset(rng, section))
        }
        0..=2 => Question::Find(address(rng, section)),
        3 => Question::Record(record),
        4..=6 => {
            let count = record_there.map_or(0, |record| record.locations.len());
            Question::Location(record, number(rng, count))
        }
        _ => {
            let count = record_there.map_or(0, |record| record.live_outs.len());
            Question::LiveOut(record, number(rng, count))
        }
    }
}

/// The number of one of `count` items; or one past them, far past them where a narrower number
/// would be inside again, or the largest.
fn number(rng: &mut Rng, count: usize) -> u64 {
    let inside = rng.below(count.max(1)) as u64;
    let count = count as u64;
    match rng.below(16) {
        0..=7 => inside,
        8 => 0,
        9 | 10 => count.saturating_sub(1),
        11 => count,
        12 => count + 1,
        13 => inside + rng.pick(&[1 << 8, 1 << 16, 1 << 31, 1 << 32, 1 << 63]),
        14 => rng.pick(&[1 << 32, u64::MAX, u64::MAX - inside]),
        _ => rng.number(64),
    }
}

/// The address of a record; or one beside it, one where a narrower number would be equal, that of
/// a function, or one that has nothing to do with the section.
pub fn address(rng: &mut Rng, section: &Section) -> u64 {
    let nth = rng.below(section.records.len().max(1));
    let there = addresses(section).nth(nth).map_or(0, |(_, own)| own);
    match rng.below(16) {
        0..=7 => there,
        8 => there.wrapping_add(1),
        9 => there.wrapping_sub(1),
        10 => there.wrapping_add(rng.pick(&[1 << 8, 1 << 16, 1 << 32, 1 << 63])),
        11 if !section.functions.is_empty() => {
            section.functions[rng.below(section.functions.len())].address
        }
        12 => 0,
        13 => u64::MAX,
        _ => rng.number(64),
    }
}

/// The offset of a record; or one beside it, one where a narrower number would be equal, what would
/// be its address in some function, or one that has nothing to do with the section.
fn offset(rng: &mut Rng, section: &Section) -> u64 {
    let records = &section.records;
    let there = match records.len() {
        0 => 0,
        count => u64::from(records[rng.below(count)].offset),
    };
    match rng.below(16) {
        0..=8 => there,
        9 => there + 1,
        10 => there.wrapping_sub(1),
        11 => there + rng.pick(&[1 << 32, 1 << 33, 1 << 63]),
        12 if !section.functions.is_empty() => {
            let function = &section.functions[rng.below(section.functions.len())];
            function.address.wrapping_add(there)
        }
        13 => rng.pick(&[0, u64::from(u32::MAX), 1 << 32, u64::MAX]),
        _ => rng.number(64),
    }
}
