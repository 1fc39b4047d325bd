//! Version 1 beside version 3: the check of the same functions, constants and records in both layouts, compared by the
//! byte; and on version 1 the question by function and offset, and the move of one frame.

use crate::measure::{measure, say, table, Row};
use reference::{RecordData, Section};
use std::hint::black_box;
use treskibben::{Frame, Machine, MoveTable, Registers};

const CHECK_3: &str = "check, version 3";
const CHECK: &str = "check, version 1";
const REFERENCE: &str = "reference check, version 1";
const FOUND: &str = "question by function and offset, found (last record)";
const NOT_FOUND: &str = "question by function and offset, not found";
const FRAME: &str = "one frame on the version 1 section";

/// The ratio to reach to the check of the same section.
const MOST_OF_CHECK: f64 = 1.1;

/// The address of the image.
const STACK: u64 = 0x7fff_0000_0000;

/// The image and the frame on it; every base is 0, so that it can be moved again and again.
struct Stack {
    image: Vec<u8>,
    frame: Frame,
    registers: Registers,
}

/// The check of the section in both versions, and questions and a move on version 1.
pub fn rows(rounds: usize, bytes: &[u8]) {
    let Ok(read) = reference::section::read(bytes) else {
        panic!("the second implementation refuses the section")
    };
    let older = in_version_1(&read);
    let last = Place::of_last(&read);
    agree(&older, &last);
    let mut stack = Stack::on(&older, &read);
    println!(
        "\nthe same functions, constants and records in version 1: {} bytes",
        older.len()
    );
    let rows = measure(
        rounds,
        &mut [
            (CHECK_3, &mut crate::on(bytes, treskibben::check)),
            (CHECK, &mut crate::on(&older, treskibben::check)),
            (REFERENCE, &mut crate::on(&older, reference::section::check)),
            (
                FOUND,
                &mut crate::on(&older, |older| black_box(&last).find(older)),
            ),
            (
                NOT_FOUND,
                &mut crate::on(&older, |older| black_box(&last).next().find(older)),
            ),
            (FRAME, &mut || {
                let _ = black_box(stack.moved(black_box(&older)));
            }),
        ],
    );
    println!("\n{}", table(&rows, &[CHECK, CHECK_3]));
    by_the_byte(&rows, older.len(), bytes.len());
    for row in [FOUND, NOT_FOUND, FRAME] {
        say(&rows, row, CHECK, "the check", MOST_OF_CHECK);
    }
}

/// Prints what a byte costs in both checks, and the ratio.
fn by_the_byte(rows: &[Row], older: usize, newer: usize) {
    let time = |name: &str| {
        rows.iter()
            .find(|row| row.name == name)
            .map_or(0.0, |row| row.median)
    };
    let (one, three) = (
        time(CHECK) * 1e6 / older as f64,
        time(CHECK_3) * 1e6 / newer as f64,
    );
    println!(
        "the check by the byte: version 1 {one:.3} ns, version 3 {three:.3} ns, ratio {:.3}",
        one / three
    );
}

/// A record of version 1: its function, as the caller knows it, and its offset.
struct Place {
    function: u64,
    offset: u64,
    number: u64,
}

impl Place {
    fn of(section: &Section, number: usize) -> Place {
        let function = section.records[number].function as u64;
        Place {
            function,
            offset: offset(number),
            number: number as u64,
        }
    }

    /// The last record, whose offset is the highest.
    fn of_last(section: &Section) -> Place {
        Place::of(section, section.records.len() - 1)
    }

    /// Where the record after it would be.
    fn next(&self) -> Place {
        Place {
            offset: self.offset + 1,
            ..*self
        }
    }

    fn find(&self, section: &[u8]) -> Option<u64> {
        let found = treskibben::find_in_function(section, self.function, self.offset);
        found.ok().map(|found| found.record)
    }
}

/// The offset of a record: each has one of its own, as no function tells it from the others.
fn offset(number: usize) -> u64 {
    16 * number as u64
}

/// The same functions, constants and records in version 1.
pub fn of(bytes: &[u8]) -> Vec<u8> {
    let Ok(read) = reference::section::read(bytes) else {
        panic!("the second implementation refuses the section")
    };
    in_version_1(&read)
}

/// The section in version 1.
fn in_version_1(section: &Section) -> Vec<u8> {
    let mut records: Vec<RecordData> = section.records.iter().map(RecordData::from).collect();
    for (number, record) in records.iter_mut().enumerate() {
        record.offset = offset(number) as u32;
    }
    reference::encode_version_1(&section.functions, &section.constants, &records)
}

/// Both checks accept the section, and the questions are answered as they should be.
fn agree(older: &[u8], last: &Place) {
    assert!(
        treskibben::check(older).is_ok(),
        "the proved check refuses version 1"
    );
    assert!(
        reference::section::check(older).is_ok(),
        "the second implementation refuses version 1"
    );
    assert_eq!(
        last.find(older),
        Some(last.number),
        "the last record is found at its offset"
    );
    assert_eq!(last.next().find(older), None, "no record is found above it");
}

impl Stack {
    /// The frame of the last statepoint whose pairs can be moved.
    fn on(older: &[u8], section: &Section) -> Stack {
        let mut stack = Stack {
            image: vec![0; 1_048_576],
            frame: Frame::in_function(0, 0),
            registers: Machine::Amd64.registers(0, STACK),
        };
        for number in (0..section.records.len()).rev().take(100) {
            let place = Place::of(section, number);
            stack.frame = Frame::in_function(place.function, place.offset);
            if let Some(count) = stack.moved(older).filter(|count| *count > 0) {
                println!("\nthe frame on the version 1 section has {count} pointers");
                return stack;
            }
        }
        panic!("no frame can be moved");
    }

    fn moved(&mut self, section: &[u8]) -> Option<usize> {
        treskibben::relocate(
            section,
            &mut self.image,
            STACK,
            MoveTable::default(),
            Machine::Amd64,
            self.frame,
            &mut self.registers,
        )
        .ok()
    }
}

#[cfg(test)]
mod tests {
    use super::*;

    /// Version 1 holds the same, and each of its records is found by its offset alone.
    #[test]
    fn the_same_section_in_version_1() {
        let bytes = crate::section::build(100_000);
        let Ok(read) = reference::section::read(&bytes) else {
            panic!("the section is refused")
        };
        let older = in_version_1(&read);
        let Ok(again) = reference::section::read(&older) else {
            panic!("its version 1 is refused")
        };
        assert_eq!(
            (again.functions.len(), &again.constants),
            (read.functions.len(), &read.constants)
        );
        assert!(older.len() < bytes.len() && again.records.len() == read.records.len());
        for (number, (one, three)) in again.records.iter().zip(&read.records).enumerate() {
            assert_eq!(
                (&one.locations, &one.live_outs),
                (&three.locations, &three.live_outs)
            );
            let Place {
                function, offset, ..
            } = Place::of(&read, number);
            let Ok(found) = reference::by_function(&older, function, offset) else {
                panic!("record {number}")
            };
            assert_eq!((found.record, found.sharing), (number as u64, 1));
        }
    }
}
