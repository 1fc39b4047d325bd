//! The cases against the second implementation: known answers are those that it gives, and every
//! refusal is met often enough.

use super::layout::{Flat, Range, FRAMES, LOCATIONS, RECORDS, REGISTERS};
use super::{aimed, case, edges, largest, valid};
use crate::{Case, Rng};
use reference::flat::{check, read};

/// How often an answer has to be met.
const OFTEN: u64 = 1_000;

/// The number that the second implementation gives, which has to be the known one.
fn number(case: &Case) -> u64 {
    let answer = match check(&case.bytes) {
        Ok(()) => (0, 0),
        Err(refusal) => (refusal.number, refusal.place),
    };
    let known = case.answer.unwrap_or(answer);
    assert_eq!(answer, known, "{}: {:02x?}", case.name, first(&case.bytes));
    answer.0
}

/// The first bytes, as many as can be read.
fn first(bytes: &[u8]) -> &[u8] {
    &bytes[..bytes.len().min(600)]
}

/// Counts the answers 0 and 36 to 40.
fn count(counts: &mut [u64; 6], number: u64) {
    counts[if number == 0 { 0 } else { number as usize - 35 }] += 1;
}

#[test]
fn a_seed_decides_every_case() {
    let cases = |seed| {
        let mut rng = Rng::new(seed);
        (0..500).map(|_| case(&mut rng).bytes).collect::<Vec<_>>()
    };
    assert_eq!(cases(1), cases(1));
    assert_ne!(cases(1), cases(2));
}

#[test]
fn random_cases_meet_every_refusal() {
    let mut rng = Rng::new(13);
    let (mut counts, mut open) = ([0; 6], [0; 6]);
    for _ in 0..60_000 {
        let case = case(&mut rng);
        let number = number(&case);
        count(&mut counts, number);
        if case.answer.is_none() {
            count(&mut open, number);
        }
    }
    println!("accepted and refused by 36 to 40: {counts:?}");
    println!("of them with an answer that was not known: {open:?}");
    assert!(counts.iter().all(|count| *count >= OFTEN), "{counts:?}");
    assert!(open.iter().all(|count| *count >= 100), "{open:?}");
}

#[test]
fn aims_hit_or_leave_the_section_whole() {
    let mut rng = Rng::new(1);
    for aimed in aimed::NUMBERS {
        let mut hits = 0;
        for _ in 0..2 * OFTEN {
            let flat = valid::section(&mut rng);
            let mut built = flat.build();
            let hit = aimed::aim(&mut rng, aimed, &flat, &mut built);
            assert_eq!(hit, built.bytes != flat.encode(), "{aimed}");
            let answer = if hit { aimed } else { 0 };
            number(&Case::known("aimed", built.bytes, answer, 0));
            hits += u64::from(hit);
        }
        assert!(hits >= OFTEN, "{aimed}: {hits}");
    }
}

/// Whether what the second implementation reads is what was written.
fn is_read_back(flat: &Flat) -> bool {
    let read = read(&flat.encode()).expect("a whole section is accepted");
    let frames = read.frames.iter().zip(&flat.frames).all(|(read, frame)| {
        (read.address, read.size, read.stack_size) == (frame.address, frame.size, frame.stack_size)
            && (read.flags, read.base_register) == (frame.flags, frame.base_register)
            && read.registers() == frame.registers.numbers()
            && read.records() == frame.records.numbers()
    });
    let mut registers = read.frame_registers.iter().zip(&flat.registers);
    let registers = registers.all(|(read, register)| {
        (read.register, read.offset) == (register.register, register.offset)
            && (read.size, read.flags) == (register.size, register.flags)
    });
    let mut records = read.records.iter().zip(&flat.records);
    let records = records.all(|(read, record)| {
        (read.id, read.offset) == (record.id, record.offset)
            && (read.call_size, read.flags) == (record.call_size, record.flags)
            && read.locations() == record.locations.numbers()
            && read.live_outs() == record.live_outs.numbers()
    });
    let mut locations = read.locations.iter().zip(&flat.locations);
    let locations = locations.all(|(read, location)| {
        (read.kind, read.register, read.offset)
            == (location.kind, location.register, location.offset)
    });
    let mut live_outs = read.live_outs.iter().zip(&flat.live_outs);
    let live_outs = live_outs.all(|(r, out)| (r.register, r.size) == (out.register, out.size));
    let counts = [
        read.constants.len(),
        read.frames.len(),
        read.frame_registers.len(),
        read.records.len(),
        read.locations.len(),
        read.live_outs.len(),
    ];
    let entries = frames && registers && records && locations && live_outs;
    counts == flat.counts() && read.constants == flat.constants && entries
}

#[test]
fn whole_sections_are_read_as_they_were_written() {
    let mut rng = Rng::new(3);
    for nth in 0..20_000 {
        let flat = match nth % 2 {
            0 => valid::section(&mut rng),
            _ => valid::crowded(&mut rng),
        };
        assert!(is_read_back(&flat), "{flat:?}");
    }
    for _ in 0..40 {
        assert!(is_read_back(&valid::wide(&mut rng)));
    }
    assert!(edges::bases().iter().all(is_read_back));
}

/// Whether two frames name a record that is the same.
fn shares_records(flat: &Flat) -> bool {
    let ranges = flat.frames.iter().map(|frame| frame.records.numbers());
    let mut named: Vec<usize> = ranges.flatten().collect();
    let all = named.len();
    named.sort();
    named.dedup();
    named.len() < all
}

#[test]
fn whole_sections_have_every_shape() {
    let mut rng = Rng::new(4);
    let (mut empty, mut filled) = ([0u64; 6], [0u64; 6]);
    let (mut odd, mut even, mut shared, mut paddings) = (0, 0, 0, [0u64; 4]);
    for _ in 0..20_000 {
        let flat = valid::section(&mut rng);
        for (array, count) in flat.counts().into_iter().enumerate() {
            let of = if count == 0 { &mut empty } else { &mut filled };
            of[array] += 1;
        }
        let built = flat.build();
        let padding = built.starts[RECORDS] - built.entry(REGISTERS, flat.registers.len());
        paddings[padding / 2] += 1;
        let records = flat.records.len();
        odd += u64::from(records % 2 == 1);
        even += u64::from(records > 0 && records.is_multiple_of(2));
        let padding = built.starts[LOCATIONS] - built.entry(RECORDS, records);
        assert_eq!(padding, 2 * (records % 2));
        shared += u64::from(flat.counts()[FRAMES] < 10 && shares_records(&flat));
    }
    let met = [empty, filled].concat().into_iter().chain(paddings);
    for met in met.chain([odd, even, shared]) {
        assert!(met >= OFTEN, "{met}");
    }
}

/// Whether one of the ranges begins at the last index and is nearly as long as a range can be.
fn is_last(mut ranges: impl Iterator<Item = Range>) -> u64 {
    u64::from(ranges.any(|range| range.index == 65_535 && range.count > 65_000))
}

#[test]
fn wide_sections_have_indexes_at_the_end_of_16_bits() {
    let mut rng = Rng::new(5);
    let mut last = [0; 4];
    for _ in 0..100 {
        let flat = valid::wide(&mut rng);
        number(&Case::known("wide", flat.encode(), 0, 0));
        let (frames, records) = (flat.frames.iter(), flat.records.iter());
        last[0] += is_last(frames.clone().map(|frame| frame.registers));
        last[1] += is_last(frames.map(|frame| frame.records));
        last[2] += is_last(records.clone().map(|record| record.locations));
        last[3] += is_last(records.map(|record| record.live_outs));
    }
    assert!(last.iter().all(|met| *met >= 3), "{last:?}");
}

#[test]
fn every_reserved_bit_alone_is_40() {
    let mut rng = Rng::new(6);
    let mut bits = 0;
    for _ in 0..2_000 {
        let shape = valid::shape(&mut rng);
        let built = valid::shaped(&mut rng, &shape).build();
        for (place, mask) in built.reserved {
            for bit in (0..8).map(|bit| 1u8 << bit).filter(|bit| mask & bit != 0) {
                let mut bytes = built.bytes.clone();
                bytes[place] |= bit;
                number(&Case::known("reserved bit", bytes, 40, 0));
                bits += 1;
            }
        }
    }
    assert!(bits >= 100 * OFTEN);
}

#[test]
fn edges_are_answered_as_they_say() {
    let mut counts = [0; 6];
    edges::all(&mut |case| count(&mut counts, number(&case)));
    println!("edges, accepted and refused by 36 to 40: {counts:?}");
    assert!(counts.iter().all(|count| *count >= 500), "{counts:?}");
}

#[test]
fn the_largest_sections_are_answered_as_they_say() {
    let mut counts = [0; 6];
    largest::all(&mut |case| count(&mut counts, number(&case)));
    assert_eq!(counts, [5, 6, 1, 6, 0, 5]);
}
