//! Whole sections that are made to be asked, and every question worth asking of a small one. They
//! are the same in every run.

use crate::edges::{every_part, record};
use crate::layout::{Function, LiveOut, Location, Section};
use crate::questions::{addresses, Question};

/// The sections.
pub fn all() -> Vec<Section> {
    vec![
        Section::default(),
        with_records(&[(0, &[]), (u64::MAX, &[])]),
        shared(),
        lowest(),
        highest(),
        every_part(),
        kinds(),
        live_outs(),
        full_record(),
    ]
}

/// Functions at these addresses with records at these offsets.
fn with_records(functions: &[(u64, &[u32])]) -> Section {
    let mut section = Section::default();
    for (address, offsets) in functions {
        section.functions.push(Function {
            address: *address,
            stack_size: 24,
            record_count: offsets.len() as u64,
        });
        for offset in *offsets {
            let nth = section.records.len();
            section.records.push(record(*offset, nth % 4, nth % 3));
        }
    }
    section
}

/// Addresses that records of several functions share, with functions between that have none.
fn shared() -> Section {
    with_records(&[
        (0x100, &[]),
        (0x100, &[0, 16]),
        (0x110, &[]),
        (0x108, &[]),
        (0x108, &[8, 16, 8]),
        (0x110, &[]),
        (0x110, &[0]),
        (0x100, &[16, 0, 0xffff_ffff]),
        (0x118, &[]),
    ])
}

/// Records at address 0 and at the first ones after it.
fn lowest() -> Section {
    with_records(&[(0, &[]), (0, &[1, 0]), (1, &[0, 1]), (0, &[2, 0, 0])])
}

/// Records at address 2^64 - 1 and at the last ones before it.
fn highest() -> Section {
    const MAX: u64 = u64::MAX;
    with_records(&[
        (MAX, &[]),
        (MAX - 1, &[0, 1]),
        (MAX, &[]),
        (MAX, &[0, 0]),
        (MAX - 0xffff_ffff, &[0xffff_ffff, 0xffff_fffe, 0]),
    ])
}

/// Every kind with offsets at the edges, and constants at theirs.
fn kinds() -> Section {
    const OFFSETS: [u32; 7] = [
        0,
        1,
        0x7fff_ffff,
        0x8000_0000,
        0x8000_0001,
        u32::MAX - 7,
        u32::MAX,
    ];
    let mut section = with_records(&[(0x1000, &[4]), (0x2000, &[4, 8])]);
    section.constants = vec![
        0,
        1,
        1 << 31,
        u64::from(u32::MAX),
        1 << 63,
        u64::MAX - 1,
        u64::MAX,
    ];
    locations_of_all_kinds(&mut section, &OFFSETS, &[0, 8, u16::MAX]);
    section
}

/// Gives the last record but one locations of kinds 1 to 4 at each of these offsets, and the last
/// record one of kind 5 for each constant, from the last to the first. These sizes take turns.
pub(crate) fn locations_of_all_kinds(section: &mut Section, offsets: &[u32], sizes: &[u16]) {
    let place = |nth: usize, kind: u8, offset: u32| Location {
        kind,
        size: sizes[nth % sizes.len()],
        register: [0, 7, u16::MAX, 6][nth % 4],
        offset,
    };
    let [.., one, last] = &mut section.records[..] else {
        panic!("fewer than two records");
    };
    for kind in 1..=4 {
        for (nth, offset) in offsets.iter().enumerate() {
            one.locations.push(place(nth, kind, *offset));
        }
    }
    last.locations = (0..section.constants.len())
        .rev()
        .map(|index| place(index, 5, index as u32))
        .collect();
}

/// Live-outs with numbers at the edges, in odd and even numbers, after odd and even numbers of
/// locations.
fn live_outs() -> Section {
    let mut section = with_records(&[(0x1000, &[1, 2, 3, 4])]);
    live_outs_at_edges(&mut section);
    section
}

/// Gives the records live-outs with numbers at the edges: five to the first, and to each one less
/// than to the one before.
pub(crate) fn live_outs_at_edges(section: &mut Section) {
    for (nth, record) in section.records.iter_mut().enumerate() {
        let edges = [(0, 0), (1, 255), (0x7f, 0x80), (0xff00, 1), (u16::MAX, 8)];
        let edge = |(register, size)| LiveOut { register, size };
        record.live_outs = edges[nth..].iter().copied().map(edge).collect();
    }
}

/// A record with as many locations and live-outs as it can state, each unlike the one before.
pub(crate) fn full_record() -> Section {
    let mut section = every_part();
    let mut full = record(4, 65_535, 65_535);
    for (nth, location) in full.locations.iter_mut().enumerate() {
        location.offset = nth as u32;
    }
    for (nth, out) in full.live_outs.iter_mut().enumerate() {
        out.register = nth as u16;
    }
    section.records[1] = full;
    section
}

/// Every question on a section: the address of each record and of each function and those beside
/// it; and every number that is there or that a narrower number would take for one that is.
pub fn every_question(section: &Section) -> Vec<Question> {
    let records = addresses(section).map(|(_, own)| own);
    let functions = section.functions.iter().map(|function| function.address);
    let mut found: Vec<u64> = [0, u64::MAX]
        .into_iter()
        .chain(records)
        .chain(functions)
        .collect();
    found.sort();
    found.dedup();
    let beside = |own: u64| {
        [
            own.wrapping_sub(1),
            own,
            own.wrapping_add(1),
            own ^ 1 << 32,
            own ^ 1 << 63,
        ]
    };
    let mut questions: Vec<Question> = found
        .into_iter()
        .flat_map(beside)
        .map(Question::Find)
        .collect();
    questions.extend(in_functions(section));
    for record in numbers(section.records.len()) {
        let there = usize::try_from(record)
            .ok()
            .and_then(|nth| section.records.get(nth));
        let (locations, outs) = there.map_or((1, 1), |there| {
            (there.locations.len(), there.live_outs.len())
        });
        questions.push(Question::Record(record));
        questions.extend(numbers(locations).map(|number| Question::Location(record, number)));
        questions.extend(numbers(outs).map(|number| Question::LiveOut(record, number)));
    }
    questions
}

/// The offset of each record and those beside it, in functions that are there and ones that are not.
fn in_functions(section: &Section) -> Vec<Question> {
    let offsets = section
        .records
        .iter()
        .map(|record| u64::from(record.offset));
    let mut offsets: Vec<u64> = offsets.chain([0, u64::from(u32::MAX)]).collect();
    offsets.sort();
    offsets.dedup();
    let count = section.functions.len() as u64;
    let functions = [0, 1, count.wrapping_sub(1), count, 1 << 32, u64::MAX];
    let beside = |own: u64| {
        [
            own,
            own.wrapping_sub(1),
            own + 1,
            own + (1 << 32),
            own + (1 << 63),
        ]
    };
    let offsets = offsets.into_iter().flat_map(beside);
    offsets
        .flat_map(|offset| functions.map(|function| Question::FindIn(function, offset)))
        .collect()
}

/// The numbers of `count` items, of many only the first and the last, and numbers past them.
fn numbers(count: usize) -> impl Iterator<Item = u64> {
    const FEW: u64 = 40;
    let count = count as u64;
    let first = 0..count.min(FEW);
    let last = count.saturating_sub(2).max(FEW)..count;
    let past = [0, 1, 1 << 16, 1 << 32, (1 << 32) - count, 1 << 63].map(|past| count + past);
    let far = [1 << 16, 1 << 32, u64::MAX - 1, u64::MAX];
    first.chain(last).chain(past).chain(far)
}
