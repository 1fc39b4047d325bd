//! Whole flat sections that are made to be asked, and every question worth asking of a small one.
//! They are the same in every run.

use super::edges::{bases, of_counts};
use super::layout::{Flat, Range};
use super::questions::Question;

/// The sections.
pub fn all() -> Vec<Flat> {
    let mut sections = bases();
    sections.extend([
        frame_before_record(),
        shared(),
        unnamed(),
        last(),
        wide_offsets(),
    ]);
    sections
}

/// Frames at these addresses with these records, given by index and count, and records at these
/// offsets.
fn with_records(frames: &[(u64, u16, u16)], offsets: &[u32]) -> Flat {
    let mut flat = of_counts([0, frames.len(), 0, offsets.len(), 0, 0]);
    for (frame, &(address, index, count)) in flat.frames.iter_mut().zip(frames) {
        frame.address = address;
        frame.records = Range { index, count };
    }
    for (record, &offset) in flat.records.iter_mut().zip(offsets) {
        record.offset = offset;
    }
    flat
}

/// One address at records of several frames: the first frame has the later records.
fn frame_before_record() -> Flat {
    with_records(
        &[(0x108, 3, 2), (0x100, 0, 3), (0x108, 0, 5), (0x110, 1, 0)],
        &[16, 8, 16, 8, 8],
    )
}

/// Frames that share all records, at addresses that make the records' addresses meet.
fn shared() -> Flat {
    let frames = [(0x100, 0, 4), (0x104, 0, 4), (0x100, 0, 4), (0xfc, 0, 4)];
    with_records(&frames, &[0, 4, 8, 4])
}

/// Records that no frame names, before, between and after those that frames name.
fn unnamed() -> Flat {
    let frames = [(0x100, 5, 0), (0x100, 1, 1), (0x100, 3, 1), (0x200, 0, 0)];
    with_records(&frames, &[0, 1, 2, 3, 4])
}

/// Sums up to 2^64 - 1 and past it. In fewer bits, some past it would be those before.
fn last() -> Flat {
    const MAX: u64 = u64::MAX;
    with_records(
        &[
            (MAX, 1, 3),
            (MAX - 1, 0, 4),
            (MAX - 0xffff_ffff, 0, 4),
            (0, 0, 4),
        ],
        &[0, 1, 2, u32::MAX],
    )
}

/// Offsets whose highest bit is set: they have no sign.
fn wide_offsets() -> Flat {
    let frames = [(0x8000_0000, 0, 4), (1 << 32, 0, 4), (0, 0, 4)];
    with_records(&frames, &[0x8000_0000, 0x7fff_ffff, u32::MAX, 0])
}

/// Every question on a section: every sum of a frame and a record, whether its own or not and
/// modulo 2^64, and those beside it; and every number that is there or that a narrower number would
/// take for one that is.
pub fn every_question(flat: &Flat) -> Vec<Question> {
    let mut sums = vec![0];
    for frame in &flat.frames {
        sums.push(frame.address);
        let offsets = flat.records.iter().map(|record| u64::from(record.offset));
        sums.extend(offsets.map(|offset| frame.address.wrapping_add(offset)));
    }
    sums.sort();
    sums.dedup();
    let beside = |sum: u64| [sum.wrapping_sub(1), sum, sum.wrapping_add(1), sum ^ 1 << 32];
    let lookups = sums.into_iter().flat_map(beside).map(Question::Lookup);
    let [_, frames, registers, records, locations, live_outs] = flat.counts();
    lookups
        .chain(numbers(frames).map(Question::Frame))
        .chain(numbers(registers).map(Question::FrameRegister))
        .chain(numbers(records).map(Question::Record))
        .chain(numbers(locations).map(Question::Location))
        .chain(numbers(live_outs).map(Question::LiveOut))
        .collect()
}

/// The numbers of `count` entries, and numbers past them.
fn numbers(count: usize) -> impl Iterator<Item = u64> {
    let count = count as u64;
    let past = [0, 1, 1 << 16, 1 << 32, (1 << 32) - count, 1 << 63].map(|past| count + past);
    let far = [1 << 16, 1 << 32, u64::MAX - 1, u64::MAX];
    (0..count).chain(past).chain(far)
}
