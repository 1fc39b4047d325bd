//! Flat sections that are slow to search: many frames name many records each, and an address is
//! asked for that none of them has, or only the last record of the last frame. A search that tries
//! each record of each frame takes frames times records steps, 36 thousand million in the largest
//! section.

use super::layout::{Flat, Frame, Range, Record, LEAST};

/// How the frames name the records.
#[derive(Clone, Copy, Debug, PartialEq, Eq)]
pub enum Kind {
    /// Every frame names all records. No two records have the same offset, and every frame asks for
    /// an offset between two that are there.
    Same,
    /// As `Same`, but the frames' ranges differ: each names half of the records, from its own on.
    Staggered,
    /// Half of the records have one offset, half another. Every frame names the one half and asks
    /// for what all records of the other have.
    Crossed,
}

impl Kind {
    /// All of them.
    pub const ALL: [Kind; 3] = [Kind::Same, Kind::Staggered, Kind::Crossed];
}

/// A section, an address, and what the lookup answers: frame and record, or nothing for 41.
#[derive(Clone, Debug)]
pub struct Slow {
    pub flat: Flat,
    pub address: u64,
    pub answer: Option<(u64, u64)>,
}

impl Slow {
    /// How many records a search tries that takes frame after frame and record after record.
    pub fn steps(&self) -> u64 {
        let frames = self.flat.frames.iter();
        frames.map(|frame| u64::from(frame.records.count)).sum()
    }
}

/// The address that is asked for.
const ADDRESS: u64 = 0x7fff_0000_0000;
/// The least number of bytes of a slow section: a header, a frame with its padding and two records.
pub const LEAST_SLOW: usize = LEAST + 32 + 44;

/// A section of at most `length` bytes, which are at least [`LEAST_SLOW`], and at most 31 fewer.
/// `found` says whether the last record of the last frame has the address.
pub fn section(kind: Kind, length: usize, found: bool) -> Slow {
    assert!(length >= LEAST_SLOW, "no room for a frame and two records");
    let (frames, records) = counts(kind, length - LEAST);
    let half = records / 2;
    let offset = |record: usize| match kind {
        Kind::Crossed => 1 + 2 * (record / half) as u32,
        _ => 1 + 2 * record as u32,
    };
    let mut flat = Flat {
        frames: (0..frames)
            .map(|frame| one_frame(kind, frame, records))
            .collect(),
        records: (0..records).map(|nth| one_record(offset(nth))).collect(),
        ..Flat::default()
    };
    let last = offset(records - 1) + 2;
    if found {
        flat.records[records - 1].offset = last;
        let frame = &mut flat.frames[frames - 1];
        frame.address = ADDRESS - u64::from(last);
        frame.records.index = (records - usize::from(frame.records.count)) as u16;
    }
    Slow {
        flat,
        address: ADDRESS,
        answer: found.then_some((frames as u64 - 1, records as u64 - 1)),
    }
}

/// How many frames and records, an even number, make the most steps in so many bytes. Half of the
/// bytes are records, unless a frame can't name so many.
fn counts(kind: Kind, bytes: usize) -> (usize, usize) {
    let most = match kind {
        Kind::Same => 65_534,
        Kind::Staggered | Kind::Crossed => 131_070,
    };
    let records = (bytes / 2 / 22 / 2 * 2).clamp(2, most);
    // Up to four bytes of padding after the frames.
    ((bytes - 22 * records - 4) / 28, records)
}

fn one_frame(kind: Kind, nth: usize, records: usize) -> Frame {
    let half = records / 2;
    let (index, count, asks) = match kind {
        // Even distances are no record's.
        Kind::Same => (0, records, 2 * (7 * nth % records)),
        Kind::Staggered => (nth % (half + 1), half, 2 * (7 * nth % records)),
        // Frames of the first half ask for the second half's offset, 3, and the others for 1.
        Kind::Crossed => (half * (nth % 2), half, 3 - 2 * (nth % 2)),
    };
    Frame {
        address: ADDRESS - asks as u64,
        size: u32::MAX,
        records: Range {
            index: index as u16,
            count: count as u16,
        },
        ..Frame::default()
    }
}

fn one_record(offset: u32) -> Record {
    Record {
        offset,
        ..Record::default()
    }
}
