//! Where the arrays of a flat section lie, and what its rules ask of them.

use crate::bytes::{u16_at, u32_at};

/// The length of the header, without the padding after it.
const HEADER: usize = 28;
/// The length of a constant.
pub(super) const CONSTANT: usize = 8;
/// The length of a frame.
pub(super) const FRAME: usize = 28;
/// The length of a frame register.
pub(super) const FRAME_REGISTER: usize = 6;
/// The length of a record.
pub(super) const RECORD: usize = 22;
/// The length of a location.
pub(super) const LOCATION: usize = 8;
/// The length of a live-out.
pub(super) const LIVE_OUT: usize = 4;

/// What each array's first byte is a multiple of. The section's end is aligned
/// to nothing.
const CONSTANTS_ALIGNMENT: usize = 8;
const FRAMES_ALIGNMENT: usize = 8;
const FRAME_REGISTERS_ALIGNMENT: usize = 4;
const RECORDS_ALIGNMENT: usize = 8;
const LOCATIONS_ALIGNMENT: usize = 4;
const LIVE_OUTS_ALIGNMENT: usize = 2;
const END_ALIGNMENT: usize = 1;

/// The reserved bits of a frame's flags: all but the lowest four.
const FRAME_FLAGS_RESERVED: u16 = 0xFFF0;
/// The reserved bits of a frame register's flags and of a record's: all but
/// the lowest.
const FLAGS_RESERVED: u8 = 0xFE;

/// The bytes of a section whose offsets and end are right, array by array, and
/// the bytes between.
pub(super) struct Arrays<'a> {
    /// Bytes 1 to 3.
    header_reserved: &'a [u8],
    /// The bytes from the header to the constants.
    header_padding: &'a [u8],
    pub(super) constants: &'a [[u8; CONSTANT]],
    pub(super) frames: &'a [[u8; FRAME]],
    pub(super) frame_registers: &'a [[u8; FRAME_REGISTER]],
    /// The bytes from the last frame register to the records.
    frame_register_padding: &'a [u8],
    pub(super) records: &'a [[u8; RECORD]],
    /// The bytes from the last record to the locations.
    record_padding: &'a [u8],
    pub(super) locations: &'a [[u8; LOCATION]],
    pub(super) live_outs: &'a [[u8; LIVE_OUT]],
}

impl<'a> Arrays<'a> {
    /// The arrays of a section of at least [`super::MIN_SECTION`] bytes; none
    /// if an offset, or the end, isn't the earliest aligned place after the
    /// array before.
    pub(super) fn of(section: &'a [u8]) -> Option<Arrays<'a>> {
        let header = section.first_chunk::<HEADER>()?;
        let offsets = [4, 8, 12, 16, 20, 24].map(|at| u32_at(header, at) as usize);
        let [constants_at, frames_at, registers_at, records_at, locations_at, live_outs_at] =
            offsets;
        if constants_at != aligned(HEADER, CONSTANTS_ALIGNMENT) {
            return None;
        }
        let header_padding = section.get(HEADER..constants_at)?;
        let (constants, _) = array(section, constants_at, frames_at, FRAMES_ALIGNMENT)?;
        let (frames, _) = array(section, frames_at, registers_at, FRAME_REGISTERS_ALIGNMENT)?;
        let registers_end = registers_at + FRAME_REGISTER * num_frame_registers(frames);
        if records_at != aligned(registers_end, RECORDS_ALIGNMENT) {
            return None;
        }
        let frame_registers = section.get(registers_at..registers_end)?;
        let frame_register_padding = section.get(registers_end..records_at)?;
        let (records, record_padding) =
            array(section, records_at, locations_at, LOCATIONS_ALIGNMENT)?;
        let (locations, _) = array(section, locations_at, live_outs_at, LIVE_OUTS_ALIGNMENT)?;
        let (live_outs, _) = array(section, live_outs_at, section.len(), END_ALIGNMENT)?;
        Some(Arrays {
            header_reserved: &section[1..4],
            header_padding,
            constants,
            frames,
            frame_registers: frame_registers.as_chunks().0,
            frame_register_padding,
            records,
            record_padding,
            locations,
            live_outs,
        })
    }

    /// Whether no index plus count is past its array: the records of each
    /// frame, the locations and the live-outs of each record. The frame
    /// registers are as many as the frames name, so that none is past them.
    pub(super) fn ranges_are_inside(&self) -> bool {
        let mut frames = self.frames.iter();
        let mut records = self.records.iter();
        frames.all(|frame| range_end(frame, 26, 24) <= self.records.len())
            && records.all(|record| {
                range_end(record, 16, 14) <= self.locations.len()
                    && range_end(record, 20, 18) <= self.live_outs.len()
            })
    }

    /// Whether every padding and reserved bit is 0.
    pub(super) fn reserved_bits_are_clear(&self) -> bool {
        all_zero(self.header_reserved)
            && all_zero(self.header_padding)
            && self
                .frames
                .iter()
                .all(|frame| u16_at(frame, 16) & FRAME_FLAGS_RESERVED == 0)
            && self
                .frame_registers
                .iter()
                .all(|register| register[5] & FLAGS_RESERVED == 0)
            && all_zero(self.frame_register_padding)
            && self
                .records
                .iter()
                .all(|record| record[13] & FLAGS_RESERVED == 0)
            && all_zero(self.record_padding)
            && self.locations.iter().all(|location| location[1] == 0)
            && self.live_outs.iter().all(|live_out| live_out[2] == 0)
    }
}

/// The earliest place from `at` on that is a multiple of `alignment`.
fn aligned(at: usize, alignment: usize) -> usize {
    at.next_multiple_of(alignment)
}

/// The entries of `N` bytes from `from` on, and the padding after them up to
/// `to`, if `to` is the earliest aligned place after the last entry. `N` is
/// at least the alignment, so that there is at most one such number of entries.
fn array<const N: usize>(
    section: &[u8],
    from: usize,
    to: usize,
    alignment: usize,
) -> Option<(&[[u8; N]], &[u8])> {
    let (entries, padding) = section.get(from..to)?.as_chunks::<N>();
    let end = from + N * entries.len();
    (aligned(end, alignment) == to).then_some((entries, padding))
}

/// The greatest index plus count of frame registers over the frames; 0 where
/// there are no frames. A frame without registers counts by its index too.
fn num_frame_registers(frames: &[[u8; FRAME]]) -> usize {
    let ends = frames.iter().map(|frame| range_end(frame, 22, 20));
    ends.max().unwrap_or(0)
}

/// The index at one place of an entry plus the count at another.
fn range_end<const N: usize>(entry: &[u8; N], index: usize, count: usize) -> usize {
    usize::from(u16_at(entry, index)) + usize::from(u16_at(entry, count))
}

fn all_zero(bytes: &[u8]) -> bool {
    bytes.iter().all(|&byte| byte == 0)
}
