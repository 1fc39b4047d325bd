//! An accepted flat section as it is shown. The library has checked it before, which is why every entry is
//! where it is read here; asking the library for each entry would check the whole section each time.

pub mod text;

use crate::json::Hex;
use serde::Serialize;
use std::io::{self, Write};
use std::ops::Range;

/// The section: its bytes, and where each array begins and how many entries it has.
pub struct Flat<'a> {
    section: &'a [u8],
    constants: Array,
    frames: Array,
    registers: Array,
    records: Array,
    locations: Array,
    live_outs: Array,
}

#[derive(Clone, Copy)]
struct Array {
    first: usize,
    size: usize,
    count: usize,
}

/// A number of at most 8 bytes, little-endian.
fn number(bytes: &[u8], at: usize, width: usize) -> u64 {
    let digits = bytes[at..at + width].iter().rev();
    digits.fold(0, |number, byte| number << 8 | u64::from(*byte))
}

impl<'a> Flat<'a> {
    /// Of a section that the library has accepted.
    pub fn read(section: &'a [u8]) -> Flat<'a> {
        let offset = |nth: usize| match nth {
            6 => section.len(),
            _ => number(section, 4 + 4 * nth, 4) as usize,
        };
        let array = |nth: usize, size: usize| {
            let first = offset(nth);
            let count = (offset(nth + 1) - first) / size;
            Array { first, size, count }
        };
        let mut flat = Flat {
            section,
            constants: array(0, 8),
            frames: array(1, 28),
            registers: array(2, 6),
            records: array(3, 22),
            locations: array(4, 8),
            live_outs: array(5, 4),
        };
        // Padding hides how many frame registers there are: as many as the frames name.
        let ends = (0..flat.frames.count).map(|nth| flat.frame(nth).registers.end);
        flat.registers.count = ends.max().unwrap_or(0);
        flat
    }

    fn entry(&self, array: Array, nth: usize) -> &'a [u8] {
        &self.section[array.first + array.size * nth..][..array.size]
    }

    fn constant(&self, nth: usize) -> u64 {
        number(self.entry(self.constants, nth), 0, 8)
    }

    fn frame(&self, nth: usize) -> Frame {
        let entry = self.entry(self.frames, nth);
        Frame {
            frame: nth,
            address: Hex(number(entry, 0, 8)),
            function_size: number(entry, 8, 4),
            stack_size: number(entry, 12, 4),
            flags: number(entry, 16, 2),
            base: number(entry, 18, 2) as u16,
            registers: numbers(entry, 20),
            records: numbers(entry, 24),
        }
    }

    fn register(&self, nth: usize) -> Register {
        let entry = self.entry(self.registers, nth);
        Register {
            frame_register: nth,
            dwarf: number(entry, 0, 2) as u16,
            offset: number(entry, 2, 2) as i16,
            size: entry[4],
            spilled: entry[5] & 1 != 0,
        }
    }

    fn record(&self, nth: usize) -> Record {
        let entry = self.entry(self.records, nth);
        Record {
            record: nth,
            id: Hex(number(entry, 0, 8)),
            offset: number(entry, 8, 4),
            call_size: entry[12],
            has_live_out_info: entry[13] & 1 != 0,
            locations: numbers(entry, 14),
            live_outs: numbers(entry, 18),
        }
    }

    fn location(&self, nth: usize) -> Location {
        let entry = self.entry(self.locations, nth);
        Location {
            location: nth,
            kind: entry[0],
            dwarf: number(entry, 2, 2) as u16,
            offset: number(entry, 4, 4) as i32,
        }
    }

    fn live_out(&self, nth: usize) -> LiveOut {
        let entry = self.entry(self.live_outs, nth);
        LiveOut {
            live_out: nth,
            dwarf: number(entry, 0, 2) as u16,
            size: entry[3],
        }
    }
}

/// The numbers of a range, of which the count stands first.
fn numbers(entry: &[u8], at: usize) -> Range<usize> {
    let first = number(entry, at + 2, 2) as usize;
    first..first + number(entry, at, 2) as usize
}

#[derive(Serialize)]
struct Frame {
    frame: usize,
    address: Hex,
    function_size: u64,
    stack_size: u64,
    flags: u64,
    base: u16,
    registers: Range<usize>,
    records: Range<usize>,
}

#[derive(Serialize)]
struct Register {
    frame_register: usize,
    dwarf: u16,
    offset: i16,
    size: u8,
    spilled: bool,
}

#[derive(Serialize)]
struct Record {
    record: usize,
    id: Hex,
    offset: u64,
    call_size: u8,
    has_live_out_info: bool,
    locations: Range<usize>,
    live_outs: Range<usize>,
}

#[derive(Serialize)]
struct Location {
    location: usize,
    kind: u8,
    dwarf: u16,
    offset: i32,
}

#[derive(Serialize)]
struct LiveOut {
    live_out: usize,
    dwarf: u16,
    size: u8,
}

/// One object for a program.
#[derive(Serialize)]
#[serde(tag = "answer", rename_all = "kebab-case")]
enum Object<'a> {
    FlatSection {
        file: &'a str,
        bytes: usize,
        constants: usize,
        frames: usize,
        frame_registers: usize,
        records: usize,
        locations: usize,
        live_outs: usize,
    },
    Constant {
        constant: usize,
        value: Hex,
    },
    Frame(Frame),
    FrameRegister(Register),
    FlatRecord(Record),
    Location(Location),
    LiveOut(LiveOut),
    FlatFound {
        file: &'a str,
        asked: Hex,
        frame: Frame,
        record: Record,
    },
}

impl Object<'_> {
    fn write(&self, out: &mut dyn Write) -> io::Result<()> {
        serde_json::to_writer(&mut *out, self)?;
        out.write_all(b"\n")
    }
}

/// All entries for programs, array after array.
pub fn objects(out: &mut dyn Write, file: &str, flat: &Flat) -> io::Result<()> {
    let head = Object::FlatSection {
        file,
        bytes: flat.section.len(),
        constants: flat.constants.count,
        frames: flat.frames.count,
        frame_registers: flat.registers.count,
        records: flat.records.count,
        locations: flat.locations.count,
        live_outs: flat.live_outs.count,
    };
    head.write(out)?;
    for constant in 0..flat.constants.count {
        let value = Hex(flat.constant(constant));
        Object::Constant { constant, value }.write(out)?;
    }
    (0..flat.frames.count).try_for_each(|nth| Object::Frame(flat.frame(nth)).write(out))?;
    for nth in 0..flat.registers.count {
        Object::FrameRegister(flat.register(nth)).write(out)?;
    }
    (0..flat.records.count).try_for_each(|nth| Object::FlatRecord(flat.record(nth)).write(out))?;
    (0..flat.locations.count)
        .try_for_each(|nth| Object::Location(flat.location(nth)).write(out))?;
    (0..flat.live_outs.count).try_for_each(|nth| Object::LiveOut(flat.live_out(nth)).write(out))
}

/// What a lookup found, for programs.
pub fn found_object(
    out: &mut dyn Write,
    file: &str,
    asked: u64,
    flat: &Flat,
    [frame, record]: [usize; 2],
) -> io::Result<()> {
    let answer = Object::FlatFound {
        file,
        asked: Hex(asked),
        frame: flat.frame(frame),
        record: flat.record(record),
    };
    answer.write(out)
}
