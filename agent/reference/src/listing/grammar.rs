//! The listing's grammar: which item may follow which.

use crate::bytes::{i32_at, u16_at, u32_at, u64_at};
use crate::section::{Function, LiveOut, Location, RecordData, Version};

/// A listing that keeps its grammar, as plain data.
#[derive(Default)]
pub(super) struct Parsed {
    pub(super) version: Version,
    pub(super) functions: Vec<Function>,
    pub(super) constants: Vec<u64>,
    pub(super) records: Vec<RecordData>,
    /// The first byte of each record's item.
    pub(super) record_places: Vec<usize>,
    /// The first byte of the first item that says what a version 1 section has
    /// no room for: a record count other than 0, or a size over 255.
    pub(super) first_beyond_1: Option<usize>,
}

/// One item, taken from the front of a listing.
enum Item {
    Version(u8),
    Function(Function),
    Constant(u64),
    Record { id: u64, offset: u32 },
    Location(Location),
    LiveOut(LiveOut),
    End,
}

/// Reads a listing, or gives the place of the first item that breaks the
/// grammar: an item of unknown kind, out of order or cut, an item 7 other than
/// that of version 1, anything after the end, or the listing's length where the
/// end is missing.
pub(super) fn parse(listing: &[u8]) -> Result<Parsed, usize> {
    let mut parsed = Parsed::default();
    let mut rest = listing;
    loop {
        let place = listing.len() - rest.len();
        let (item, after) = take(rest).ok_or(place)?;
        rest = after;
        if let Item::End = item {
            break;
        }
        parsed.add(item, place).ok_or(place)?;
    }
    if rest.is_empty() {
        Ok(parsed)
    } else {
        Err(listing.len() - rest.len())
    }
}

impl Parsed {
    /// Adds an item other than the end, if it may stand after those before it.
    fn add(&mut self, item: Item, place: usize) -> Option<()> {
        match item {
            Item::Version(number) => {
                (place == 0 && number == 1).then(|| self.version = Version::One)
            }
            Item::Function(function) => {
                self.note_beyond_1(function.record_count != 0, place);
                let first = self.constants.is_empty() && self.records.is_empty();
                first.then(|| self.functions.push(function))
            }
            Item::Constant(constant) => self
                .records
                .is_empty()
                .then(|| self.constants.push(constant)),
            Item::Record { id, offset } => {
                let (locations, live_outs) = (Vec::new(), Vec::new());
                self.records.push(RecordData {
                    id,
                    offset,
                    locations,
                    live_outs,
                });
                self.record_places.push(place);
                Some(())
            }
            Item::Location(location) => {
                self.note_beyond_1(location.size > 255, place);
                let record = self.records.last_mut()?;
                record
                    .live_outs
                    .is_empty()
                    .then(|| record.locations.push(location))
            }
            Item::LiveOut(live_out) => {
                self.records.last_mut()?.live_outs.push(live_out);
                Some(())
            }
            Item::End => None,
        }
    }

    /// Notes the place of an item that is so, if it is the first.
    fn note_beyond_1(&mut self, is_beyond: bool, place: usize) {
        if is_beyond {
            self.first_beyond_1.get_or_insert(place);
        }
    }
}

/// Takes a whole item of known kind from the front, and gives what follows.
fn take(rest: &[u8]) -> Option<(Item, &[u8])> {
    let (kind, rest) = rest.split_first()?;
    match kind {
        1 => body(rest, function),
        2 => body(rest, |body: &[u8; 8]| {
            Item::Constant(u64::from_le_bytes(*body))
        }),
        3 => body(rest, record),
        4 => body(rest, location),
        5 => body(rest, live_out),
        6 => Some((Item::End, rest)),
        7 => body(rest, |[number]: &[u8; 1]| Item::Version(*number)),
        _ => None,
    }
}

/// Splits a body off and reads it, if it isn't cut.
fn body<const N: usize>(rest: &[u8], read: fn(&[u8; N]) -> Item) -> Option<(Item, &[u8])> {
    let (body, rest) = rest.split_first_chunk()?;
    Some((read(body), rest))
}

fn function(body: &[u8; 24]) -> Item {
    Item::Function(Function {
        address: u64_at(body, 0),
        stack_size: u64_at(body, 8),
        record_count: u64_at(body, 16),
    })
}

fn record(body: &[u8; 12]) -> Item {
    Item::Record {
        id: u64_at(body, 0),
        offset: u32_at(body, 8),
    }
}

fn location(body: &[u8; 9]) -> Item {
    Item::Location(Location {
        kind: body[0],
        size: u16_at(body, 1),
        register: u16_at(body, 3),
        offset: i32_at(body, 5),
    })
}

fn live_out(body: &[u8; 3]) -> Item {
    Item::LiveOut(LiveOut {
        register: u16_at(body, 0),
        size: body[2],
    })
}
