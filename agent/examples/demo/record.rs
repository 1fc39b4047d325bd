//! One record: found, described, and a sample frame that stands there moved.

use std::ffi::OsString;
use std::fmt;
use treskibben::{Found, Frame, Location, LocationKind, Machine, MoveTable, Refusal};

/// The place of a record: an address or, for version 1, a function's number and an offset.
pub enum Place {
    At(u64),
    In(u64, u64),
}

/// The number that a text writes, in decimal or in hexadecimal after 0x.
fn number(text: &str) -> Option<u64> {
    match text.strip_prefix("0x") {
        Some(digits) => u64::from_str_radix(digits, 16).ok(),
        None => text.parse().ok(),
    }
}

impl Place {
    /// The place that an argument writes.
    pub fn of(argument: &OsString) -> Option<Place> {
        let text = argument.to_str()?;
        match text.split_once('+') {
            Some((function, offset)) => Some(Place::In(number(function)?, number(offset)?)),
            None => number(text).map(Place::At),
        }
    }

    /// The record there.
    fn find(&self, section: &[u8]) -> Result<Found, Refusal> {
        match *self {
            Place::At(address) => treskibben::find(section, address),
            Place::In(function, offset) => treskibben::find_in_function(section, function, offset),
        }
    }

    /// The sample frame there.
    fn frame(&self) -> Frame {
        match *self {
            Place::At(address) => Frame::new(address),
            Place::In(function, offset) => Frame::in_function(function, offset),
        }
    }
}

impl fmt::Display for Place {
    fn fmt(&self, f: &mut fmt::Formatter<'_>) -> fmt::Result {
        match self {
            Place::At(address) => write!(f, "{address:#x}"),
            Place::In(function, offset) => write!(f, "{function}+{offset:#x}"),
        }
    }
}

/// The sample frame: where the stack begins, and its three slots.
const STACK: u64 = 0x7000;
const SLOTS: [u64; 3] = [7, 0x50000, 0x54e20];

/// The old and the new start of the one object that was moved.
pub type Moved = [u64; 2];

/// The table that knows the sample frame's object, and one that doesn't.
pub const TABLE: Moved = [0x50000, 0x90000];
pub const OTHER_TABLE: Moved = [0x60000, 0x90000];

/// The items that a question gives for the numbers from 0, up to the first that isn't there.
fn all<T>(question: impl Fn(u64) -> Result<T, Refusal>) -> impl Iterator<Item = T> {
    (0..).map_while(move |number| question(number).ok())
}

/// A register by its DWARF number.
pub fn register(number: u16) -> String {
    match number {
        6 => "RBP".to_string(),
        7 => "RSP".to_string(),
        number => format!("register {number}"),
    }
}

/// A register plus an offset.
pub fn sum(number: u16, offset: i32) -> String {
    let sign = if offset < 0 { '-' } else { '+' };
    format!("{} {sign} {}", register(number), offset.unsigned_abs())
}

/// A location in words.
fn words(location: &Location) -> String {
    let sum = sum(location.register, location.offset);
    let constant = location.constant;
    match location.kind {
        LocationKind::Register => format!("in {}", register(location.register)),
        LocationKind::Direct => format!("the address {sum}"),
        LocationKind::Indirect => format!("in memory at {sum}"),
        LocationKind::Constant => format!("the constant {constant}"),
        LocationKind::ConstIndex => format!("the constant {constant} of the pool"),
    }
}

/// What the record at this place says, line by line.
pub fn describe(section: &[u8], place: &Place) -> Result<String, Refusal> {
    let found = place.find(section)?;
    let sharing = match found.sharing {
        1 => "no other record is there".to_string(),
        sharing => format!("the first of {sharing} there"),
    };
    let record = match place {
        Place::At(_) => format!("record {} of function {}", found.record, found.function),
        Place::In(..) => format!("record {}", found.record),
    };
    let mut text = format!("{record}; {sharing}");
    let locations = all(|number| treskibben::location(section, found.record, number));
    for (number, location) in locations.enumerate() {
        let (words, size) = (words(&location), location.size);
        text += &format!("\n  location {number}: {words}, {size} bytes");
    }
    let live_outs = all(|number| treskibben::live_out(section, found.record, number));
    for (number, out) in live_outs.enumerate() {
        let (register, size) = (register(out.register), out.size);
        text += &format!("\n  live-out {number}: {size} bytes of {register}");
    }
    Ok(text)
}

/// Moves the sample frame, and says what its slots hold before and after.
pub fn moved(section: &[u8], place: &Place, table: &Moved) -> Result<String, Refusal> {
    let [old, new] = *table;
    let mut image = SLOTS.map(u64::to_le_bytes).concat();
    let moves = MoveTable::new(&table[..1], &table[1..]);
    let (machine, frame) = (Machine::Amd64, place.frame());
    let lent = &mut machine.registers(STACK, STACK);
    let pointers = treskibben::relocate(section, &mut image, STACK, moves, machine, frame, lent)?;
    let mut text =
        format!("{pointers} pointers moved, as the object at {old:#x} is at {new:#x} now");
    for (nth, (before, after)) in SLOTS.iter().zip(image.chunks_exact(8)).enumerate() {
        let after = u64::from_le_bytes(after.try_into().expect("eight bytes"));
        let words = match before.wrapping_sub(old) as i64 {
            _ if after == *before => "left alone".to_string(),
            0 => "the object's start".to_string(),
            distance => format!("{distance} bytes from the object's start"),
        };
        text += &format!(
            "\n  RSP + {:<2}  {before:#x} -> {after:#x}  {words}",
            8 * nth
        );
    }
    Ok(text)
}
