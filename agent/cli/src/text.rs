//! A listing in words, for people.

use crate::listing::{role, Listing, Location, Record, Role};
use crate::numbers::count;
use crate::registers::Machine;
use std::io::{self, Write};

/// The stack size that means not known.
pub const UNKNOWN: u64 = u64::MAX;

/// Writes all that a section says, or a map, as it is called: its functions with their records, then its constants.
/// Of version 1 all records come after the functions.
pub fn section(
    out: &mut dyn Write,
    called: &str,
    listing: &Listing,
    length: usize,
    machine: Machine,
) -> io::Result<()> {
    writeln!(
        out,
        "{called}: {}{}, {}, {}, {}",
        if listing.version_1 { "version 1, " } else { "" },
        count(length as u64, "byte"),
        count(listing.functions.len() as u64, "function"),
        count(listing.constants.len() as u64, "constant"),
        count(listing.records().count() as u64, "record"),
    )?;
    let mut records = listing.records().zip(0..).peekable();
    for (number, function) in listing.functions.iter().enumerate() {
        self::function(out, listing, number)?;
        while let Some(((_, record), index)) =
            records.next_if(|((owner, _), _)| *owner == Some(number))
        {
            let address = Some(function.address.wrapping_add(record.offset.into()));
            self::record(out, listing, &Title { index, address }, &record, machine)?;
        }
    }
    for ((_, record), index) in records {
        let title = Title {
            index,
            address: None,
        };
        self::record(out, listing, &title, &record, machine)?;
    }
    for (number, constant) in listing.constants.iter().enumerate() {
        writeln!(out, "constant {number}: {constant} ({constant:#x})")?;
    }
    Ok(())
}

/// Writes what a section says of the function with this number.
pub fn function(out: &mut dyn Write, listing: &Listing, number: usize) -> io::Result<()> {
    let function = &listing.functions[number];
    let stack_size = match function.stack_size {
        UNKNOWN => "not known".to_string(),
        known => known.to_string(),
    };
    let records = match listing.version_1 {
        true => String::new(),
        false => format!(", {}", count(function.record_count, "record")),
    };
    let address = function.address;
    writeln!(
        out,
        "function {number} at {address:#x}: stack size {stack_size}{records}"
    )
}

/// The number of a record and, where its function is known, its address.
pub struct Title {
    pub index: u64,
    pub address: Option<u64>,
}

impl Title {
    /// How far a record is indented: as the function's own, where that is known.
    fn indent(&self) -> &'static str {
        self.address.map_or("", |_| "  ")
    }

    /// The first line of a record.
    fn line(&self, record: &Record) -> String {
        let (indent, index) = (self.indent(), self.index);
        let at = self.address.map(|address| format!(" at {address:#x}"));
        let at = at.unwrap_or_default();
        let (id, offset) = (record.id, record.offset);
        let pairs = record.pairs().map(|pairs| count(pairs as u64, "pair"));
        let kind = pairs.map(|pairs| format!(", statepoint of {pairs}"));
        let kind = kind.unwrap_or_default();
        format!("{indent}record {index}{at}: ID {id}, offset {offset:#x}{kind}")
    }
}

/// Writes what a section says of a record.
pub fn record(
    out: &mut dyn Write,
    listing: &Listing,
    title: &Title,
    record: &Record,
    machine: Machine,
) -> io::Result<()> {
    let indent = title.indent();
    writeln!(out, "{}", title.line(record))?;
    for (number, location) in record.locations.iter().enumerate() {
        let place = place(listing, location, machine);
        let size = location.size;
        let purpose = match record.deopt_count() {
            Some(deopt) => purpose(listing, record, role(number, deopt), deopt),
            None => String::new(),
        };
        writeln!(
            out,
            "{indent}  location {number}: {place}, size {size}{purpose}"
        )?;
    }
    for (number, live_out) in record.live_outs.iter().enumerate() {
        let register = machine.register(live_out.register);
        writeln!(
            out,
            "{indent}  live-out {number}: {register}, size {}",
            live_out.size
        )?;
    }
    Ok(())
}

/// The kind of a location, and where it is or what.
pub fn place(listing: &Listing, location: &Location, machine: Machine) -> String {
    let register = machine.register(location.register);
    let offset = location.offset;
    let sum = match offset {
        0 => register.clone(),
        ..0 => format!("{register} - {}", offset.unsigned_abs()),
        _ => format!("{register} + {offset}"),
    };
    match location.kind {
        1 => format!("Register {register}"),
        2 => format!("Direct {sum}"),
        3 => format!("Indirect [{sum}]"),
        4 => format!("Constant {offset}"),
        kind => match listing.constant(location) {
            Some(constant) => format!("ConstIndex {offset}, which is {constant} ({constant:#x})"),
            None => format!("kind {kind}"),
        },
    }
}

/// What a location of a statepoint is for, and of a pair that it is null or holds several pointers.
fn purpose(listing: &Listing, record: &Record, role: Role, deopt: usize) -> String {
    let holds = |pair: usize| {
        let locations = record.pair(pair, deopt);
        let zero = |location| listing.constant(location) == Some(0);
        match listing.pointers(locations) {
            _ if locations.iter().all(zero) => " (null)".to_string(),
            Some(pointers @ 2..) => format!(" ({})", count(pointers, "pointer")),
            _ => String::new(),
        }
    };
    match role {
        Role::Call => String::new(),
        Role::DeoptCount => ", deopt count".to_string(),
        Role::Deopt => ", deopt".to_string(),
        Role::Base(pair) => format!(", base of pair {pair}{}", holds(pair)),
        Role::Derived(pair) => format!(", derived of pair {pair}{}", holds(pair)),
    }
}
