//! A section's listing, item by item, and the section again.

use crate::record::{register, sum};
use treskibben::Refusal;

/// The items of a listing, by kind from 1: name, and the widths of its numbers.
const ITEMS: [(&str, &[usize]); 7] = [
    ("function", &[8, 8, 8]),
    ("constant", &[8]),
    ("record", &[8, 4]),
    ("location", &[1, 2, 2, 4]),
    ("live-out", &[2, 1]),
    ("end", &[]),
    ("version", &[1]),
];

/// The next item of a listing that is right: its name and its numbers.
fn item(listing: &mut &[u8]) -> Option<(&'static str, Vec<u64>)> {
    let (kind, rest) = listing.split_first()?;
    let (name, widths) = ITEMS[usize::from(*kind) - 1];
    *listing = rest;
    let numbers = widths.iter().map(|width| {
        let (bytes, rest) = listing.split_at(*width);
        *listing = rest;
        let digits = bytes.iter().rev();
        digits.fold(0, |sum, byte| sum << 8 | u64::from(*byte))
    });
    Some((name, numbers.collect()))
}

/// A location in words, by its numbers.
fn location(kind: u64, size: u64, dwarf: u64, offset: u64) -> String {
    let (dwarf, offset) = (dwarf as u16, offset as u32 as i32);
    let value = match kind {
        1 => format!("in {}", register(dwarf)),
        2 => format!("the address {}", sum(dwarf, offset)),
        3 => format!("in memory at {}", sum(dwarf, offset)),
        4 => format!("the constant {offset}"),
        _ => format!("constant number {offset}"),
    };
    format!("{value}, {size} bytes")
}

/// An item in words.
fn words(numbers: &[u64]) -> String {
    match *numbers {
        [address, size, 1] => format!("at {address:#x}, stack size {size}, 1 record"),
        [address, size, many] => format!("at {address:#x}, stack size {size}, {many} records"),
        [kind, size, dwarf, offset] => location(kind, size, dwarf, offset),
        _ => String::new(),
    }
}

/// The listing in words, and whether it gives the same section, line by line.
pub fn describe(section: &[u8]) -> Result<String, Refusal> {
    let listing = treskibben::listing_of(section)?;
    let again = treskibben::section_of(&listing)?;
    let (length, bytes) = (section.len(), listing.len());
    let mut text = format!("a section of {length} bytes; its listing, {bytes} bytes, says");
    let mut rest = &listing[..];
    while let Some((name, numbers)) = item(&mut rest) {
        let words = match (name, &numbers[..]) {
            ("record", [id, offset]) => format!("ID {id}, offset {offset:#x}"),
            ("live-out", [dwarf, size]) => format!("{size} bytes of {}", register(*dwarf as u16)),
            ("constant" | "version", [number]) => number.to_string(),
            (_, numbers) => words(numbers),
        };
        text += format!("\n  {name:<9} {words}").trim_end();
    }
    let same = match again == section {
        true => "the same to the last byte",
        false => "NOT the same",
    };
    text += &format!(
        "\nand the section made from it has {} bytes, {same}",
        again.len()
    );
    Ok(text)
}
