//! What was found where something was refused. The library tells number and place; this is the wording
//! beside it, worked out from the same files, and decides nothing.

use crate::frames::{Line, Naming};
use crate::json;
use crate::library::{Index, Refusal};
use crate::listing::{functions, Listing};
use crate::lists::Entry;
use crate::names::shown;
use crate::numbers::count;
use crate::registers::Machine;
use crate::text::UNKNOWN;
use crate::trouble::{say, Voice};
use crate::{files, library, linked, output};
use std::collections::HashMap;
use std::fs;
use std::path::Path;

/// The most entries of a table.
const MOST_MOVES: usize = 65_536;

/// What was found in a section.
pub fn of_section(path: &Path, section: &[u8], refusal: Refusal) -> Option<String> {
    let at = usize::try_from(refusal.place).ok()?;
    match refusal.number {
        1 | 2 if section.starts_with(b"\x7fELF") => Some(elf(path)),
        1 => Some(format!("it has {}", length(path, section, files::SECTION))),
        2 if section.first() == Some(&2) => Some(FLAT.to_string()),
        2 => Some(format!("its first byte is {}", section.first()?)),
        3 | 6 => Some(format!("it is {:#04x}", section.get(at)?)),
        9 => linked::after_the_first(section, at),
        _ => None,
    }
}

/// What a section that may be flat is told.
const FLAT: &str =
    "its first byte is 2, as in a flat section: 'treskibben flat check' says whether it \
    is one, 'flat list' what is in it, 'flat find' which record is at an address";

/// What was found in a flat section.
pub fn of_flat(path: &Path, section: &[u8], refusal: Refusal) -> Option<String> {
    match refusal.number {
        36 | 37 if section.starts_with(b"\x7fELF") => Some(elf(path)),
        36 => Some(format!("it has {}", length(path, section, files::SECTION))),
        37 => Some(format!("its first byte is {}", section.first()?)),
        _ => None,
    }
}

/// What an object file or a program is told.
fn elf(path: &Path) -> String {
    let name = shown(path);
    format!(
        "it is an ELF file: \
         'objcopy --dump-section .llvm_stackmaps=FILE {name} /dev/null' writes its section to FILE"
    )
}

/// What was found in a section that an index is wanted of.
pub fn of_indexed(path: &Path, section: &[u8], refusal: Refusal) -> Option<String> {
    match refusal.number {
        27 => Some("a section of version 1 has no addresses, and so no index".to_string()),
        _ => of_section(path, section, refusal),
    }
}

/// What 29 found: the first entry of an index that is another than the section's.
pub fn of_index(index: &Index) -> Option<String> {
    let (own, right) = (index.entries(), library::index_of(index.section()).ok()?);
    let right = right.entries();
    let all = own.len().max(right.len());
    let other = (0..all).find(|nth| own.get(*nth) != right.get(*nth))?;
    let found = match (own.get(other), right.get(other)) {
        (Some(own), Some(right)) => format!("entry {other} is {own:#x}, and not {right:#x}"),
        _ => {
            let (own, due) = (count(own.len() as u64, "number"), right.len());
            format!("it has {own}, and that of the section {due}")
        }
    };
    Some(format!("{found}: 'treskibben index' makes it anew"))
}

/// What was found in a listing.
pub fn of_listing(path: &Path, listing: &[u8], refusal: Refusal) -> Option<String> {
    let at = usize::try_from(refusal.place).ok()?;
    match refusal.number {
        1 => Some(format!("it has {}", length(path, listing, files::LISTING))),
        22 => Some(match listing.get(at) {
            Some(byte) => format!("the byte there is {byte:#04x}"),
            None => "it ends there".to_string(),
        }),
        _ => None,
    }
}

/// The length of a file of which no more is read than its limit and one byte.
pub fn length(path: &Path, read: &[u8], limit: u64) -> String {
    let there = fs::metadata(path).ok().filter(|there| there.is_file());
    match (read.len() as u64, there) {
        (length, _) if length <= limit => count(length, "byte"),
        (_, Some(there)) => count(there.len(), "byte"),
        _ => format!("more than {limit} bytes"),
    }
}

/// What 13 found: the image's length, or where it ends.
pub fn of_image(path: &Path, image: &[u8], first: u64) -> String {
    if image.len() as u64 > files::IMAGE {
        return format!("it has {}", length(path, image, files::IMAGE));
    }
    let bytes = count(image.len() as u64, "byte");
    format!("{bytes} from {first:#x} on")
}

/// What 14 found: which of its causes, and the line.
pub fn of_moves(moves: &[Entry<[u64; 2]>]) -> Option<(usize, String)> {
    let mut before: Option<&Entry<[u64; 2]>> = None;
    for (number, entry) in moves.iter().enumerate() {
        let [old, new] = entry.value;
        let fault = match before {
            _ if number >= MOST_MOVES => Some(format!("entry {} of {}", number + 1, moves.len())),
            _ if old == 0 => Some("the old start is 0".to_string()),
            _ if new == 0 => Some("the new start is 0".to_string()),
            Some(Entry {
                line,
                value: [above, _],
            }) if old <= *above => Some(format!(
                "old start {old:#x} is not above {above:#x} of line {line}"
            )),
            _ => None,
        };
        if let Some(fault) = fault {
            return Some((entry.line, fault));
        }
        before = Some(entry);
    }
    None
}

/// What 10 found in a section of version 1.
pub fn not_in_function(section: &[u8], function: u64, offset: u64) -> String {
    let all = functions(section).count() as u64;
    if function < all {
        return format!("no record at offset {offset:#x}");
    }
    let all = count(all, "function");
    format!("no function {function}: the section has {all}")
}

/// The stack sizes that frames stand in.
pub struct Sizes<'a> {
    section: &'a [u8],
    naming: Naming,
    machine: Machine,
    /// Of version 3: the function of each record's address.
    owners: HashMap<u64, u64>,
}

impl<'a> Sizes<'a> {
    pub fn of(section: &'a [u8], naming: Naming, machine: Machine) -> Sizes<'a> {
        let mut owners = HashMap::new();
        let listing = library::listing_of(section).unwrap_or_default();
        let listing = Listing::read(&listing);
        for (owner, record) in listing.records() {
            if let Some(owner) = owner {
                let start = listing.functions[owner].address;
                let address = start.wrapping_add(record.offset.into());
                owners.entry(address).or_insert(owner as u64);
            }
        }
        Sizes {
            section,
            naming,
            machine,
            owners,
        }
    }

    /// The function of a frame and its stack size.
    fn function(&self, line: &Line) -> Option<(u64, u64)> {
        let function = match self.naming {
            Naming::Address => *self.owners.get(&line.frame.address)?,
            Naming::InFunction => line.frame.function,
        };
        let mut functions = functions(self.section);
        let (_, size) = functions.nth(usize::try_from(function).ok()?)?;
        Some((function, size))
    }

    /// The first byte of a frame's extent and the first after it.
    pub fn extent(&self, line: &Line) -> Option<(u128, u128)> {
        let (_, size) = self.function(line).filter(|(_, size)| *size != UNKNOWN)?;
        let [_, of_stack] = library::pointers_of(self.machine);
        let first = u128::from(line.registers[usize::from(of_stack)]);
        Some((first, first + u128::from(size)))
    }

    /// What 16 found: the extent and the image.
    pub fn outside(&self, line: &Line, first: u64, length: usize) -> Option<String> {
        let Some((from, to)) = self.extent(line) else {
            let (function, _) = self.function(line)?;
            return Some(format!(
                "the stack size of function {function} is not known"
            ));
        };
        let end = u128::from(first) + length as u128;
        Some(format!(
            "extent {from:#x} to {to:#x}, image {first:#x} to {end:#x}"
        ))
    }

    /// What 26 found: the earlier frame, by its position.
    pub fn shared(&self, lines: &[Entry<Line>], position: usize) -> Option<usize> {
        let (from, to) = self.extent(&lines.get(position)?.value)?;
        lines[..position].iter().position(|earlier| {
            let extent = self.extent(&earlier.value);
            extent.is_some_and(|(other, end)| from < end && other < to && other < end)
        })
    }
}

/// Warns of a section whose functions are all at address 0.
pub fn warn_of_zeros(path: &Path, voice: Voice) {
    let warning =
        "all functions are at address 0, as before a link or in a position-independent file: \
        take the section from the running program's memory, or from a link with -no-pie";
    match voice {
        Voice::Text => say(&format!("{}: warning: {warning}", shown(path))),
        Voice::Json => {
            let file = &json::name(path);
            let _ = output::object(&json::Answer::Warning { file, warning });
        }
    }
}

#[cfg(test)]
mod tests {
    use super::*;

    fn moves(pairs: &[[u64; 2]]) -> Vec<Entry<[u64; 2]>> {
        let entry = |(line, value): (usize, &[u64; 2])| Entry {
            line: line + 1,
            value: *value,
        };
        pairs.iter().enumerate().map(entry).collect()
    }

    #[test]
    fn the_cause_of_14_and_its_line() {
        for (pairs, found) in [
            (&[][..], None),
            (&[[1, 1], [2, 1]], None),
            (&[[1, 1], [0, 1]], Some((2, "the old start is 0"))),
            (&[[1, 0], [0, 1]], Some((1, "the new start is 0"))),
            (
                &[[1, 1], [1, 1]],
                Some((2, "old start 0x1 is not above 0x1 of line 1")),
            ),
        ] {
            let found = found.map(|(line, words): (usize, &str)| (line, words.to_string()));
            assert_eq!(of_moves(&moves(pairs)), found);
        }
        let many: Vec<[u64; 2]> = (1..=65_538).map(|old| [old, 1]).collect();
        let found = of_moves(&moves(&many));
        assert_eq!(found, Some((65_537, "entry 65537 of 65538".into())));
    }
}
