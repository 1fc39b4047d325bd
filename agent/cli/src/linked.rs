//! What is said of a linked section: of its maps, and of a refusal that is of one of them.

use crate::library::{self, Found, Map, Refusal};
use crate::numbers::count;
use crate::trouble::{Refused, Trouble};
use crate::{found, listing};
use std::path::Path;

/// The bytes of a map.
pub fn bytes(section: &[u8], map: Map) -> &[u8] {
    section.get(map.range()).unwrap_or_default()
}

/// How a map is called: by its number and its first byte.
pub fn name(number: u64, first: u64) -> String {
    format!("map {number} from byte {first}")
}

/// How a record is called; of several maps with that of its own.
pub fn record(found: &Found, map: Option<u64>) -> String {
    let (record, function) = (found.record, found.function);
    let map = map.map(|map| format!(" of map {map}"));
    format!(
        "record {record} of function {function}{}",
        map.unwrap_or_default()
    )
}

/// A refusal of the maps, whose place is in the whole, or 27 of one. Where maps stand before the one at fault, it
/// is named, and the place in it; else nothing is said but what is said of a section.
pub fn refused(file: &Path, section: &[u8], refusal: Refusal) -> Trouble {
    if refusal.number == 27 {
        return of_version_1(file, section, refusal);
    }
    let (number, first) = library::map_at_fault(section);
    if number == 0 {
        return Trouble::refused(file, refusal, found::of_section(file, section, refusal));
    }
    let rest = section.get(first..).unwrap_or_default();
    let place = refusal.place.saturating_sub(first as u64);
    let there = Refusal { place, ..refusal };
    let found = found::of_section(file, rest, there);
    let found = found.map(|found| format!(": {found}")).unwrap_or_default();
    let found = format!("{}, at {place} there{found}", name(number, first as u64));
    in_map(file, refusal, (number, first as u64), found)
}

/// 27 of several maps, whose place is the first byte of one of version 1.
fn of_version_1(file: &Path, section: &[u8], refusal: Refusal) -> Trouble {
    let maps = library::maps(section).unwrap_or_default();
    let is_there = |map: &Map| map.first as u64 == refusal.place;
    let Some(number) = maps.iter().position(is_there).filter(|_| maps.len() > 1) else {
        return Trouble::refused(file, refusal, None);
    };
    let map = (number as u64, refusal.place);
    let found = format!("{} is of version 1: {APART}", name(map.0, map.1));
    in_map(file, refusal, map, found)
}

/// What takes maps apart.
const APART: &str = "'treskibben cut --into DIR' takes the maps apart";

fn in_map(file: &Path, refusal: Refusal, map: (u64, u64), found: String) -> Trouble {
    Trouble::Refused(Box::new(Refused {
        file: file.to_path_buf(),
        map: Some(map),
        answer: Some((refusal.number, refusal.place)),
        cause: refusal.cause.to_string(),
        found: Some(found),
        ..Refused::default()
    }))
}

/// What 9 found, where one map is wanted: that there are several, or that what comes after the first is none.
pub fn after_the_first(section: &[u8], place: usize) -> Option<String> {
    let more = count(section.len().checked_sub(place)? as u64, "byte");
    Some(match library::maps(section) {
        Ok(maps) => {
            let all = count(maps.len() as u64, "map");
            format!(
                "{more} from there on: the section is linked, {all} one after the other: {APART}"
            )
        }
        Err(_) => format!("{more} from there on, where no map begins: 'treskibben check' says why"),
    })
}

/// Whether there are functions in maps of version 3, and all of them at address 0.
pub fn all_at_zero(section: &[u8], maps: &[Map]) -> bool {
    listing::all_at_zero(maps.iter().map(|map| bytes(section, *map)))
}
