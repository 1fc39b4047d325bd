//! Linked sections: the maps of several objects one after the other, whole and damaged, and what they are
//! answered.

pub mod dealt;
pub mod threads;

use crate::layout::{Function, Record, Section, Version, HEADER};
use crate::questions::{self, addresses};
use crate::rng::Rng;
use crate::{aimed, crowded_in, damage, section_in};

/// The most maps that a linked section is made of.
pub const MOST_MAPS: usize = 50;

/// The refusals that cutting can give, in any map. 9 is where a map ends, and is none of them.
pub const NUMBERS: [u64; 8] = [1, 2, 3, 4, 5, 6, 7, 8];

/// Those that a damaged map gets whatever stands behind it: no count of items that have to be inside is
/// touched.
const BEFORE_OTHERS: [u64; 6] = [2, 3, 5, 6, 7, 8];

/// The bytes of a linked section, whole or not.
#[derive(Clone, Debug)]
pub struct Linked {
    /// How it was made.
    pub name: &'static str,
    pub bytes: Vec<u8>,
    /// The maps that it was made of. Where it is whole they are those that it has.
    pub maps: Vec<Section>,
    /// The answer of cutting, where it is known beforehand: number and place, both 0 for a whole one.
    pub answer: Option<(u64, u64)>,
}

/// The bytes of maps one after the other.
pub fn joined(maps: &[Section]) -> Vec<u8> {
    maps.iter().flat_map(Section::encode).collect()
}

/// The first byte and the length of each map.
pub fn places(maps: &[Section]) -> Vec<(usize, usize)> {
    let mut first = 0;
    let place = |map: &Section| {
        let own = (first, map.length());
        first += map.length();
        own
    };
    maps.iter().map(place).collect()
}

/// The first byte of the map of this number, or the length of all where there are as many.
fn start(maps: &[Section], nth: usize) -> usize {
    maps[..nth].iter().map(Section::length).sum()
}

/// What the question by address is answered of these maps: map, record, function and how many share the
/// address, or number and place.
pub fn found(maps: &[Section], address: u64) -> Result<[u64; 4], (u64, u64)> {
    let older = maps.iter().position(|map| map.version == Version::One);
    if let Some(nth) = older {
        return Err((27, start(maps, nth) as u64));
    }
    let all = maps.iter().enumerate().flat_map(|(nth, map)| {
        let own = addresses(map).enumerate();
        own.map(move |(record, (function, at))| (at, [nth, record, function]))
    });
    let there: Vec<[usize; 3]> = all
        .filter(|(at, _)| *at == address)
        .map(|(_, own)| own)
        .collect();
    let &[map, record, function] = there.first().ok_or((10, 0))?;
    Ok([map, record, function, there.len()].map(|own| own as u64))
}

/// An address to ask for: mostly that of a record of some map, or one near it.
pub fn address(rng: &mut Rng, maps: &[Section]) -> u64 {
    let with: Vec<&Section> = maps.iter().filter(|map| !map.records.is_empty()).collect();
    match with.len() {
        0 => rng.number(64),
        count => {
            let nth = rng.below(count);
            questions::address(rng, with[nth])
        }
    }
}

/// Random whole maps, mostly a few and now and then as many as there can be: empty ones, equal ones, ones
/// with records at the same addresses, and, in one section of four, ones of version 1.
pub fn maps(rng: &mut Rng) -> Vec<Section> {
    let count = match rng.below(16) {
        0 => MOST_MAPS,
        1 => 1 + rng.below(MOST_MAPS),
        2..=4 => 1,
        _ => 2 + rng.below(5),
    };
    let older = rng.one_in(4);
    let mut maps: Vec<Section> = Vec::new();
    for _ in 0..count {
        let own = map(rng, older, &maps);
        maps.push(own);
    }
    maps
}

/// A map to stand behind others, of version 1 only where those are let in.
fn map(rng: &mut Rng, older: bool, before: &[Section]) -> Section {
    let version = match older && rng.one_in(3) {
        true => Version::One,
        false => Version::Three,
    };
    let any = match before.len() {
        0 => None,
        count => Some(&before[rng.below(count)]),
    };
    match (rng.below(8), any) {
        (0, _) => Section {
            version,
            ..Section::default()
        },
        (1, Some(other)) => other.clone(),
        (2, Some(other)) => kin(rng, other),
        (3, _) => crowded_in(rng, version),
        _ => section_in(rng, version),
    }
}

/// A function and its records.
type Group = (Function, Vec<Record>);

/// The functions of a version 3 section, each with its records.
fn groups(section: &Section) -> Vec<Group> {
    let mut records = section.records.iter().cloned();
    let group = |function: &Function| {
        let count = function.record_count as usize;
        (function.clone(), records.by_ref().take(count).collect())
    };
    section.functions.iter().map(group).collect()
}

/// A section of these functions and their records, with this pool.
fn of_groups(groups: Vec<Group>, constants: Vec<u64>) -> Section {
    let mut section = Section {
        constants,
        ..Section::default()
    };
    for (function, records) in groups {
        section.functions.push(function);
        section.records.extend(records);
    }
    section
}

/// A map with the records of another one at their addresses, under other numbers: its functions turned
/// round, and one without records before them. One of version 1 is the same map.
fn kin(rng: &mut Rng, other: &Section) -> Section {
    if other.version == Version::One {
        return other.clone();
    }
    let mut own = groups(other);
    let turn = rng.below(own.len().max(1));
    own.rotate_left(turn);
    let first = Function {
        address: rng.number(64),
        stack_size: 8 * rng.number(5),
        record_count: 0,
    };
    own.insert(0, (first, Vec::new()));
    of_groups(own, other.constants.clone())
}

/// A random linked section: whole, or damaged in any way.
pub fn case(rng: &mut Rng) -> Linked {
    let maps = maps(rng);
    case_of(rng, maps)
}

/// A random linked section that is made of these maps, of which there is at least one.
pub fn case_of(rng: &mut Rng, maps: Vec<Section>) -> Linked {
    match rng.below(16) {
        0..=4 => whole(maps),
        5..=8 => one_fault(rng, maps),
        9 | 10 => faulty_end(rng, maps),
        11 => cut(rng, maps),
        12 => trailing(rng, maps),
        13 => damaged_map(rng, maps),
        _ => damaged(rng, maps),
    }
}

/// The maps as they are.
pub fn whole(maps: Vec<Section>) -> Linked {
    Linked {
        name: "whole",
        bytes: joined(&maps),
        maps,
        answer: Some((0, 0)),
    }
}

/// The maps with the bytes of one of them exchanged, and an answer at a place in that one.
fn exchanged(
    name: &'static str,
    maps: Vec<Section>,
    nth: usize,
    bytes: &[u8],
    answer: Option<(u64, usize)>,
) -> Linked {
    let at = start(&maps, nth);
    let before = joined(&maps[..nth]);
    let after = joined(&maps[nth + 1..]);
    Linked {
        name,
        bytes: [&before, bytes, &after].concat(),
        maps,
        answer: answer.map(|(number, place)| (number, (at + place) as u64)),
    }
}

/// One map with a fault that doesn't depend on what stands behind it; the others are whole.
fn one_fault(rng: &mut Rng, maps: Vec<Section>) -> Linked {
    let nth = rng.below(maps.len());
    let mut built = maps[nth].build();
    let number = rng.pick(&BEFORE_OTHERS);
    match aimed::aim(rng, number, &maps[nth], &mut built) {
        Some(place) => exchanged("one fault", maps, nth, &built.bytes, Some((number, place))),
        None => whole(maps),
    }
}

/// A last map with any fault that a section can have but 9.
fn faulty_end(rng: &mut Rng, maps: Vec<Section>) -> Linked {
    let last = maps.len() - 1;
    let mut built = maps[last].build();
    let number = rng.pick(&NUMBERS);
    match aimed::aim(rng, number, &maps[last], &mut built) {
        // Nothing is left of the last map: the others are whole.
        Some(_) if built.bytes.is_empty() && last > 0 => whole(maps[..last].to_vec()),
        Some(place) => exchanged(
            "faulty end",
            maps,
            last,
            &built.bytes,
            Some((number, place)),
        ),
        None => whole(maps),
    }
}

/// The maps cut off anywhere: in a header, in an item, or between two.
fn cut(rng: &mut Rng, mut maps: Vec<Section>) -> Linked {
    let nth = rng.below(maps.len());
    maps.truncate(nth + 1);
    let built = maps[nth].build();
    let length = rng.below(built.bytes.len());
    let answer = match length {
        0 if nth > 0 => {
            maps.truncate(nth);
            return whole(maps);
        }
        0..HEADER => (1, 0),
        _ => (4, aimed::item_at(&maps[nth], &built, length)),
    };
    exchanged("cut", maps, nth, &built.bytes[..length], Some(answer))
}

/// Bytes behind the last map: too few for a header, or enough for one of no version.
fn trailing(rng: &mut Rng, maps: Vec<Section>) -> Linked {
    let zeros = rng.one_in(2);
    let count = match rng.below(4) {
        0 => HEADER + rng.below(40),
        _ => 1 + rng.below(HEADER - 1),
    };
    let mut tail: Vec<u8> = (0..count)
        .map(|_| if zeros { 0 } else { rng.byte() })
        .collect();
    if !zeros {
        tail[0] = rng.pick(&[0, 1, 2, 3, 4, 0xff]);
    }
    let bytes = joined(&maps);
    let number = match (count < HEADER, tail[0]) {
        (true, _) => Some(1),
        (false, 1 | 3) => None,
        (false, _) => Some(2),
    };
    Linked {
        name: "trailing bytes",
        answer: number.map(|number| (number, bytes.len() as u64)),
        bytes: [bytes, tail].concat(),
        maps,
    }
}

/// One map damaged in any way, so that it may run into the next or leave bytes before it.
fn damaged_map(rng: &mut Rng, maps: Vec<Section>) -> Linked {
    let nth = rng.below(maps.len());
    let other = maps[rng.below(maps.len())].encode();
    let mut built = maps[nth].build();
    match rng.below(3) {
        0 => {
            let number = rng.pick(aimed::numbers(maps[nth].version));
            aimed::aim(rng, number, &maps[nth], &mut built);
        }
        _ => {
            for _ in 0..=rng.below(2) {
                damage::damage(rng, &mut built, &other);
            }
        }
    }
    exchanged("damaged map", maps, nth, &built.bytes, None)
}

/// The whole damaged anywhere, once or several times.
fn damaged(rng: &mut Rng, maps: Vec<Section>) -> Linked {
    let mut bytes = joined(&maps);
    let other = maps[rng.below(maps.len())].encode();
    for _ in 0..=rng.below(3) {
        damage::damage_bytes(rng, &mut bytes, &other);
    }
    Linked {
        name: "damaged",
        bytes,
        maps,
        answer: None,
    }
}

#[cfg(test)]
mod tests;
