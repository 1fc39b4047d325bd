//! Linked sections, the maps of several objects one after the other, by the library and by the second
//! implementation: whole ones of 1 to 50 maps, empty and equal ones among them, of both versions and with
//! records at the same address in several maps; and ones with a map damaged in any way.
//!
//! Answers and whole lists are compared, also where a call is refused; with what the library's calls give
//! for each map by itself; and, where the section is not damaged at random, with what the generator knows
//! beforehand. The random sections follow from a seed. It is printed; `TRESKIBBEN_SEED` sets it.

mod common;
#[allow(dead_code)] // The listings of the rows are for other tests.
mod rows;

#[path = "linked/calls.rs"]
mod calls;
#[path = "linked/library.rs"]
mod library;
#[path = "linked/limits.rs"]
mod limits;
#[path = "linked/worked.rs"]
mod worked;

use calls::Calls;
use common::{assert_often, count_random, say};
use generator::linked::{address, case, Linked, MOST_MAPS};
use generator::{Rng, Section, Version};

/// Sections in a run, made in parts that each have a source of random numbers.
const PARTS: u64 = 300;
const SECTIONS_A_PART: u64 = 300;

/// The numbers of each call, with acceptance, in the order of the papers. 9 is where a map ends, and is
/// never given.
const OF_MAPS: [u64; 9] = [1, 2, 3, 4, 5, 6, 7, 8, 0];
const OF_FILL: [u64; 10] = [1, 2, 3, 4, 5, 6, 7, 8, 24, 0];
const OF_FIND: [u64; 11] = [1, 2, 3, 4, 5, 6, 7, 8, 27, 10, 0];

/// How often each number, 0 to 29, was the answer of each call; how often it was that of a section whose
/// first map is whole, where maps are asked for; and how often each shape was seen.
const NUMBERS: usize = 30;
const LATE: usize = 3 * NUMBERS;
const SHAPES: usize = LATE + NUMBERS;
type Counts = [u64; SHAPES + SEEN.len()];

/// What has to be seen: its name, and whether a whole section and an accepted answer, map, record, function
/// and sharing, show it.
type Shape = (&'static str, fn(&[Section], [u64; 4]) -> bool);

const SEEN: [Shape; 9] = [
    ("one map", |maps, _| maps.len() == 1),
    ("as many maps as there can be", |maps, _| {
        maps.len() == MOST_MAPS
    }),
    ("an empty map before", |maps, [map, ..]| {
        let before = &maps[..map as usize];
        before.iter().any(|own| own.length() == 16)
    }),
    ("found in a later map", |_, [map, ..]| map > 0),
    ("found in the last of several", |maps, [map, ..]| {
        map > 0 && map as usize + 1 == maps.len()
    }),
    (
        "another record than the first, in a later map",
        |_, found| found[0] > 0 && found[1] > 0,
    ),
    ("another function, in a later map", |_, found| {
        found[0] > 0 && found[2] > 0
    }),
    ("shared by several records", |_, [.., sharing]| sharing > 1),
    ("shared by more than its map has", |maps, found| {
        let own = &maps[found[0] as usize];
        found[3] > own.records.len() as u64
    }),
];

/// How many numbers a list has room for that needs so many: mostly enough.
fn room(rng: &mut Rng, needed: usize) -> usize {
    match rng.below(8) {
        0 => needed.saturating_sub(1),
        1 => rng.below(needed + 1),
        2 => needed / 2,
        3 | 4 => needed + rng.below(7),
        _ => needed,
    }
}

/// Asks all there is to ask of a random linked section.
fn ask(rng: &mut Rng, counts: &mut Counts) {
    let case = case(rng);
    let calls = Calls::new(&case);
    let number = calls.cut.number() as usize;
    counts[number] += 1;
    counts[LATE + number] += u64::from(!calls.cut.maps.is_empty());
    let room = room(rng, 2 * case.maps.len());
    counts[NUMBERS + calls.fill(room) as usize] += 1;
    for _ in 0..2 {
        let address = address(rng, &case.maps);
        let answer = calls.find(address);
        let number = answer.err().map_or(0, |(number, _)| number);
        counts[2 * NUMBERS + number as usize] += 1;
        if let Ok(found) = answer {
            see(&case, found, &mut counts[SHAPES..]);
        }
    }
}

/// Counts the shapes that an accepted answer on a whole section shows.
fn see(case: &Linked, found: [u64; 4], counts: &mut [u64]) {
    if case.answer == Some((0, 0)) {
        assert!(case.maps.iter().all(|map| map.version == Version::Three));
        for (count, (_, shows)) in counts.iter_mut().zip(SEEN) {
            *count += u64::from(shows(&case.maps, found));
        }
    }
}

#[test]
fn random_linked_sections() {
    let counts = count_random("random linked sections", PARTS, SECTIONS_A_PART, ask);
    let calls = [
        ("maps", &OF_MAPS[..]),
        ("maps into a list", &OF_FILL),
        ("an address", &OF_FIND),
        ("maps after a whole one", &OF_MAPS),
    ];
    for ((name, due), counts) in calls.iter().zip(counts.chunks(NUMBERS)) {
        let asked: u64 = counts.iter().sum();
        say(&format!("{name}: {asked} calls, {} accepted", counts[0]));
        say(&format!("refused by 1 to 29: {:?}", &counts[1..]));
        for (number, count) in counts.iter().enumerate() {
            let answers = || format!("answers {number} of {name}");
            match due.contains(&(number as u64)) {
                true => assert_often(&[*count], |_| answers()),
                false => assert_eq!(*count, 0, "{}", answers()),
            }
        }
    }
    say(&format!("shapes: {:?}", &counts[SHAPES..]));
    assert_often(&counts[SHAPES..], |nth| SEEN[nth].0.to_string());
}
