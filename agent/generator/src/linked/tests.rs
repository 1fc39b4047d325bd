//! What is known of linked sections is what the second implementation answers, and each answer and shape
//! occurs often enough.

use super::*;
use crate::frames::named::Named;
use crate::frames::thread::Thread;
use reference::editions::{Edition, Settings, Store};
use reference::restore::Restore;
use threads::LinkedThread;

const CASES: u64 = 30_000;

/// The second implementation's maps, or number and place.
fn cut_by_second(bytes: &[u8]) -> Result<Vec<(usize, usize)>, (u64, u64)> {
    let maps = reference::linked::maps(bytes);
    let maps = maps.map_err(|refusal| (refusal.number, refusal.place))?;
    Ok(maps.iter().map(|map| (map.first, map.length)).collect())
}

fn found_by_second(bytes: &[u8], address: u64) -> Result<[u64; 4], (u64, u64)> {
    let found = reference::linked::find(bytes, address);
    let found = found.map_err(|refusal| (refusal.number, refusal.place))?;
    Ok([found.map, found.record, found.function, found.sharing])
}

#[test]
fn linked_sections_are_answered_as_known() {
    let mut rng = Rng::new(21);
    let (mut numbers, mut finds) = ([0; 10], [0; 28]);
    for _ in 0..CASES {
        let case = case(&mut rng);
        let maps = cut_by_second(&case.bytes);
        let answer = maps.clone().err().unwrap_or((0, 0));
        numbers[answer.0 as usize] += 1;
        let address = address(&mut rng, &case.maps);
        let found = found_by_second(&case.bytes, address);
        finds[found.err().map_or(0, |(number, _)| number) as usize] += 1;
        let Some(known) = case.answer else {
            continue;
        };
        assert_eq!(answer, known, "{}", case.name);
        match known {
            (0, 0) => {
                assert_eq!(maps, Ok(places(&case.maps)));
                assert_eq!(found, super::found(&case.maps, address));
            }
            refused => assert_eq!(found, Err(refused)),
        }
    }
    for number in [0, 1, 2, 3, 4, 5, 6, 7, 8] {
        assert!(numbers[number] >= 300, "{number}: {numbers:?}");
    }
    assert_eq!(numbers[9], 0);
    for number in [0, 10, 27] {
        assert!(finds[number] >= 300, "{number}: {finds:?}");
    }
}

/// A shape that has to occur among whole sections.
type Shape = (&'static str, fn(&[Section]) -> bool);

const SHAPES: [Shape; 8] = [
    ("one map", |maps| maps.len() == 1),
    ("as many as there can be", |maps| maps.len() == MOST_MAPS),
    ("an empty map between others", |maps| {
        let empty = |map: &Section| map.length() == HEADER;
        maps.len() > 2 && maps[1..maps.len() - 1].iter().any(empty)
    }),
    ("equal maps", |maps| {
        (1..maps.len()).any(|nth| maps[nth].encode() == maps[nth - 1].encode())
    }),
    ("both versions", |maps| {
        let of = |version| maps.iter().any(|map| map.version == version);
        of(Version::One) && of(Version::Three)
    }),
    ("an address in two maps", |maps| {
        shares(maps, |own, other| own != other)
    }),
    ("an address in two maps, under other numbers", |maps| {
        shares(maps, |own, other| {
            own[0] != other[0] && own[1..] != other[1..]
        })
    }),
    ("records in the last map alone", |maps| {
        let bare = |map: &Section| map.records.is_empty();
        let last = maps.len() - 1;
        last > 0 && !bare(&maps[last]) && maps[..last].iter().all(bare)
    }),
];

/// Whether two records of version 3 have the same address, and map, record and function are so.
fn shares(maps: &[Section], is: fn(&[usize; 3], &[usize; 3]) -> bool) -> bool {
    let mut all = Vec::new();
    for (nth, map) in maps.iter().enumerate() {
        let own = addresses(map).enumerate();
        all.extend(own.map(|(record, (function, at))| (at, [nth, record, function])));
    }
    all.sort();
    all.windows(2)
        .any(|two| two[0].0 == two[1].0 && two[0].1[0] != two[1].1[0] && is(&two[0].1, &two[1].1))
}

#[test]
fn every_shape_occurs() {
    let mut rng = Rng::new(22);
    let mut counts = [0; SHAPES.len()];
    for _ in 0..10_000 {
        let maps = maps(&mut rng);
        assert!((1..=MOST_MAPS).contains(&maps.len()));
        for (count, (_, shows)) in counts.iter_mut().zip(SHAPES) {
            *count += u64::from(shows(&maps));
        }
    }
    for (count, (name, _)) in counts.iter().zip(SHAPES) {
        assert!(*count >= 100, "{name}: only {count} times");
    }
}

/// The second implementation's store.
fn store(named: &Named) -> Store {
    let edition = |(number, own): &(u64, crate::editions::Settings)| Edition {
        number: *number,
        settings: Settings {
            largest_count: own.largest_count,
            machine: own.machine,
            version_1: own.version_1,
            version_3: own.version_3,
        },
    };
    let live: Vec<Edition> = named.live.iter().map(edition).collect();
    Store::set_up(named.greatest, &live).expect("a store that calls can leave")
}

/// A thread over the dealt maps is answered, and leaves image and registers, as on the one section.
#[test]
fn threads_over_dealt_maps_are_answered_as_on_one_section() {
    let mut rng = Rng::new(23);
    let mut numbers = [0; 34];
    for _ in 0..8_000 {
        let thread = Thread::any(&mut rng);
        let (scene, list) = (&thread.scene, thread.list());
        let named = Named::any(&mut rng, scene);
        let maps = dealt::maps(&mut rng, &scene.section, 8);
        let older = maps.iter().position(|map| map.version == Version::One);
        let known = match (named.settings(), older, named.allows(scene)) {
            (None, _, _) => (31, 0),
            (_, Some(nth), _) => (27, start(&maps, nth) as u64),
            (_, _, false) => (33, 0),
            _ => thread.answer_under(named.most()),
        };
        let (store, bytes) = (store(&named), joined(&maps));
        let restore = Restore {
            store: &store,
            edition: named.edition,
            section: &bytes,
            first: scene.first,
            old_starts: &scene.table.olds,
            new_starts: &scene.table.news,
        };
        let (mut image, mut registers) = (scene.image.clone(), thread.registers());
        let machine = scene.machine;
        let answer =
            reference::linked::thread(&restore, &mut image, machine, &list, &mut registers);
        numbers[known.0 as usize] += 1;
        match known {
            (0, _) => {
                assert_eq!(answer, Ok(thread.pointers()));
                assert_eq!(image, thread.moved());
                assert_eq!(registers, thread.moved_registers());
            }
            (number, place) => {
                assert_eq!(answer, Err(reference::Refusal { number, place }));
                assert_eq!(
                    (image, registers),
                    (scene.image.clone(), thread.registers())
                );
            }
        }
    }
    for number in [0, 10, 12, 15, 16, 17, 18, 19, 20, 21, 25, 26, 27, 31, 33] {
        assert!(numbers[number] >= 20, "{number}: {numbers:?}");
    }
}

/// What is known of a list over a random linked section is what the second implementation answers.
#[test]
fn threads_over_linked_sections_are_answered_as_known() {
    let mut rng = Rng::new(24);
    let mut numbers = [0; 34];
    for _ in 0..8_000 {
        let case = LinkedThread::any(&mut rng);
        let (thread, scene) = (&case.thread, &case.thread.scene);
        let named = Named::any(&mut rng, scene);
        let Some(known) = case.answer(named.settings()) else {
            continue;
        };
        let store = store(&named);
        let restore = Restore {
            store: &store,
            edition: named.edition,
            section: &case.linked.bytes,
            first: scene.first,
            old_starts: &scene.table.olds,
            new_starts: &scene.table.news,
        };
        let (mut image, mut registers) = (scene.image.clone(), thread.registers());
        let (list, machine) = (thread.list(), scene.machine);
        let answer =
            reference::linked::thread(&restore, &mut image, machine, &list, &mut registers);
        numbers[known.0 as usize] += 1;
        let told = answer.map_or_else(|refusal| (refusal.number, refusal.place), |_| (0, 0));
        assert_eq!(told, known);
    }
    for number in (1..=8).chain([
        0, 10, 12, 13, 14, 15, 16, 17, 18, 19, 20, 21, 25, 26, 27, 31, 33,
    ]) {
        assert!(numbers[number] >= 20, "{number}: {numbers:?}");
    }
}
