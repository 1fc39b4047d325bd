//! The type of a refusal: its numbers, its words, and its use as an error.

use generator::frames::faults::{aim, NUMBERS};
use generator::frames::Scene;
use generator::Rng;
use std::collections::{BTreeMap, HashSet};
use std::error::Error;
use treskibben::editions::{Editions, MakeRefusal, Settings, Versions};
use treskibben::report::Totals;
use treskibben::{check, controller, flat, trace, Frame, Machine, MoveTable, Refusal};

/// A section of 16 bytes with these counts, `rest` after it.
fn section(counts: [u8; 3], rest: &[u8]) -> Vec<u8> {
    let mut bytes = vec![3, 0, 0, 0];
    for count in counts {
        bytes.extend_from_slice(&[count, 0, 0, 0]);
    }
    bytes.extend_from_slice(rest);
    bytes
}

/// A section with one function at `address`, one record at offset 1 and in it one location.
fn with_location(address: [u8; 8], location: [u8; 12]) -> Vec<u8> {
    let mut rest = address.to_vec();
    rest.extend_from_slice(&[24, 0, 0, 0, 0, 0, 0, 0, 1, 0, 0, 0, 0, 0, 0, 0]);
    rest.extend_from_slice(&[7, 0, 0, 0, 0, 0, 0, 0, 1, 0, 0, 0, 0, 0, 1, 0]);
    rest.extend_from_slice(&location);
    rest.extend_from_slice(&[0; 12]);
    section([1, 0, 1], &rest)
}

/// One section for each refusal, with the text that the refusal prints.
fn refused() -> Vec<(Vec<u8>, &'static str)> {
    let (low, high) = ([0; 8], [255; 8]);
    let whole = [1, 0, 8, 0, 3, 0, 0, 0, 0, 0, 0, 0];
    let not_zero = [1, 0, 8, 0, 3, 0, 0, 9, 0, 0, 0, 0];
    let kind = [6, 0, 8, 0, 3, 0, 0, 0, 0, 0, 0, 0];
    let index = [5, 0, 8, 0, 3, 0, 0, 0, 0, 0, 0, 0];
    assert_eq!(check(&with_location(low, whole)), Ok(()));
    vec![
        (vec![], "refused 1 at 0: section under 16 or over 16,777,216 bytes, or listing over 33,554,432 bytes"),
        (vec![0; 16], "refused 2 at 0: version neither 1 nor 3"),
        (with_location(low, not_zero), "refused 3 at 63: a byte required to be zero isn't"),
        (section([1, 0, 0], &[]), "refused 4 at 16: a function, constant or record isn't wholly inside"),
        (section([0, 0, 1], &[]), "refused 5 at 12: record counts, added exactly, differ from NumRecords"),
        (with_location(low, kind), "refused 6 at 56: location kind not 1 to 5"),
        (with_location(low, index), "refused 7 at 56: ConstIndex offset negative or not below NumConstants"),
        (with_location(high, whole), "refused 8 at 40: record address over 2^64 - 1"),
        (section([0, 0, 0], &[0]), "refused 9 at 16: bytes after the last record"),
    ]
}

#[test]
fn each_refusal_prints_number_place_and_cause() {
    for (nth, (bytes, text)) in refused().into_iter().enumerate() {
        let refusal = check(&bytes).unwrap_err();
        assert_eq!(refusal.to_string(), text);
        assert_eq!(refusal.number(), nth as u64 + 1);
        let parts = format!(
            "refused {} at {}: {}",
            refusal.number(),
            refusal.place(),
            refusal.cause()
        );
        assert_eq!(parts, text);
    }
}

#[test]
fn refusals_of_conversions_print_too() {
    let listing = |items: usize| {
        let mut listing = vec![2, 0, 0, 0, 0, 0, 0, 0, 0];
        listing.extend([3, 7, 0, 0, 0, 0, 0, 0, 0, 0, 0, 0, 0]);
        listing.extend([5, 3, 0, 8].repeat(items));
        listing.push(6);
        listing
    };
    let print = |listing: &[u8], room| {
        let refusal = treskibben::to_section(listing, &mut vec![0; room]).unwrap_err();
        assert!(refusal.to_string().ends_with(refusal.cause()));
        refusal.to_string()
    };
    assert_eq!(
        print(&[6, 0], 16),
        "refused 22 at 1: listing breaks its grammar"
    );
    let overfull = "refused 23 at 9: over 65,535 locations or live-outs in a record";
    assert_eq!(print(&listing(65_536), 0), overfull);
    let counts = "refused 5 at 12: record counts, added exactly, differ from NumRecords";
    assert_eq!(print(&listing(65_535), 0), counts);
    assert_eq!(
        print(&[6], 15),
        "refused 24 at 0: output shorter than the whole result"
    );
}

#[test]
fn refusals_of_the_other_version_print_too() {
    let (newer, mut older) = (section([0, 0, 0], &[]), section([0, 0, 0], &[]));
    older[0] = 1;
    let by_function = treskibben::find_in_function(&newer, 0, 0).unwrap_err();
    let by_address = treskibben::find(&older, 0).unwrap_err();
    assert_eq!(by_function, by_address);
    let text = by_address.to_string();
    assert_eq!(text, format!("refused 27 at 0: {}", by_address.cause()));
    let mut listing = vec![7, 1, 1];
    listing.extend([0; 16]);
    listing.extend([1, 0, 0, 0, 0, 0, 0, 0, 6]);
    let beyond = treskibben::section_of(&listing).unwrap_err();
    let text = beyond.to_string();
    assert_eq!(text, format!("refused 28 at 2: {}", beyond.cause()));
    assert_ne!(beyond.cause(), by_address.cause());
    let unknown = "a cause that this version has no words for";
    assert!([by_address, beyond]
        .iter()
        .all(|refusal| refusal.cause() != unknown));
}

/// The lines of a table in a document: each number with its words, less what stands in parentheses at
/// their end.
fn table(document: &str) -> BTreeMap<u64, String> {
    let line = |line: &str| {
        let mut cells = line.strip_prefix("| ")?.split(" | ");
        let number = cells.next()?.parse().ok()?;
        let words = cells.next()?;
        let words = words
            .strip_suffix(')')
            .and_then(|it| it.rsplit_once(" ("))
            .map_or(words, |it| it.0);
        Some((number, words.to_string()))
    };
    document.lines().filter_map(line).collect()
}

/// The listings that are refused by themselves, and an output that is too short.
fn refused_listings() -> [Refusal; 4] {
    let overfull = {
        let mut listing = vec![3, 7, 0, 0, 0, 0, 0, 0, 0, 0, 0, 0, 0];
        listing.extend([5, 3, 0, 8].repeat(65_536));
        listing.push(6);
        listing
    };
    let older = [&[7, 1, 1][..], &[0; 16], &[1, 0, 0, 0, 0, 0, 0, 0, 6]].concat();
    [
        treskibben::section_of(&[6, 0]).unwrap_err(),
        treskibben::section_of(&overfull).unwrap_err(),
        treskibben::to_section(&[6], &mut []).unwrap_err(),
        treskibben::section_of(&older).unwrap_err(),
    ]
}

/// The number that no safe call gives without an edition: they take no number that is no machine.
const NOT_ALLOWED: u64 = 33;

/// A refusal of a frame for each number that a frame can get by itself.
fn refused_frames() -> Vec<Refusal> {
    let mut rng = Rng::new(14);
    let mut refused = |number| loop {
        let mut scene = Scene::one(&mut rng);
        if aim(&mut rng, number, &mut scene, 0).is_some() {
            let (section, stop) = (scene.section.encode(), scene.stops[0]);
            let frame = match section[0] {
                1 => Frame::in_function(stop.named, stop.address),
                _ => Frame::new(stop.address),
            };
            let table = MoveTable::new(&scene.table.olds, &scene.table.news);
            let first = scene.first;
            let machine = match scene.machine {
                0 => Machine::Amd64,
                _ => Machine::Aarch64,
            };
            let (image, registers) = (&mut scene.image, &mut stop.lent());
            let moved =
                treskibben::relocate(&section, image, first, table, machine, frame, registers);
            break moved.unwrap_err();
        }
    };
    let safe = NUMBERS.into_iter().filter(|number| *number != NOT_ALLOWED);
    safe.map(&mut refused).collect()
}

/// A thread of too many frames, and one with a frame that stands in it twice.
fn refused_threads() -> [Refusal; 2] {
    let section = include_bytes!("../../samples/h-statepoint.section");
    let table = MoveTable::new(&[0x50000], &[0x90000]);
    let refused = |count| {
        let (frames, machine) = (vec![Frame::new(0x1020); count], Machine::Amd64);
        let registers = &mut vec![machine.registers(0, 0x7000); count];
        let (image, registers) = (&mut [0; 24], registers.as_flattened_mut());
        let moved =
            treskibben::relocate_thread(section, image, 0x7000, table, machine, &frames, registers);
        Refusal::from(moved.unwrap_err())
    };
    [refused(4_097), refused(2)]
}

/// A list that is no index of its section.
fn refused_index() -> Refusal {
    let section = section([0, 0, 0], &[]);
    treskibben::Index::from_entries(&section, vec![0, 0])
        .find(0)
        .unwrap_err()
}

/// A refusal of a flat section for each number: too short, of another version, misplaced, with a range that
/// reaches past its array, with a reserved bit, and an address that no record has.
fn refused_flat() -> [Refusal; 6] {
    let sample = include_bytes!("../../samples/worked.flat");
    let refused = |place: usize, byte: u8| {
        let mut section = sample.to_vec();
        section[place] = byte;
        flat::check(&section).unwrap_err()
    };
    [
        flat::check(&sample[..31]).unwrap_err(),
        refused(0, 3),
        refused(4, 40),
        refused(94, 2),
        refused(3, 128),
        flat::find(sample, 0).unwrap_err(),
    ]
}

/// The refusals of a store of editions. 32 needs a store with a long past, which tests/editions.rs has.
fn refused_editions() -> [Refusal; 4] {
    let mut editions = Editions::new();
    let right = Settings {
        pointers: 256,
        machine: Machine::Amd64,
        versions: Versions::Both,
    };
    let wrong = Settings {
        pointers: 257,
        ..right
    };
    while editions.make(right).is_ok() {}
    [
        editions.make(right).unwrap_err().into(),
        editions.read(65).unwrap_err().into(),
        MakeRefusal::NumbersUsedUp.into(),
        editions.make(wrong).unwrap_err().into(),
    ]
}

/// A move of a frame on another machine than its edition's.
fn refused_restore() -> Refusal {
    let mut editions = Editions::new();
    let settings = Settings {
        pointers: 256,
        machine: Machine::Aarch64,
        versions: Versions::Both,
    };
    let number = editions.make(settings).expect("right settings");
    let (edition, section) = (editions.edition(number), section([0, 0, 0], &[]));
    let (table, frame) = (MoveTable::new(&[], &[]), Frame::new(0));
    let moved = edition.relocate(&section, &mut [], 0, table, Machine::Amd64, frame, &mut []);
    moved.unwrap_err()
}

/// A trace whose first item is of no kind, and a section of version 1 for the bench controller.
fn refused_trace_and_profile() -> [Refusal; 2] {
    let mut older = section([0, 0, 0], &[]);
    older[0] = 1;
    [
        trace::steps(&[9]).unwrap_err(),
        controller::check(&older).unwrap_err(),
    ]
}

/// A report that can count no section more.
fn refused_report() -> Refusal {
    let mut totals = Totals {
        sections: u64::MAX,
        ..Totals::default()
    };
    let refusal = totals.add(&section([0, 0, 0], &[])).unwrap_err();
    assert_eq!(refusal.place(), u64::MAX);
    refusal
}

/// Each number, as a call gives it, has the words of its line in docs/REFUSALS.md; and the table has no
/// other number.
#[test]
fn the_words_are_those_of_the_table() {
    let table = table(include_str!("../../docs/REFUSALS.md"));
    assert_eq!(
        table.keys().copied().collect::<Vec<u64>>(),
        (1..=41).chain([50, 51]).collect::<Vec<u64>>()
    );
    let section = section([0, 0, 0], &[]);
    let record = with_location([0; 8], [1, 0, 8, 0, 3, 0, 0, 0, 0, 0, 0, 0]);
    let mut told: Vec<Refusal> = refused()
        .iter()
        .map(|(bytes, _)| check(bytes).unwrap_err())
        .collect();
    told.push(treskibben::location(&record, 0, 1).unwrap_err());
    told.push(treskibben::find_in_function(&section, 0, 0).unwrap_err());
    told.extend(refused_listings());
    told.extend(refused_frames());
    told.extend(refused_threads());
    told.push(refused_index());
    told.push(refused_report());
    told.extend(refused_flat());
    told.extend(refused_editions());
    told.push(refused_restore());
    told.extend(refused_trace_and_profile());
    let told: BTreeMap<u64, String> = told
        .iter()
        .map(|it| (it.number(), it.cause().to_string()))
        .collect();
    assert_eq!(told, table);
}

#[test]
fn a_refusal_is_an_error() {
    fn load(bytes: &[u8]) -> Result<(), Box<dyn Error + Send + Sync>> {
        check(bytes)?;
        Ok(())
    }
    let error = load(&[]).unwrap_err();
    assert!(error.to_string().starts_with("refused 1 at 0: "));
    assert!(error.source().is_none());
    assert!(error.downcast_ref::<Refusal>().is_some());
    assert!(load(&section([0, 0, 0], &[])).is_ok());
}

#[test]
fn refusals_are_equal_where_number_and_place_are() {
    let all: Vec<Refusal> = refused()
        .iter()
        .map(|(bytes, _)| check(bytes).unwrap_err())
        .collect();
    let set: HashSet<Refusal> = all.iter().copied().collect();
    assert_eq!(set.len(), all.len());
    let again = check(&[]).unwrap_err();
    assert_eq!(again, all[0]);
    assert_ne!(again, all[1]);
    assert_eq!(format!("{again:?}"), "Refusal { number: 1, place: 0 }");
}
