//! Records of every form: pairs, records that are no statepoints, and sections and records that are very large.

use crate::common::say;
use crate::controlled::check;
use crate::limits::{expect, location, points, scene};
use generator::layout::{LiveOut, Record};
use generator::Rng;

/// Every pair of two locations like these in a record that isn't the frame's; what is counted is how many break the
/// profile, and how many keep it.
#[test]
fn pairs_of_every_form() {
    let mut rng = Rng::new(14);
    let points = points(&mut rng, 3);
    let mut locations = Vec::new();
    for kind in 1..=5 {
        for size in [0, 4, 8, 16, 24, 128, 136, 2_048, 2_056] {
            for register in [0, 3, 6, 7, 15, 16, 29, 31, 32, 0x107] {
                locations.push(location(kind, size, register, 0));
            }
        }
        locations.push(location(kind, 8, 3, if kind == 5 { 0 } else { 1 }));
        locations.push(location(kind, 8, 7, if kind == 5 { 0 } else { 1 << 31 }));
    }
    let mut counts = [0; 2];
    for base in &locations {
        let other = locations[rng.below(locations.len())].clone();
        for derived in [base.clone(), other] {
            let mut points = points.clone();
            points[1].pairs = vec![base.clone(), derived];
            let at = rng.pick(&[0, 2]);
            let outcome = expect(&scene(&mut rng, &points, at));
            assert!([(0, 0), (50, 1)].contains(&(outcome.number, outcome.place)));
            counts[usize::from(outcome.number == 0)] += 1;
        }
    }
    say(&format!(
        "pairs of wrong form and of right form: {counts:?}"
    ));
    assert!(counts[0] > 500 && counts[1] > 100, "{counts:?}");
}

/// Records that are no statepoints, each in a section of two.
#[test]
fn records_that_are_no_statepoints() {
    let mut rng = Rng::new(15);
    let points = points(&mut rng, 2);
    let whole = |at| scene(&mut Rng::new(16), &points, at);
    assert_eq!(expect(&whole(0)).number, 0);
    type Change = fn(&mut Record);
    let changes: [Change; 9] = [
        |record| record.locations.clear(),
        |record| record.locations.truncate(2),
        |record| record.locations[0].kind = 1,
        |record| record.locations[1].kind = 5,
        |record| record.locations[2].kind = 3,
        |record| record.locations[2].offset = u32::MAX,
        |record| record.locations[2].offset = 1 << 20,
        |record| record.locations.push(location(4, 8, 0, 0)),
        |record| {
            record.live_outs.push(LiveOut {
                register: 3,
                size: 8,
            });
        },
    ];
    for (nth, change) in changes.into_iter().enumerate() {
        for (broken, at) in [(0, 0), (0, 1), (1, 0), (1, 1)] {
            let mut scene = whole(at);
            change(&mut scene.section.records[broken]);
            let outcome = expect(&scene);
            let told = (outcome.number, outcome.place);
            assert_eq!(told, (50, broken as u64), "{nth}");
        }
    }
}

/// Sections of very many records: 1 to 9 of any of them come before 50, which is at 64, or lower.
#[test]
fn very_many_records() {
    let mut rng = Rng::new(17);
    let points = points(&mut rng, 20_000);
    let mut scene = scene(&mut rng, &points, 5);
    assert_eq!(expect(&scene).place, 64);
    scene.section.records[63].locations.clear();
    assert_eq!(expect(&scene).place, 63);
    let mut built = scene.section.build();
    let last = built.records.last().expect("a record").start + 16;
    built.bytes[last] = 6;
    assert_eq!(check(&built.bytes), (6, last as u64));
}

/// A record with as many locations as there can be.
#[test]
fn very_many_pointers() {
    let mut rng = Rng::new(18);
    let mut points = points(&mut rng, 4);
    points[2].pairs = vec![location(4, 8, 0, 0); 65_532];
    let outcome = expect(&scene(&mut rng, &points, 1));
    assert_eq!((outcome.number, outcome.place), (50, 2));
}
