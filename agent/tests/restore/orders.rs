//! Two faults at a time, one of them by the edition: which is given first.

use crate::common::{count_random, nth_version, say};
use crate::compare;
use crate::under::stores::Stored;
use generator::editions::Settings;
use generator::frames::faults::aim;
use generator::frames::named::Named;
use generator::frames::{plain, Scene, Size, Table, MOST_POINTERS};
use generator::{aimed, Rng, Version};

const PARTS: u64 = 500;
const FRAMES_A_PART: u64 = 200;

/// How often each pair of faults must be made, of each version.
const LEAST: u64 = 50;

/// The faults that an edition makes.
const BY_EDITION: [u64; 3] = [31, 33, 17];

/// One of the section's own, 1 to 9.
const SECTION: u64 = 9;

/// All faults, in the order in which they are looked for.
const FAULTS: usize = 15;
fn order(version: Version) -> [u64; FAULTS] {
    let [one, two] = match version {
        Version::One => [17, 18],
        Version::Three => [18, 17],
    };
    [
        31, SECTION, 33, 13, 14, 25, 10, 15, 12, 16, one, two, 19, 20, 21,
    ]
}

/// How often each pair of faults was made, of each version.
type Counts = [u64; 2 * FAULTS * FAULTS];

/// A store with an edition that has these faults for the frame of a scene, which has so many pointers; nothing
/// where it can't have them.
fn store(rng: &mut Rng, scene: &Scene, pointers: usize, faults: [u64; 2]) -> Option<Named> {
    let has = |number| faults.contains(&number);
    let one = scene.section.version == Version::One;
    let mut settings = Settings {
        largest_count: MOST_POINTERS as u64,
        machine: scene.machine,
        version_1: one || rng.one_in(2),
        version_3: !one || rng.one_in(2),
    };
    if has(17) {
        settings.largest_count = pointers.checked_sub(1).filter(|most| *most > 0)? as u64;
    }
    if has(33) && rng.one_in(2) {
        settings.machine = 1 - scene.machine;
    } else if has(33) {
        (settings.version_1, settings.version_3) = (!one, one);
    }
    let greatest = 1 + rng.below(20) as u64;
    let own = 1 + rng.below(greatest as usize) as u64;
    let edition = match has(31) {
        true => rng.pick(&[0, own + 1, greatest + 1, own + (1 << 32), u64::MAX]),
        false => own,
    };
    Some(Named {
        greatest,
        live: vec![(own, settings)],
        edition,
    })
}

/// Makes two faults, of which the first has to be the answer.
fn run(rng: &mut Rng, counts: &mut Counts) {
    let version = rng.pick(&Version::ALL);
    let order = order(version);
    let (first, second) = (rng.below(FAULTS), rng.below(FAULTS));
    let faults = [order[first.min(second)], order[first.max(second)]];
    if first == second || !faults.iter().any(|number| BY_EDITION.contains(number)) {
        return;
    }
    let (table, size) = (Table::any(rng), Size::any(rng));
    let mut scene = Scene::of_version(rng, version, table, &[size]);
    let pointers = plain::pointers(&scene, 0);
    let own = |number: &u64| *number != SECTION && !BY_EDITION.contains(number);
    for number in faults.into_iter().filter(own) {
        if aim(rng, number, &mut scene, 0).is_none() {
            return;
        }
    }
    let Some(named) = store(rng, &scene, pointers, faults) else {
        return;
    };
    let mut built = scene.section.build();
    let mut known = (0, 0);
    if faults.contains(&SECTION) {
        let number = rng.pick(aimed::numbers(version));
        match aimed::aim(rng, number, &scene.section, &mut built) {
            Some(place) => known = (number, place as u64),
            None => return,
        }
    } else if let Some(number) = faults.into_iter().find(|number| [13, 14].contains(number)) {
        known = (number, 0);
    }
    let stored = Stored::of(rng, &named);
    let outcome = compare(&scene, &built.bytes, &stored, Some(known));
    let number = match outcome.number {
        1..=9 => SECTION,
        number => number,
    };
    assert_eq!(number, faults[0], "of {faults:?}, {outcome:?}");
    let nth = FAULTS * FAULTS * nth_version(version);
    counts[nth + FAULTS * first.min(second) + first.max(second)] += 1;
}

#[test]
fn two_faults() {
    let counts = count_random("two faults under editions", PARTS, FRAMES_A_PART, run);
    let mut least = u64::MAX;
    for (version, counts) in Version::ALL.into_iter().zip(counts.chunks(FAULTS * FAULTS)) {
        let order = order(version);
        for first in 0..FAULTS {
            for second in first + 1..FAULTS {
                let faults = [order[first], order[second]];
                if !faults.iter().any(|number| BY_EDITION.contains(number)) {
                    continue;
                }
                let count = counts[FAULTS * first + second];
                least = least.min(count);
                let of = version.number();
                assert!(count >= LEAST, "{faults:?} of version {of}: {count} times");
            }
        }
    }
    say(&format!(
        "each pair of faults was made {least} times or more"
    ));
}
