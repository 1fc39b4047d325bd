//! The order of 31, the section's own refusal, 50, 33, 13 and 17: sections, editions and images with two of these
//! faults and with any of them. The earliest in this order is given, to a frame and to a thread.

use crate::common::{assert_often, count_random, say};
use crate::under::stores::Stored;
use crate::Bench;
use generator::editions::Settings;
use generator::frames::bench::{self, Breach};
use generator::frames::faults::aim;
use generator::frames::named::Named;
use generator::frames::{plain, Scene};
use generator::{aimed, Rng};

/// Cases in a run.
const PARTS: u64 = 190;
const CASES_A_PART: u64 = 200;

/// The faults, in the order in which they are given.
const NAMES: [&str; 6] = ["31", "1 to 9", "50", "33", "13", "17"];
const FAULTS: usize = NAMES.len();

/// How often each fault was given, and each later one was there too; how often it was there alone stands at itself.
type Counts = [u64; FAULTS * FAULTS];

/// A frame with at least two pointers, so that an edition can allow fewer.
fn scene(rng: &mut Rng) -> Scene {
    loop {
        let scene = bench::scene(rng);
        if plain::pointers(&scene, 0) > 1 {
            return scene;
        }
    }
}

/// An edition that is unknown where 31 is due, doesn't allow the frame where 33 is, and allows too few pointers
/// where 17 is.
fn named(rng: &mut Rng, pointers: u64, due: [bool; FAULTS]) -> Named {
    let [unknown, _, _, other, _, few] = due;
    let (machine, version_3) = match other {
        true => rng.pick(&[(1, true), (0, false), (1, false)]),
        false => (0, true),
    };
    let settings = Settings {
        largest_count: if few { pointers - 1 } else { 256 },
        machine,
        version_1: !version_3 || rng.one_in(2),
        version_3,
    };
    let greatest = 2 + rng.below(4) as u64;
    let number = 1 + rng.below(greatest as usize) as u64;
    Named {
        greatest,
        live: vec![(number, settings)],
        edition: match unknown {
            true => rng.pick(&[0, greatest + 1, number % greatest + 1, number + (1 << 32)]),
            false => number,
        },
    }
}

/// Two of the faults or one alone, all of them equally often, and now and then any.
fn due(rng: &mut Rng) -> [bool; FAULTS] {
    if rng.one_in(4) {
        return [(); FAULTS].map(|()| rng.one_in(2));
    }
    loop {
        let [one, two] = [(); 2].map(|()| rng.below(FAULTS));
        if one <= two {
            return std::array::from_fn(|nth| nth == one || nth == two);
        }
    }
}

fn run(rng: &mut Rng, counts: &mut Counts) {
    let (mut scene, mut due) = (scene(rng), due(rng));
    let named = named(rng, plain::pointers(&scene, 0) as u64, due);
    if due[4] {
        due[4] = aim(rng, 13, &mut scene, 0).is_some();
    }
    let before = scene.clone();
    while due[2] && bench::breach(&scene).is_none() {
        scene = before.clone();
        let way = rng.pick(&Breach::ALL);
        bench::break_by(rng, &mut scene, way);
    }
    let mut built = scene.section.build();
    let mut section = None;
    while due[1] && section.is_none() {
        let number = rng.pick(aimed::numbers(scene.section.version));
        let place = aimed::aim(rng, number, &scene.section, &mut built);
        section = place.map(|place| (number, place as u64));
    }
    let stored = Stored::of(rng, &named);
    let it = Bench {
        scene: &scene,
        bytes: &built.bytes,
        stored: &stored,
        section,
        shared: due[4].then_some(13),
    };
    let first = due.iter().position(|due| *due);
    let expected = match first.map(|first| NAMES[first]) {
        Some("1 to 9") => section.expect("the section's own refusal").0,
        Some(number) => number.parse().expect("a number"),
        None => 0,
    };
    assert_eq!(it.move_both().number, expected, "{due:?}");
    let Some(first) = first else {
        return;
    };
    let later = (first + 1..FAULTS).filter(|nth| due[*nth]);
    let mut alone = true;
    for later in later {
        counts[FAULTS * first + later] += 1;
        alone = false;
    }
    counts[FAULTS * first + first] += u64::from(alone);
}

#[test]
fn the_earliest_is_given() {
    let counts = count_random("orders of refusals", PARTS, CASES_A_PART, run);
    for (first, with) in counts.chunks(FAULTS).enumerate() {
        let name = NAMES[first];
        say(&format!(
            "{name} alone {}, before the later ones {:?}",
            with[first],
            &with[first + 1..]
        ));
        assert_often(&with[first..], |nth| {
            format!("{name} before {}", NAMES[first + nth])
        });
    }
}
