//! Threads over linked sections, by the proved library and by the second implementation: frames whose records
//! stand in one of 1 to 50 maps, in none or in several; maps of version 1 and damaged ones; and all sorts of
//! editions.
//!
//! The library is asked as C asks it, with every number for a machine, and as Rust does. Answers, images and
//! registers are compared; with what the generator knows beforehand; on one map with the call for one section;
//! and, where all frames move, with what is left when each is moved alone by its own map. The random lists
//! follow from a seed. It is printed; `TRESKIBBEN_SEED` sets it.

mod common;

#[path = "common/calls.rs"]
mod calls;
#[path = "linked_thread/moves.rs"]
mod moves;
#[path = "common/under.rs"]
mod under;
#[path = "linked_thread/worked.rs"]
mod worked;

use calls::{Call, Outcome};
use common::{assert_often, count_random, say};
use generator::editions::Settings;
use generator::frames::named::Named;
use generator::frames::{Scene, MOST_POINTERS};
use generator::linked::threads::LinkedThread;
use generator::Rng;
use moves::{frame_by_frame, Linked};
use under::stored::Stored;
use under::Under;

/// Lists in a run, made in parts that each have a source of random numbers.
const PARTS: u64 = 1_000;
const LISTS_A_PART: u64 = 110;

/// The numbers of a thread over a linked section, with acceptance. 9 is where a map ends, and is never given.
const NUMBERS: usize = 34;
const DUE: [usize; 25] = [
    0, 1, 2, 3, 4, 5, 6, 7, 8, 10, 12, 13, 14, 15, 16, 17, 18, 19, 20, 21, 25, 26, 27, 31, 33,
];

/// What else has to occur, so many times.
const LEAST: u64 = 300;
const OTHERS: [&str; 12] = [
    "one map",
    "25 maps or more, accepted",
    "frames moved by several maps",
    "15 by records of several maps",
    "10 where another frame has a record",
    "27 at a later map",
    "27 before 33",
    "33 before 13 or 14",
    "1 to 8 behind a whole map",
    "17 by the edition's count",
    "26 by frames of two maps",
    "refused at a later frame",
];

/// How often each number was the answer; and how often each of the others was seen.
type Counts = [u64; NUMBERS + OTHERS.len()];

/// A store for the frames of a scene, now and then one whose editions are for few pointers, or a damaged one. Most
/// editions are live and allow the frames.
fn store(rng: &mut Rng, scene: &Scene) -> Stored {
    let mut named = Named::any(rng, scene);
    for _ in 0..rng.below(4) {
        if !named.allows(scene) {
            named = Named::any(rng, scene);
        }
    }
    if rng.one_in(12) {
        let few = rng.pick(&[1, 1, 2, 3]);
        let live = named.live.iter_mut();
        live.for_each(|(_, own)| own.largest_count = few);
    }
    match rng.one_in(12) {
        true => Stored::damaged(rng, &named),
        false => Stored::of(rng, &named),
    }
}

/// The settings of the edition that is named, as the generator has them.
fn settings(stored: &Stored) -> Option<Settings> {
    let own = stored.settings()?;
    Some(Settings {
        largest_count: own.largest_count,
        machine: own.machine,
        version_1: own.version_1,
        version_3: own.version_3,
    })
}

/// The same settings with the most pointers.
fn unlimited(own: Settings) -> Settings {
    let largest_count = MOST_POINTERS as u64;
    Settings {
        largest_count,
        ..own
    }
}

/// Moves a random list over a random linked section under a random edition, and compares all that is known of
/// it.
fn run(rng: &mut Rng, counts: &mut Counts) {
    let case = LinkedThread::any(rng);
    let stored = &store(rng, &case.thread.scene);
    let (scene, list) = (&case.thread.scene, case.thread.list());
    let (section, frames) = (&case.linked.bytes, Linked(&list));
    let under = Under { stored, frames };
    let call = Call::with(scene, section, under, case.thread.registers());
    let outcome = call.compare();
    let known = case.answer(settings(stored));
    if let Some(known) = known.filter(|known| (outcome.number, outcome.place) != *known) {
        call.fail(&format!("{outcome:?}, known beforehand {known:?}"));
    }
    if known == Some((0, 0)) {
        let lent = outcome.image == case.thread.moved()
            && outcome.registers == case.thread.moved_registers();
        if outcome.count != case.thread.pointers() || !lent {
            call.fail(&format!("{outcome:?}, worked out otherwise beforehand"));
        }
    }
    as_one_map(&call, &outcome);
    if outcome.number == 0 && rng.one_in(2) {
        let alone = frame_by_frame(&call);
        if alone != outcome {
            call.fail(&format!("{outcome:?}, and frame by frame {alone:?}"));
        }
    }
    counts[outcome.number as usize] += 1;
    if known.is_some() {
        let seen = others(&case, stored, &outcome);
        for (count, seen) in counts[NUMBERS..].iter_mut().zip(seen) {
            *count += u64::from(seen);
        }
    }
}

/// On one map of version 3 the call is that for one section.
fn as_one_map(call: &Call<Under<Linked>>, outcome: &Outcome) {
    if treskibben::check(call.section).is_ok() && call.section[0] == 3 {
        let Under { stored, frames } = call.frames;
        let Linked(frames) = frames;
        let plain = Call {
            section: call.section,
            image: call.image,
            first: call.first,
            olds: call.olds,
            news: call.news,
            machine: call.machine,
            frames: Under { stored, frames },
            registers: call.registers.clone(),
        };
        let plain = plain.by_library();
        if plain != *outcome {
            call.fail(&format!("{outcome:?}, and as one section {plain:?}"));
        }
    }
}

/// Which of the other things a list shows whose answer was known.
fn others(case: &LinkedThread, stored: &Stored, outcome: &Outcome) -> [bool; OTHERS.len()] {
    let (thread, maps) = (&case.thread, &case.linked.maps);
    let Outcome { number, place, .. } = *outcome;
    let address = |stop: &usize| thread.scene.stops[*stop].address;
    let own: Vec<Option<usize>> = match number {
        0 | 10 | 26 => thread
            .order
            .iter()
            .map(|stop| case.map_of(address(stop)))
            .collect(),
        _ => Vec::new(),
    };
    let several = own.iter().flatten().any(|map| own[0] != Some(*map));
    let at_frame = matches!(number, 10 | 12 | 15..=21 | 26);
    let stop = |position: u64| thread.order[position as usize];
    let in_one = |address: u64| {
        let keys = |map| generator::questions::addresses(map).filter(|(_, own)| *own == address);
        maps.iter().any(|map| keys(map).count() > 1)
    };
    let settings = settings(stored);
    let other_machine = settings.is_some_and(|own| own.machine != thread.scene.machine);
    let behind = maps.first().map_or(0, |map| map.length() as u64);
    [
        maps.len() == 1,
        number == 0 && maps.len() >= 25,
        number == 0 && several,
        number == 15 && !in_one(address(&stop(place))),
        number == 10 && own.iter().any(Option::is_some),
        number == 27 && place > 0,
        number == 27 && other_machine,
        number == 33 && case.is_shared_refused(),
        (1..=8).contains(&number) && place >= behind && maps.len() > 1,
        number == 17 && case.answer(settings.map(unlimited)) != Some((17, place)),
        number == 26 && several,
        at_frame && place > 0,
    ]
}

#[test]
fn random_threads() {
    let what = "random threads over linked sections";
    let counts = count_random(what, PARTS, LISTS_A_PART, run);
    let (numbers, others) = counts.split_at(NUMBERS);
    let lists = numbers.iter().sum::<u64>();
    say(&format!("{lists} lists, {} accepted", numbers[0]));
    say(&format!("refused by 1 to 33: {:?}", &numbers[1..]));
    say(&format!("{others:?}"));
    for (number, count) in numbers.iter().enumerate() {
        match DUE.contains(&number) {
            true => assert_often(&[*count], |_| format!("answers {number}")),
            false => assert_eq!(*count, 0, "{number} is no answer of such a thread"),
        }
    }
    for (name, count) in OTHERS.iter().zip(others) {
        assert!(*count >= LEAST, "{name}: only {count} times");
    }
}
