//! The calls with all their numbers, against the second implementation, its plain history and what the
//! generator knows; stores that no calls leave; and the bytes of a store, damaged one by one.

use super::ffi::{self, Place, Settings, Store};
use super::{Damage, Editions};
use generator::editions::{self as made, of_length, sequence, Answer, Call, Kind, Sequence};
use generator::Rng;
use reference::editions::{self as second, Edition};
use reference::history::History;
use std::collections::BTreeMap;

mod damaged;

/// How many calls a run makes, and how often it has to meet each answer.
const CALLS: u64 = 100_000;
const OFTEN: u64 = 1_000;

const LEAST: [(&str, u64); 12] = [
    ("made", OFTEN),
    ("made: past 64", OFTEN),
    ("made: the last number", 20),
    ("retired", OFTEN),
    ("retired: of a full store", 500),
    ("read", OFTEN),
    ("30", OFTEN),
    ("31", OFTEN),
    ("32", OFTEN),
    ("32: 30 holds too", 500),
    ("51", OFTEN),
    ("51: 30 holds too", 100),
];

/// The settings as the library has them.
fn numbers(settings: made::Settings) -> Settings {
    Settings {
        most: settings.largest_count,
        machine: settings.machine,
        version_1: settings.version_1.into(),
        version_3: settings.version_3.into(),
    }
}

/// The settings as the second implementation has them.
fn as_second(settings: made::Settings) -> second::Settings {
    second::Settings {
        largest_count: settings.largest_count,
        machine: settings.machine,
        version_1: settings.version_1,
        version_3: settings.version_3,
    }
}

/// The settings as the generator has them.
fn as_made(settings: Settings) -> made::Settings {
    assert!(settings.version_1 <= 1 && settings.version_3 <= 1);
    made::Settings {
        largest_count: settings.most,
        machine: settings.machine,
        version_1: settings.version_1 == 1,
        version_3: settings.version_3 == 1,
    }
}

/// The store that a sequence begins on, its editions in any places.
fn start(rng: &mut Rng, sequence: &Sequence) -> Store {
    let mut store = ffi::empty();
    store.greatest = sequence.greatest;
    for &(number, settings) in &sequence.live {
        let settings = numbers(settings);
        let free = |store: &Store, nth: usize| store.places[nth].number == 0;
        let nth = loop {
            let nth = rng.below(ffi::PLACES);
            if free(&store, nth) {
                break nth;
            }
        };
        store.places[nth] = Place { number, settings };
    }
    store
}

/// The same as the second implementation has it.
fn start_of_second(sequence: &Sequence) -> second::Store {
    let live = sequence.live.iter().map(|&(number, settings)| Edition {
        number,
        settings: as_second(settings),
    });
    let live: Vec<Edition> = live.collect();
    second::Store::set_up(sequence.greatest, &live).expect("calls leave such a store")
}

/// What the library answers, and the store that it leaves. Of a refused answer all but the store is 0.
fn of_library(store: &Store, call: Call) -> (Answer, Store) {
    let place = |verdict: &crate::ffi::Verdict| match verdict.accepted() {
        Ok(()) => None,
        Err(refusal) => {
            assert_eq!(refusal.place(), 0, "{call:?}");
            Some(Answer::Refused(refusal.number()))
        }
    };
    match call {
        Call::Make(settings) => {
            let made = ffi::make(store, numbers(settings));
            let refused = place(&made.verdict);
            assert!(refused.is_none() || made.edition == 0, "{call:?}");
            (refused.unwrap_or(Answer::Made(made.edition)), made.store)
        }
        Call::Retire(number) => {
            let retired = ffi::retire(store, number);
            let answer = place(&retired.verdict).unwrap_or(Answer::Retired);
            (answer, retired.store)
        }
        Call::Read(number) => {
            let read = ffi::read(store, number);
            let refused = place(&read.verdict);
            assert!(refused.is_none() || read.settings == Settings::default());
            let answer = refused.unwrap_or_else(|| Answer::Read(as_made(read.settings)));
            (answer, store.clone())
        }
    }
}

fn refused(refusal: reference::Refusal) -> Answer {
    assert_eq!(refusal.place, 0);
    Answer::Refused(refusal.number)
}

fn has(settings: second::Settings) -> Answer {
    Answer::Read(made::Settings {
        largest_count: settings.largest_count,
        machine: settings.machine,
        version_1: settings.version_1,
        version_3: settings.version_3,
    })
}

/// What the second implementation answers.
fn of_second(store: &mut second::Store, call: Call) -> Answer {
    match call {
        Call::Make(settings) => store
            .make(as_second(settings))
            .map_or_else(refused, Answer::Made),
        Call::Retire(number) => store
            .retire(number)
            .map_or_else(refused, |()| Answer::Retired),
        Call::Read(number) => store.read(number).map_or_else(refused, has),
    }
}

/// What its plain history answers.
fn of_history(history: &mut History, call: Call) -> Answer {
    match call {
        Call::Make(settings) => history
            .make(as_second(settings))
            .map_or_else(refused, Answer::Made),
        Call::Retire(number) => history
            .retire(number)
            .map_or_else(refused, |()| Answer::Retired),
        Call::Read(number) => history.read(number).map_or_else(refused, has),
    }
}

/// The live editions of a store, in the order of their numbers. A free place is all zeros.
fn live(store: &Store) -> Vec<Edition> {
    let taken = store.places.iter().filter(|place| place.number != 0);
    let mut live: Vec<Edition> = taken
        .map(|place| Edition {
            number: place.number,
            settings: as_second(as_made(place.settings)),
        })
        .collect();
    live.sort_by_key(|own| own.number);
    let free = store.places.iter().filter(|place| place.number == 0);
    assert!(free.into_iter().all(|place| *place == Place::default()));
    live
}

/// The name under which an answer is counted.
fn name(store: &Store, answer: Answer) -> &'static str {
    let full = store.places.iter().all(|place| place.number != 0);
    match answer {
        Answer::Made(made::LAST) => "made: the last number",
        Answer::Made(number) if number > ffi::PLACES as u64 => "made: past 64",
        Answer::Made(_) => "made",
        Answer::Retired if full => "retired: of a full store",
        Answer::Retired => "retired",
        Answer::Read(_) => "read",
        Answer::Refused(30) => "30",
        Answer::Refused(31) => "31",
        Answer::Refused(32) if full => "32: 30 holds too",
        Answer::Refused(32) => "32",
        Answer::Refused(51) if full => "51: 30 holds too",
        Answer::Refused(51) => "51",
        Answer::Refused(number) => panic!("{number} is no refusal of these calls"),
    }
}

#[test]
fn library_second_implementation_and_history_answer_100_000_calls_alike() {
    let mut rng = Rng::new(23);
    let (mut calls, mut counts) = (0, BTreeMap::<&str, u64>::new());
    while calls < CALLS {
        let sequence = sequence(&mut rng);
        let mut store = start(&mut rng, &sequence);
        let mut second = start_of_second(&sequence);
        let mut history = History::that_leaves(&second);
        for (nth, &(call, known)) in sequence.calls.iter().enumerate() {
            let (answer, after) = of_library(&store, call);
            let at = || format!("call {nth}, {call:?}, of {sequence:?}");
            assert_eq!(answer, known, "{}", at());
            assert_eq!(answer, of_second(&mut second, call), "{}", at());
            assert_eq!(answer, of_history(&mut history, call), "{}", at());
            let changes = matches!(answer, Answer::Made(_) | Answer::Retired);
            assert!(changes || after == store, "{}", at());
            *counts.entry(name(&store, answer)).or_default() += 1;
            store = after;
            assert_eq!(store.greatest, second.greatest(), "{}", at());
            assert_eq!(live(&store), second.editions(), "{}", at());
        }
        calls += sequence.calls.len() as u64;
    }
    println!("{calls} calls: {counts:?}");
    for (name, least) in LEAST {
        let count = counts.get(name).copied().unwrap_or(0);
        assert!(count >= least, "{name}: {count}");
    }
}

/// Longer sequences than the history could be asked in a short time, by what the generator knows.
#[test]
fn long_sequences_are_answered_as_is_known() {
    for kind in Kind::ALL {
        let mut rng = Rng::new(24);
        let sequence = of_length(&mut rng, kind, 20_000);
        let mut store = start(&mut rng, &sequence);
        for (nth, (call, known)) in sequence.calls.into_iter().enumerate() {
            let (answer, after) = of_library(&store, call);
            assert_eq!(answer, known, "{kind:?}, call {nth}");
            store = after;
        }
    }
}

/// What the second implementation can't be asked: a version's number that is neither 0 nor 1.
#[test]
fn version_numbers_above_1_are_51() {
    let mut rng = Rng::new(25);
    let store = ffi::empty();
    for _ in 0..10_000 {
        let wrong = 2 + rng.number(64) % (u64::MAX - 1);
        let other = rng.pick(&[0, 1, wrong]);
        let (version_1, version_3) = rng.pick(&[(wrong, other), (other, wrong)]);
        let settings = Settings {
            most: 1 + rng.below(256) as u64,
            machine: rng.below(2) as u64,
            version_1,
            version_3,
        };
        let made = ffi::make(&store, settings);
        let refusal = made.verdict.accepted().unwrap_err();
        assert_eq!((refusal.number(), refusal.place()), (51, 0), "{settings:?}");
        assert!(made.edition == 0 && made.store == store, "{settings:?}");
    }
}
