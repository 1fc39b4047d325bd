//! The sequences against the second implementation: its store and its plain history answer every
//! call alike, and as is known, and every refusal is met often enough.

use super::{of_length, sequence, Answer, Call, Kind, Sequence, Settings, LAST, PLACES};
use crate::Rng;
use reference::editions::{Edition, Settings as Set, Store};
use reference::history::History;
use reference::Refusal;
use std::collections::BTreeMap;

/// How many calls a run has to make, and how often it has to meet each refusal.
const CALLS: u64 = 100_000;
const OFTEN: u64 = 1_000;

/// The settings as the second implementation has them.
fn set(settings: Settings) -> Set {
    Set {
        largest_count: settings.largest_count,
        machine: settings.machine,
        version_1: settings.version_1,
        version_3: settings.version_3,
    }
}

/// The store that a sequence begins on.
pub(super) fn start(sequence: &Sequence) -> Store {
    let live = sequence.live.iter().map(|(number, settings)| Edition {
        number: *number,
        settings: set(*settings),
    });
    let live: Vec<Edition> = live.collect();
    Store::set_up(sequence.greatest, &live).expect("calls leave such a store")
}

fn made(answer: Result<u64, Refusal>) -> Answer {
    answer.map_or_else(refused, Answer::Made)
}

fn retired(answer: Result<(), Refusal>) -> Answer {
    answer.map_or_else(refused, |()| Answer::Retired)
}

fn read(answer: Result<Set, Refusal>) -> Answer {
    let settings = |own: Set| Settings {
        largest_count: own.largest_count,
        machine: own.machine,
        version_1: own.version_1,
        version_3: own.version_3,
    };
    answer.map_or_else(refused, |own| Answer::Read(settings(own)))
}

fn refused(refusal: Refusal) -> Answer {
    assert_eq!(refusal.place, 0);
    Answer::Refused(refusal.number)
}

/// What the store answers.
pub(super) fn of_store(store: &mut Store, call: Call) -> Answer {
    match call {
        Call::Make(settings) => made(store.make(set(settings))),
        Call::Retire(number) => retired(store.retire(number)),
        Call::Read(number) => read(store.read(number)),
    }
}

/// What the history answers.
fn of_history(history: &mut History, call: Call) -> Answer {
    match call {
        Call::Make(settings) => made(history.make(set(settings))),
        Call::Retire(number) => retired(history.retire(number)),
        Call::Read(number) => read(history.read(number)),
    }
}

/// Whether a call with this answer changes something.
fn changes(answer: Answer) -> bool {
    matches!(answer, Answer::Made(_) | Answer::Retired)
}

/// How often something was met.
type Counts = BTreeMap<&'static str, u64>;

/// The answer's name, and that of the store on which it was given where both matter.
fn note(counts: &mut Counts, store: &Store, answer: Answer) {
    let full = store.editions().len() == PLACES;
    let used_up = store.greatest() == LAST;
    let names = match answer {
        Answer::Made(LAST) => ["made", "made: the last number"],
        Answer::Made(_) if store.editions().len() == PLACES - 1 => ["made", "made: the last place"],
        Answer::Made(_) => ["made", "made: others"],
        Answer::Retired if full => ["retired", "retired: of a full store"],
        Answer::Retired => ["retired", "retired: others"],
        Answer::Read(_) => ["read", "read: all"],
        Answer::Refused(30) => ["30", "30: all"],
        Answer::Refused(31) => ["31", "31: all"],
        Answer::Refused(32) if full => ["32", "32: 30 holds too"],
        Answer::Refused(32) => ["32", "32: others"],
        Answer::Refused(51) if used_up && full => ["51", "51: 32 and 30 hold too"],
        Answer::Refused(51) if used_up => ["51", "51: 32 holds too"],
        Answer::Refused(51) if full => ["51", "51: 30 holds too"],
        Answer::Refused(51) => ["51", "51: others"],
        Answer::Refused(number) => panic!("{number} is no refusal of these calls"),
    };
    for name in names {
        *counts.entry(name).or_default() += 1;
    }
}

/// Answers a whole sequence by the store and by the history.
fn run(sequence: &Sequence, counts: &mut Counts) {
    let mut store = start(sequence);
    let mut history = History::that_leaves(&store);
    for (nth, &(call, known)) in sequence.calls.iter().enumerate() {
        let (before, events) = (store.clone(), history.events().len());
        let answer = of_store(&mut store, call);
        let at = || format!("call {nth}, {call:?}, of {sequence:?}");
        assert_eq!(answer, of_history(&mut history, call), "{}", at());
        assert_eq!(answer, known, "{}", at());
        assert!(changes(answer) != (store == before), "{}", at());
        let added = usize::from(changes(answer));
        assert_eq!(history.events().len(), events + added, "{}", at());
        note(counts, &before, answer);
    }
    assert_eq!(store.editions(), history.editions());
    assert_eq!(store.greatest(), history.greatest());
}

#[test]
fn store_and_history_answer_100_000_calls_alike() {
    let mut rng = Rng::new(9);
    let (mut calls, mut counts) = (0, Counts::new());
    while calls < CALLS {
        let sequence = sequence(&mut rng);
        run(&sequence, &mut counts);
        calls += sequence.calls.len() as u64;
    }
    println!("{calls} calls: {counts:?}");
    for name in ["made", "retired", "read", "30", "31", "32", "51"] {
        assert!(counts[name] >= OFTEN, "{name}: {}", counts[name]);
    }
    for (name, least) in [
        ("made: the last number", 20),
        ("made: the last place", 500),
        ("retired: of a full store", 500),
        ("32: 30 holds too", 500),
        ("32: others", 500),
        ("51: 32 and 30 hold too", 100),
        ("51: 32 holds too", 100),
        ("51: 30 holds too", 100),
        ("51: others", 500),
    ] {
        assert!(counts[name] >= least, "{name}: {}", counts[name]);
    }
}

/// Longer than the history could be asked in a short time: the store gives the known answers.
#[test]
fn the_store_answers_a_long_sequence_as_is_known() {
    for kind in Kind::ALL {
        let sequence = of_length(&mut Rng::new(1), kind, 20_000);
        let mut store = start(&sequence);
        for (nth, (call, known)) in sequence.calls.into_iter().enumerate() {
            assert_eq!(of_store(&mut store, call), known, "{kind:?}, call {nth}");
        }
    }
}
