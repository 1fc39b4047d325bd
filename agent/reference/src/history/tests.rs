//! The history by itself, and against the store on every short sequence of
//! calls.

use super::*;
use crate::fixtures::refusal;

fn counting(largest_count: u64) -> Settings {
    Settings {
        largest_count,
        machine: 1,
        version_1: true,
        version_3: false,
    }
}

fn edition(number: u64, largest_count: u64) -> Edition {
    let settings = counting(largest_count);
    Edition { number, settings }
}

/// A call of a short sequence.
#[derive(Clone, Copy, Debug)]
enum Call {
    Make(u64),
    Retire(u64),
    Read(u64),
}

/// What a call is answered: the refusal, or an edition's number or count.
type Answer = Result<u64, Refusal>;

fn of_store(store: &mut Store, call: Call) -> Answer {
    match call {
        Call::Make(count) => store.make(counting(count)),
        Call::Retire(number) => store.retire(number).map(|()| 0),
        Call::Read(number) => store.read(number).map(|own| own.largest_count),
    }
}

fn of_history(history: &mut History, call: Call) -> Answer {
    match call {
        Call::Make(count) => history.make(counting(count)),
        Call::Retire(number) => history.retire(number).map(|()| 0),
        Call::Read(number) => history.read(number).map(|own| own.largest_count),
    }
}

#[test]
fn each_accepted_change_adds_one_event_and_nothing_is_taken() {
    let mut history = History::empty();
    assert_eq!(history.make(counting(3)), Ok(1));
    assert_eq!(history.make(counting(4)), Ok(2));
    assert_eq!(history.retire(1), Ok(()));
    assert_eq!(history.make(counting(5)), Ok(3));
    assert_eq!(history.retire(1), refusal(31, 0));
    assert_eq!(history.make(counting(257)), refusal(51, 0));
    assert_eq!(history.read(1), refusal(31, 0));
    assert_eq!(history.read(2), Ok(counting(4)));
    let events = [
        Event::Made(edition(1, 3)),
        Event::Made(edition(2, 4)),
        Event::Retired(1),
        Event::Made(edition(3, 5)),
    ];
    assert_eq!(history.events(), events);
    assert_eq!(history.editions(), [edition(2, 4), edition(3, 5)]);
    assert_eq!(history.greatest(), 3);
}

#[test]
fn a_history_that_leaves_a_store_has_its_editions_and_its_greatest() {
    for (greatest, live) in [
        (0, vec![]),
        (9, vec![]),
        (9, vec![edition(9, 1)]),
        (LAST, vec![edition(2, 8), edition(LAST - 1, 256)]),
        (
            LAST,
            (LAST - 63..=LAST).map(|own| edition(own, 2)).collect(),
        ),
    ] {
        let store = Store::set_up(greatest, &live).unwrap();
        let history = History::that_leaves(&store);
        assert_eq!(history.editions(), live);
        assert_eq!(history.greatest(), greatest);
    }
    let nothing = History::that_leaves(&Store::empty());
    assert_eq!(nothing, History::empty());
}

/// Answers all sequences of so many more calls, each on what the last one left,
/// and gives how many were answered.
fn alike(store: &Store, history: &History, calls: &[Call], more: usize) -> u64 {
    assert_eq!(store.editions(), history.editions());
    assert_eq!(store.greatest(), history.greatest());
    if more == 0 {
        return 1;
    }
    let mut answered = 0;
    for &call in calls {
        let (mut left, mut longer) = (store.clone(), history.clone());
        let answer = of_store(&mut left, call);
        assert_eq!(
            answer,
            of_history(&mut longer, call),
            "{call:?}: {history:?}"
        );
        assert!(answer.is_ok() || (&left, &longer) == (store, history));
        answered += alike(&left, &longer, calls, more - 1);
    }
    answered
}

/// Every sequence of six calls out of seven.
fn every_short_sequence(store: &Store, numbers: [u64; 3]) {
    let [one, two, none] = numbers;
    let calls = [
        Call::Make(8),
        Call::Make(0),
        Call::Retire(one),
        Call::Retire(two),
        Call::Read(one),
        Call::Read(two),
        Call::Read(none),
    ];
    let history = History::that_leaves(store);
    assert_eq!(alike(store, &history, &calls, 6), 7u64.pow(6));
}

#[test]
fn every_short_sequence_on_the_empty_store_is_answered_alike() {
    every_short_sequence(&Store::empty(), [1, 2, 0]);
}

#[test]
fn every_short_sequence_before_the_last_number_is_answered_alike() {
    let store = Store::set_up(LAST - 1, &[edition(5, 5)]).unwrap();
    every_short_sequence(&store, [5, LAST, LAST + 1]);
}

/// Full, with one number left.
#[test]
fn every_short_sequence_on_a_full_store_is_answered_alike() {
    let live: Vec<Edition> = (LAST - 64..LAST).map(|own| edition(own, 7)).collect();
    let store = Store::set_up(LAST - 1, &live).unwrap();
    every_short_sequence(&store, [LAST - 1, LAST, LAST - 65]);
}
