//! Random sequences of calls on a store of editions, each call on the store that the last one left,
//! and what each is answered: from an empty store and from one with a long past, on full stores,
//! with editions retired and made again, unknown and retired numbers, and settings at their limits
//! and past them. Everything is made from a seed.

mod past;
mod settings;

#[cfg(test)]
mod tests;
#[cfg(test)]
mod tests_shapes;

pub use settings::Settings;

use crate::rng::Rng;
use past::Past;

/// How many editions a store holds at a time.
pub const PLACES: usize = 64;

/// The last number that an edition can have.
pub const LAST: u64 = u32::MAX as u64;

/// A call on a store.
#[derive(Clone, Copy, Debug, PartialEq, Eq)]
pub enum Call {
    Make(Settings),
    Retire(u64),
    Read(u64),
}

/// What a call is answered. The place of every refusal is 0.
#[derive(Clone, Copy, Debug, PartialEq, Eq)]
pub enum Answer {
    /// The refusal of this number.
    Refused(u64),
    /// The edition of this number was made.
    Made(u64),
    Retired,
    Read(Settings),
}

/// What kind of sequence is made.
#[derive(Clone, Copy, Debug, PartialEq, Eq)]
pub enum Kind {
    /// From an empty store: calls of all sorts.
    Young,
    /// From an empty store that is filled first and then is often full.
    Full,
    /// From an empty store that is filled and emptied by turns.
    Tides,
    /// From an empty store that holds few editions, most of them retired soon.
    Turning,
    /// From a store whose greatest number is close to the last.
    Late,
    /// From a store whose greatest number is the last, often full and for some calls left so.
    Last,
}

impl Kind {
    /// All of them.
    pub const ALL: [Kind; 6] = [
        Kind::Young,
        Kind::Full,
        Kind::Tides,
        Kind::Turning,
        Kind::Late,
        Kind::Last,
    ];

    /// How often each sort of call is made at this place of a sequence, in the order of [`Sort`].
    fn weights(self, nth: usize) -> [usize; 6] {
        match self {
            Kind::Young => [4, 1, 2, 1, 2, 1],
            Kind::Full if nth < PLACES => [1, 0, 0, 0, 0, 0],
            Kind::Full => [8, 2, 2, 1, 2, 1],
            Kind::Tides if (nth / 96).is_multiple_of(2) => [12, 1, 0, 1, 1, 1],
            Kind::Tides => [0, 1, 12, 1, 1, 1],
            Kind::Turning => [6, 1, 6, 2, 1, 2],
            Kind::Late => [9, 2, 1, 1, 2, 1],
            Kind::Last if nth < 100 => [6, 3, 0, 1, 2, 1],
            Kind::Last => [6, 3, 1, 1, 2, 1],
        }
    }
}

/// A sort of call.
#[derive(Clone, Copy)]
enum Sort {
    MakeRight,
    MakeWrong,
    RetireLive,
    RetireOther,
    ReadLive,
    ReadOther,
}

impl Sort {
    const ALL: [Sort; 6] = [
        Sort::MakeRight,
        Sort::MakeWrong,
        Sort::RetireLive,
        Sort::RetireOther,
        Sort::ReadLive,
        Sort::ReadOther,
    ];
}

/// A sequence of calls with their answers, and the store that it begins on.
#[derive(Clone, Debug, PartialEq, Eq)]
pub struct Sequence {
    pub kind: Kind,
    /// The greatest number ever used before the first call, 0 for an empty store.
    pub greatest: u64,
    /// The editions that are live before the first call, none for an empty store: different numbers
    /// up to the greatest, in any order, such that some calls leave such a store.
    pub live: Vec<(u64, Settings)>,
    pub calls: Vec<(Call, Answer)>,
}

/// A random sequence of up to 600 calls.
pub fn sequence(rng: &mut Rng) -> Sequence {
    let kind = rng.pick(&Kind::ALL);
    let length = rng.below(601);
    of_length(rng, kind, length)
}

/// A random sequence of this kind with so many calls.
pub fn of_length(rng: &mut Rng, kind: Kind, length: usize) -> Sequence {
    let late = late(rng);
    let mut past = match kind {
        Kind::Late => Past::long(rng, late),
        Kind::Last => Past::long(rng, LAST),
        _ => Past::empty(),
    };
    let (greatest, live) = (past.greatest, past.live.clone());
    let mut calls = Vec::with_capacity(length);
    for nth in 0..length {
        let call = call(rng, &past, kind.weights(nth));
        calls.push((call, past.answer(call)));
    }
    Sequence {
        kind,
        greatest,
        live,
        calls,
    }
}

/// A number up to 90 before the last, often the last or nearly so.
fn late(rng: &mut Rng) -> u64 {
    let any = rng.below(91) as u64;
    LAST - rng.pick(&[any, any, 0, 1, 2])
}

/// A random call of some sort.
fn call(rng: &mut Rng, past: &Past, weights: [usize; 6]) -> Call {
    match sort(rng, weights) {
        Sort::MakeRight => Call::Make(settings::right(rng)),
        Sort::MakeWrong => Call::Make(settings::wrong(rng)),
        Sort::RetireLive => Call::Retire(past.one_of_live(rng)),
        Sort::RetireOther => Call::Retire(past.other(rng)),
        Sort::ReadLive => Call::Read(past.one_of_live(rng)),
        Sort::ReadOther => Call::Read(past.other(rng)),
    }
}

/// A sort of call, as often as the weights say, which are not all 0.
fn sort(rng: &mut Rng, weights: [usize; 6]) -> Sort {
    let mut left = rng.below(weights.iter().sum());
    for (sort, weight) in Sort::ALL.into_iter().zip(weights) {
        if left < weight {
            return sort;
        }
        left -= weight;
    }
    unreachable!("a number below the sum of the weights falls to one of them")
}
