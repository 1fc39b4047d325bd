//! Address indexes by the proved library and by the second implementation: sections in address order,
//! shuffled, with equal addresses and damaged, indexes that are right and ones that are nearly so, and
//! threads that are handed one.
//!
//! Answers and whole lists are compared, also where a call is refused. Where the section is not damaged at
//! random the generator knows both beforehand, and that is compared too. The random cases follow from a
//! seed. It is printed; `TRESKIBBEN_SEED` sets it.

mod common;

#[path = "index/calls.rs"]
mod asked;
#[path = "common/calls.rs"]
mod calls;
#[path = "index/limits.rs"]
mod limits;
#[path = "index/small.rs"]
mod small;
#[path = "index/threads.rs"]
mod threads;

use asked::{Calls, Known};
use common::{assert_often, count_random, say};
use generator::arranged::{self, Order};
use generator::indexes::{self, Change};
use generator::questions::address;
use generator::{case_of, crowded_in, section_in, Case, Rng, Section, Version};

/// Sections in a run, made in parts that each have a source of random numbers.
const PARTS: u64 = 1_000;
const SECTIONS_A_PART: u64 = 400;

/// The numbers of each call, in the order of the papers, with acceptance.
const OF_FILL: [u64; 12] = [1, 2, 3, 4, 5, 6, 7, 8, 9, 27, 24, 0];
const OF_FIND: [u64; 13] = [1, 2, 3, 4, 5, 6, 7, 8, 9, 27, 29, 10, 0];
const OF_ALL: [u64; 13] = [1, 2, 3, 4, 5, 6, 7, 8, 9, 27, 29, 24, 0];

/// How often each number, 0 to 29, was the answer of each call; how often each order of a section, and each
/// change of an index, was 29 and was not; and how often each shape was seen.
const NUMBERS: usize = 30;
const ORDERS: usize = 3 * NUMBERS;
const CHANGES: usize = ORDERS + Order::ALL.len();
const SHAPES: usize = CHANGES + Change::ALL.len();
type Counts = [u64; SHAPES + SEEN.len()];

/// What has to be seen: its name, and whether accepted answers to these addresses show it. An answer has
/// five numbers.
type Shape = (&'static str, fn(&[u64], &[u64], &[u64]) -> bool);

const SEEN: [Shape; 9] = [
    ("no addresses", |_, asked, _| asked.is_empty()),
    ("an address twice", |_, asked, _| {
        (1..asked.len()).any(|nth| asked[..nth].contains(&asked[nth]))
    }),
    ("some found and some not", |_, _, answers| {
        let found = |nth: usize| answers[5 * nth] == 0;
        let count = answers.len() / 5;
        (0..count).any(found) && !(0..count).all(found)
    }),
    ("an address of several records", |_, _, answers| {
        answers.iter().skip(4).step_by(5).any(|own| *own > 2)
    }),
    ("the lowest address", |index, asked, _| {
        index.first().is_some_and(|own| asked.contains(own))
    }),
    ("the highest address", |index, asked, _| {
        let last = index.len().checked_sub(2);
        last.is_some_and(|last| asked.contains(&index[last]))
    }),
    ("address 0, found", |_, asked, answers| {
        let at = asked.iter().position(|own| *own == 0);
        at.is_some_and(|nth| answers[5 * nth] == 0)
    }),
    ("address 2^64 - 1, found", |_, asked, answers| {
        let at = asked.iter().position(|own| *own == u64::MAX);
        at.is_some_and(|nth| answers[5 * nth] == 0)
    }),
    ("a section without records", |index, asked, _| {
        index.is_empty() && !asked.is_empty()
    }),
];

/// A random whole section: by the order of its addresses, where it is made by it.
fn section(rng: &mut Rng) -> (Section, Option<usize>) {
    match rng.below(8) {
        0 => (section_in(rng, Version::One), None),
        1 => (section_in(rng, Version::Three), None),
        2 => (crowded_in(rng, Version::Three), None),
        _ => {
            let nth = rng.below(Order::ALL.len());
            (arranged::section(rng, Order::ALL[nth]), Some(nth))
        }
    }
}

/// A random index of a section, right as often as not, and the number of its change.
fn index(rng: &mut Rng, section: &Section) -> (Vec<u64>, usize) {
    let change = match rng.below(2) {
        0 => rng.below(Change::ALL.len()),
        _ => 0,
    };
    let index = match section.version {
        Version::One => indexes::any(rng, section),
        Version::Three => indexes::changed(rng, section, Change::ALL[change]),
    };
    (index, change)
}

/// Asks all there is to ask of a random section, whole or damaged.
fn ask(rng: &mut Rng, counts: &mut Counts) {
    let (section, order) = section(rng);
    let case = match rng.below(3) {
        0 => case_of(rng, &section),
        _ => Case::known("whole", section.encode(), 0, 0),
    };
    let (index, change) = index(rng, &section);
    let count = rng.pick(&[0, 1, 2, 3, 5, 9]);
    let addresses: Vec<u64> = (0..count).map(|_| address(rng, &section)).collect();
    let calls = Calls {
        case: &case,
        known: Known::of(&case, &section, &index),
        index: &index,
        addresses: &addresses,
    };
    let filled = calls.fill(room(rng, 2 * section.records.len()));
    counts[filled as usize] += 1;
    for address in addresses.iter().take(2) {
        counts[NUMBERS + calls.find(*address) as usize] += 1;
    }
    let (number, answers) = calls.find_all(room(rng, 5 * count));
    counts[2 * NUMBERS + number as usize] += 1;
    if case.answer != Some((0, 0)) {
        return;
    }
    counts[CHANGES + change] += u64::from(number == if change == 0 { 0 } else { 29 });
    if let Some(order) = order.filter(|_| number == 0) {
        counts[ORDERS + order] += 1;
    }
    if number == 0 {
        for (count, (_, shows)) in counts[SHAPES..].iter_mut().zip(SEEN) {
            *count += u64::from(shows(&index, &addresses, &answers));
        }
    }
}

/// How many numbers a list has room for that needs so many: mostly enough.
fn room(rng: &mut Rng, needed: usize) -> usize {
    match rng.below(8) {
        0 => needed.saturating_sub(1),
        1 => rng.below(needed + 1),
        2 => needed / 2,
        3 | 4 => needed + rng.below(7),
        _ => needed,
    }
}

#[test]
fn random_indexes() {
    let counts = count_random("random indexes", PARTS, SECTIONS_A_PART, ask);
    let calls = [
        ("filling", &OF_FILL[..]),
        ("one address", &OF_FIND),
        ("many addresses", &OF_ALL),
    ];
    for ((name, due), counts) in calls.iter().zip(counts.chunks(NUMBERS)) {
        let asked: u64 = counts.iter().sum();
        say(&format!("{name}: {asked} calls, {} accepted", counts[0]));
        say(&format!("refused by 1 to 29: {:?}", &counts[1..]));
        for (number, count) in counts.iter().enumerate() {
            let answers = || format!("answers {number} of {name}");
            match due.contains(&(number as u64)) {
                true => assert_often(&[*count], |_| answers()),
                false => assert_eq!(*count, 0, "{}", answers()),
            }
        }
    }
    let (orders, changes) = (&counts[ORDERS..CHANGES], &counts[CHANGES..SHAPES]);
    say(&format!("orders {orders:?}, changes {changes:?}"));
    assert_often(orders, |nth| format!("{:?}", Order::ALL[nth]));
    assert_often(changes, |nth| format!("{:?}", Change::ALL[nth]));
    say(&format!("shapes: {:?}", &counts[SHAPES..]));
    assert_often(&counts[SHAPES..], |nth| SEEN[nth].0.to_string());
}
