//! Indexes of sections of the largest length, and calls with little stack.

use crate::asked::{Calls, Known};
use crate::common::{say, seed};
use generator::arranged::{largest, Order};
use generator::indexes::right;
use generator::{Case, Rng, Section};
use treskibben::{Frame, Index, Machine, MoveTable};

/// The orders, each with a number of functions.
const SECTIONS: [(Order, usize); 7] = [
    (Order::Rising, 1),
    (Order::Level, 1_000),
    (Order::Falling, 10_000),
    (Order::OneOff, 100),
    (Order::Shuffled, 1),
    (Order::Repeated, 300_000),
    (Order::Equal, 1),
];

fn sections() -> impl Iterator<Item = Section> {
    let mut rng = Rng::new(seed("indexes of the largest sections"));
    SECTIONS
        .into_iter()
        .map(move |(order, functions)| largest(&mut rng, order, functions))
}

#[test]
fn indexes_of_the_largest_sections() {
    let mut rng = Rng::new(3);
    for section in sections() {
        let index = right(&section);
        let entries = index.len();
        let own = |nth: usize| index[2 * nth];
        let mut addresses = vec![0, own(0), own(entries / 2 - 1), u64::MAX];
        addresses.extend((0..16).map(|_| own(rng.below(entries / 2)) + rng.pick(&[0, 0, 1])));
        let case = Case::known("largest", section.encode(), 0, 0);
        let ask = |index: &[u64], fills: bool| {
            let calls = Calls {
                case: &case,
                known: Known::of(&case, &section, index),
                index,
                addresses: &addresses,
            };
            if fills {
                assert_eq!((calls.fill(entries - 1), calls.fill(entries + 3)), (24, 0));
            }
            calls.find_all(5 * addresses.len()).0
        };
        assert_eq!(ask(&index, true), 0);
        let longer = [&index[..], &[0]].concat();
        for other in [&index[..entries - 1], &index[..entries - 2], &longer] {
            assert_eq!(ask(other, false), 29);
        }
        for at in [0, 1, entries / 2, entries - 2, entries - 1] {
            let mut changed = index.clone();
            changed[at] = changed[at].wrapping_add(1);
            assert_eq!(ask(&changed, false), 29, "{at}");
        }
    }
    let count = SECTIONS.len();
    say(&format!("{count} sections of the largest length"));
}

/// The answers to 100,000 addresses in one call are those of the plain walk of the index that the
/// generator knows.
#[test]
fn many_addresses_on_the_largest_section() {
    let mut rng = Rng::new(4);
    let section = largest(&mut rng, Order::Shuffled, 1_000);
    let (bytes, entries) = (section.encode(), right(&section));
    let (pairs, _) = entries.as_chunks::<2>();
    let asked: Vec<[u64; 2]> = (0..100_000)
        .map(|nth| pairs[nth * (pairs.len() / 100_000)])
        .collect();
    let addresses: Vec<u64> = asked.iter().map(|own| own[0]).collect();
    let answers = Index::of(&bytes).and_then(|index| index.find_all(&addresses));
    let answers = answers.expect("the index is right");
    assert_eq!(answers.len(), addresses.len());
    for (answer, [_, number]) in answers.iter().zip(&asked) {
        assert_eq!(
            answer.map(|own| (own.record, own.sharing)),
            Some((*number, 1))
        );
    }
}

/// The calls need little stack, however many records there are: none is sorted or searched by calls in
/// calls.
#[test]
fn indexes_with_little_stack() {
    const LITTLE: usize = 64 * 1024;
    const OF_THREAD: usize = 280 * 1024;
    let with = |stack: usize, run: Box<dyn FnOnce() -> usize + Send>| {
        let little = std::thread::Builder::new().stack_size(stack).spawn(run);
        little.expect("a thread").join().expect("no panic")
    };
    let mut rng = Rng::new(5);
    for order in [Order::Shuffled, Order::Falling, Order::Equal] {
        let section = largest(&mut rng, order, 100);
        let (bytes, entries) = (section.encode(), right(&section));
        let (copy, length) = (bytes.clone(), entries.len());
        let mut list = vec![0; length];
        let fill = move || treskibben::fill_index(&copy, &mut list).expect("it fits");
        assert_eq!(with(LITTLE, Box::new(fill)), length);
        let (copy, index) = (bytes.clone(), entries.clone());
        let find = move || {
            let index = Index::from_entries(&copy, index);
            let found = index
                .find_all(&[index.entries()[0], 1])
                .expect("it is right");
            found.iter().flatten().count()
        };
        assert_eq!(with(LITTLE, Box::new(find)), 1);
        let moved = move || {
            let index = Index::from_entries(&bytes, entries);
            let frames = vec![Frame::new(1); 4_096];
            let (table, registers) = (MoveTable::default(), &mut vec![0; 32 * 4_096]);
            let machine = Machine::Amd64;
            let moved = index.relocate_thread(&mut [], 0, table, machine, &frames, registers);
            moved.expect_err("no record is at 1").number() as usize
        };
        assert_eq!(with(OF_THREAD, Box::new(moved)), 10);
    }
}
