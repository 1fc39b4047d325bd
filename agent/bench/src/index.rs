//! The address index: filled on sections in address order, falling and shuffled; tested by the calls that are handed one;
//! many addresses in one call; and threads with an index and without.

use crate::measure::{measure, ratio, say, table, Row};
use crate::section::{self, Numbers};
use crate::thread::{List, Stack};
use std::hint::black_box;
use treskibben::Index;

const CHECK: &str = "treskibben check";
const FILL: &str = "index filled";
const FIND: &str = "question by address";
const BY_INDEX: &str = "question by address through an index";
const MANY: &str = "100,000 addresses in one call";
const ONE: &str = "thread of one frame";
const ONE_BY_INDEX: &str = "thread of one frame, with an index";
const ALL: &str = "thread of 4,096 frames";
const ALL_BY_INDEX: &str = "thread of 4,096 frames, with an index";

/// The ratios to reach to the check of the same section.
const MOST_IN_ORDER: f64 = 3.0;
const MOST_SHUFFLED: f64 = 20.0;
const MOST_BY_INDEX: f64 = 1.8;
const MOST_FOR_ONE: f64 = 1.1;
const MOST_FOR_ALL: f64 = 2.0;

/// Addresses of one call, the checks that the call may take, and the microseconds beside them for each address.
const ADDRESSES: usize = 100_000;
const MOST_CHECKS: f64 = 4.0;
const MOST_EACH: f64 = 0.5;

/// In which order the addresses of the records lie.
#[derive(Clone, Copy, PartialEq)]
enum Order {
    Rising,
    Falling,
    Shuffled,
}

/// Sections of long and of short records, in each order.
pub fn rows(rounds: usize, limit: usize) {
    let sections = [
        ("the large section", section::build(limit)),
        (
            "the section of short records",
            section::short_records(limit, 4_096),
        ),
    ];
    for (name, bytes) in &sections {
        on(
            rounds,
            &format!("{name}, in address order"),
            bytes,
            Order::Rising,
        );
        on(
            rounds,
            &format!("{name}, falling"),
            &placed(bytes, Order::Falling),
            Order::Falling,
        );
        on(
            rounds,
            &format!("{name}, shuffled"),
            &placed(bytes, Order::Shuffled),
            Order::Shuffled,
        );
    }
}

/// The same section with other addresses: all functions at one, and the records 16 bytes apart in this order.
fn placed(bytes: &[u8], order: Order) -> Vec<u8> {
    let Ok(read) = reference::section::read(bytes) else {
        panic!("the second implementation refuses the section")
    };
    let count = read.records.len() as u32;
    let mut places: Vec<u32> = (0..count).collect();
    if order == Order::Falling {
        places.reverse();
    }
    if order == Order::Shuffled {
        let mut numbers = Numbers(7);
        for last in (1..places.len()).rev() {
            places.swap(last, numbers.below(last as u64 + 1) as usize);
        }
    }
    let mut bytes = bytes.to_vec();
    for nth in 0..read.functions.len() {
        bytes[16 + 24 * nth..][..8].copy_from_slice(&0x40_0000_u64.to_le_bytes());
    }
    for (record, place) in read.records.iter().zip(places) {
        bytes[record.first + 8..][..4].copy_from_slice(&(16 * place).to_le_bytes());
    }
    bytes
}

/// Addresses of records all over the section, in no order.
fn addresses(entries: &[u64]) -> Vec<u64> {
    let mut numbers = Numbers(11);
    let records = entries.len() as u64 / 2;
    (0..ADDRESSES)
        .map(|_| entries[2 * numbers.below(records) as usize])
        .collect()
}

/// An index that is the right one, by both implementations, and its answers are those without it.
fn agree<'a>(name: &str, bytes: &'a [u8]) -> Index<'a> {
    let index = Index::of(bytes).unwrap_or_else(|refusal| panic!("{name}: {refusal}"));
    let mut second = vec![0; index.entries().len()];
    assert_eq!(
        reference::fill_index(bytes, &mut second),
        Ok(second.len() as u64),
        "{name}"
    );
    assert!(second == index.entries(), "{name}: the two indexes differ");
    for address in [second[0], second[0] + 1, second[second.len() - 2]] {
        assert_eq!(
            index.find(address),
            treskibben::find(bytes, address),
            "{name}"
        );
    }
    index
}

fn on(rounds: usize, name: &str, bytes: &[u8], order: Order) {
    let Ok(read) = reference::section::read(bytes) else {
        panic!("the second implementation refuses {name}")
    };
    let index = agree(name, bytes);
    println!(
        "\n{name}: {} bytes, {} records",
        bytes.len(),
        read.records.len()
    );
    let rows = measured(rounds, bytes, &index, &Stack::new(&read));
    println!("\n{}", table(&rows, &[CHECK]));
    let most = if order == Order::Rising {
        MOST_IN_ORDER
    } else {
        MOST_SHUFFLED
    };
    say(&rows, FILL, CHECK, "the check", most);
    if order == Order::Rising {
        say(&rows, BY_INDEX, CHECK, "the check", MOST_BY_INDEX);
    }
    each(&rows);
    say(&rows, ONE, CHECK, "the check", MOST_FOR_ONE);
    say(&rows, ALL, CHECK, "the check", MOST_FOR_ALL);
    let (with, without) = (ratio(&rows, ALL_BY_INDEX, CHECK), ratio(&rows, ALL, CHECK));
    println!("4,096 frames with an index: {with:.3} of the check, without {without:.3}");
}

/// All calls in turn.
fn measured<'a>(rounds: usize, bytes: &'a [u8], index: &'a Index, stack: &'a Stack) -> Vec<Row> {
    let mut list = vec![0; index.entries().len()];
    let (asked, mut answers) = (addresses(index.entries()), vec![0; 5 * ADDRESSES]);
    let [one, _, _, all] = stack.lists();
    let last = one.frames[0].address;
    let action = |index: Option<&'a Index>, list: &List| {
        let (mut image, mut list) = (stack.image.clone(), list.clone());
        move || {
            black_box(match index {
                Some(index) => stack.moved_by(index, &mut list, &mut image),
                None => stack.moved(bytes, &mut list, &mut image),
            });
        }
    };
    let rows = measure(
        rounds,
        &mut [
            (CHECK, &mut crate::on(bytes, treskibben::check)),
            (FILL, &mut || {
                let _ = black_box(treskibben::fill_index(black_box(bytes), &mut list));
            }),
            (
                FIND,
                &mut crate::on(bytes, move |bytes| treskibben::find(bytes, black_box(last))),
            ),
            (BY_INDEX, &mut || {
                let _ = black_box(black_box(index).find(black_box(last)));
            }),
            (MANY, &mut || {
                let _ = black_box(black_box(index).find_all_into(&asked, &mut answers));
            }),
            (ONE, &mut action(None, &one)),
            (ONE_BY_INDEX, &mut action(Some(index), &one)),
            (ALL, &mut action(None, &all)),
            (ALL_BY_INDEX, &mut action(Some(index), &all)),
        ],
    );
    rows
}

/// What an address of many costs beside the checks that the call may take, and beside one question through an index.
fn each(rows: &[Row]) {
    let checks = ratio(rows, MANY, CHECK);
    let time = |name: &str| {
        rows.iter()
            .find(|row| row.name == name)
            .map_or(0.0, |row| row.median)
    };
    let micros = |beside: f64| (time(MANY) - beside) * 1e3 / ADDRESSES as f64;
    let over = micros(MOST_CHECKS * time(CHECK));
    let verdict = if over <= MOST_EACH {
        "reached"
    } else {
        "NOT reached"
    };
    println!("{MANY}: {checks:.3} of the check");
    println!(
        "  beside {MOST_CHECKS} checks {over:.3} us each, at most {MOST_EACH} wanted: {verdict}"
    );
    println!(
        "  beside one question through the index {:.3} us each",
        micros(time(BY_INDEX))
    );
}

#[cfg(test)]
mod tests {
    use super::*;

    /// The sections lie as their order says, are accepted, and have an index that both implementations fill alike.
    #[test]
    fn sections_in_each_order() {
        for bytes in [
            section::build(200_000),
            section::short_records(2_000_000, 4_096),
        ] {
            for order in [Order::Rising, Order::Falling, Order::Shuffled] {
                let placed = placed(&bytes, order);
                let Ok(read) = reference::section::read(&placed) else {
                    panic!("the section is refused")
                };
                let own: Vec<u64> = read.records.iter().map(|record| record.address).collect();
                let rises = own.is_sorted_by(|one, next| one < next);
                let falls = own.is_sorted_by(|one, next| one > next);
                assert_eq!(
                    (rises, falls),
                    (order == Order::Rising, order == Order::Falling)
                );
                let index = agree("a small section", &placed);
                let asked = addresses(index.entries());
                assert_eq!(asked.len(), ADDRESSES);
                assert!(index
                    .find_all(&asked)
                    .is_ok_and(|answers| answers.iter().all(Option::is_some)));
            }
        }
    }
}
