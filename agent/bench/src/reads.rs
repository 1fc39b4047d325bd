//! Both proved ways to read eight little-endian bytes (`crates/reads`) beside a plain read in Rust, each over the same
//! million places of a section. The library reads by `u64::from_le_bytes` of a part of the slice.

mod ffi;
#[cfg(test)]
mod tests;

use crate::measure::{measure, table};
use crate::section::Numbers;
use std::hint::black_box;

/// Places that are read in one measured action.
const READS: usize = 1_000_000;

/// What is looked for at the places: eight bytes of 0, which stand in a section aligned and not.
const NUMBER: u64 = 0;

/// At how many of the places the number stands.
type Read = fn(&[u8], &[usize], u64) -> usize;

const HALVES: &str = "by halves";
const BYTES: &str = "by bytes";
const PLAIN: &str = "plain read";
const WAYS: [(&str, Read); 3] = [
    (HALVES, ffi::by_halves),
    (BYTES, ffi::by_bytes),
    (PLAIN, plain),
];

/// One table for each list of places.
pub fn rows(rounds: usize, bytes: &[u8]) {
    println!(
        "{READS} reads of eight bytes in each row, on a section of {} bytes",
        bytes.len()
    );
    agree(bytes, &near_end(bytes.len()), NUMBER);
    for (name, places) in lists(bytes.len()) {
        let found = agree_on_list(bytes, &places);
        println!("\nplaces {name}; all three find the number at {found} of them");
        let action = |read: Read| {
            let places = &places;
            move || {
                black_box(read(black_box(bytes), black_box(places), black_box(NUMBER)));
            }
        };
        let [mut halves, mut single, mut plain] = WAYS.map(|(_, read)| action(read));
        let rows = measure(
            rounds,
            &mut [
                (HALVES, &mut halves),
                (BYTES, &mut single),
                (PLAIN, &mut plain),
            ],
        );
        print!("{}", table(&rows, &[HALVES, PLAIN]));
    }
}

/// Reads in one way, once, over the first list: `./bench reads --count` counts the instructions of that.
pub fn once(way: &str, bytes: &[u8]) {
    let Some((_, read)) = WAYS.iter().find(|(name, _)| *name == way) else {
        panic!("no way to read {way}")
    };
    let (name, places) = lists(bytes.len()).swap_remove(0);
    let found = read(bytes, &places, NUMBER);
    println!("{way}, {READS} places {name}, found at {found}:");
}

/// All three give the same count, which is returned.
fn agree(bytes: &[u8], places: &[usize], number: u64) -> usize {
    let found = WAYS.map(|(_, read)| read(bytes, places, number));
    assert!(
        found.iter().all(|count| *count == found[0]),
        "{number} is found at {found:?} places"
    );
    found[0]
}

/// All three agree on the number, and on what stands at ten of the places. Gives the number's count.
fn agree_on_list(bytes: &[u8], places: &[usize]) -> usize {
    for at in places.iter().step_by(READS / 10) {
        let number = u64::from_le_bytes(bytes[*at..at + 8].try_into().unwrap());
        assert!(agree(bytes, places, number) > 0, "{number} stands at {at}");
    }
    let found = agree(bytes, places, NUMBER);
    assert!(found > 0, "{NUMBER} stands nowhere");
    found
}

/// The lists of places, each with its name. There are eight bytes at every place.
fn lists(length: usize) -> Vec<(&'static str, Vec<usize>)> {
    let words = length / 8 - 1;
    assert!(words >= READS, "the section has too few places");
    let mut numbers = Numbers(3);
    let mut random = || 8 * numbers.below(words as u64) as usize;
    let odd = |nth: usize| 1 + 2 * (nth % 4);
    vec![
        (
            "in order, aligned to 8",
            (0..READS).map(|nth| 8 * nth).collect(),
        ),
        (
            "in order, odd",
            (0..READS).map(|nth| 8 * nth + odd(nth)).collect(),
        ),
        (
            "random, aligned to 8",
            (0..READS).map(|_| random()).collect(),
        ),
        (
            "random, odd",
            (0..READS).map(|nth| random() + odd(nth)).collect(),
        ),
    ]
}

/// Places about the end of so many bytes, the most of which have no eight bytes.
fn near_end(length: usize) -> Vec<usize> {
    let near = length - 9..length + 2;
    near.chain([usize::MAX - 8, usize::MAX - 7, usize::MAX])
        .collect()
}

/// As one would write it in Rust. A place without eight bytes has no number.
#[inline(never)]
fn plain(bytes: &[u8], places: &[usize], number: u64) -> usize {
    let word = |at: usize| bytes.get(at..).and_then(|rest| rest.first_chunk());
    places
        .iter()
        .filter(|at| word(**at).is_some_and(|word| u64::from_le_bytes(*word) == number))
        .count()
}
