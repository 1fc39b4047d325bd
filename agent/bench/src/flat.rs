//! Flat sections: the check beside a plain read of the same bytes, on sections of the largest length; and the lookup on
//! sections that are made to be slow, beside their check.

use crate::measure::{measure, say, table};
use crate::words;
use generator::flat::edges::of_counts;
use generator::flat::slow::{section, Kind};
use generator::flat::{largest, Flat};
use std::hint::black_box;
use treskibben::flat;

/// The ratio to reach.
const MOST_READS: f64 = 3.0;
const READ: &str = "plain read";

/// What each of the largest sections is full of.
const FULL: [&str; 5] = [
    "flat check, constants",
    "flat check, frames",
    "flat check, records",
    "flat check, locations",
    "flat check, live-outs",
];
const MIXED: &str = "flat check, all arrays";

/// The check and the slow lookups.
pub fn rows(rounds: usize, limit: usize) {
    checks(rounds, limit);
    Kind::ALL
        .into_iter()
        .for_each(|kind| lookups(rounds, kind, limit));
}

/// Sections of the largest length: one full of each array, and one with all of them, as many as frames and records
/// reach.
fn checks(rounds: usize, limit: usize) {
    let mut sections: Vec<(&str, Vec<u8>)> = vec![];
    largest::sections(&mut |flat, _| sections.push((FULL[sections.len()], flat.encode())));
    sections.push((MIXED, mixed(limit).encode()));
    for (name, bytes) in &sections {
        assert_eq!(flat::check(bytes), Ok(()), "{name}");
        assert_eq!(reference::flat::check(bytes), Ok(()), "{name}");
    }
    let read = sections[0].1.clone();
    let mut plain = crate::on(&read, words::sum);
    let mut checks: Vec<_> = sections
        .iter()
        .map(|(_, bytes)| crate::on(bytes, flat::check))
        .collect();
    let mut actions: Vec<(&str, &mut dyn FnMut())> = vec![(READ, &mut plain)];
    for ((name, _), check) in sections.iter().zip(&mut checks) {
        actions.push((name, check));
    }
    let rows = measure(rounds, &mut actions);
    println!(
        "\nflat sections of {} bytes, and one of {} with all arrays",
        read.len(),
        sections[5].1.len()
    );
    println!("\n{}", table(&rows, &[READ]));
    for name in FULL.iter().chain(&[MIXED]) {
        say(&rows, name, READ, "a plain read", MOST_READS);
    }
}

/// As many entries of each array as indexes of 16 bits reach; half of the rest are frames, half constants.
fn mixed(limit: usize) -> Flat {
    const REACH: usize = 131_070;
    let rest = limit - 32 - REACH * (6 + 22 + 8 + 4) - 16;
    of_counts([rest / 16, rest / 56, REACH, REACH, REACH, REACH])
}

const LOOKUP: &str = "lookup, not found";
const CHECK: &str = "flat check";

/// The lookup on the largest slow section. It is bounded by the section's size, however often the frames name the same records.
fn lookups(rounds: usize, kind: Kind, limit: usize) {
    let slow = section(kind, limit, false);
    let bytes = slow.flat.encode();
    assert_eq!(
        flat::find(&bytes, slow.address).map_err(|refusal| refusal.number()),
        Err(41)
    );
    let rows = measure(
        rounds,
        &mut [
            (
                LOOKUP,
                &mut crate::on(&bytes, |bytes| flat::find(bytes, black_box(slow.address))),
            ),
            (CHECK, &mut crate::on(&bytes, flat::check)),
        ],
    );
    let (frames, records) = (slow.flat.frames.len(), slow.flat.records.len());
    println!(
        "\na section of {} bytes made to be slow ({kind:?}): {frames} frames, {records} records",
        bytes.len()
    );
    println!("\n{}", table(&rows, &[CHECK]));
    println!("the frames name {} records in all", slow.steps());
}

#[cfg(test)]
mod tests {
    use super::*;

    #[test]
    fn the_mixed_section_has_all_arrays_and_nearly_the_largest_length() {
        let flat = mixed(16_777_216);
        let bytes = flat.encode();
        assert!(flat.counts().iter().all(|count| *count >= 131_070));
        assert!(
            bytes.len() <= 16_777_216 && bytes.len() > 16_777_000,
            "{}",
            bytes.len()
        );
        assert_eq!(reference::flat::check(&bytes), Ok(()));
    }
}
